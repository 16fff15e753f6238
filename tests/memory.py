#!/usr/bin/env python3
"""The functions whose one refusal is want of memory, crate by crate.

    python3 tests/memory.py          prints them, and how many they are
    python3 tests/memory.py NAME     those of one crate

No clause can say that there is memory, so a body of such a function that refuses at once meets its contract, unless its clauses ask more of
what is refused: `rt plant` tries it. Left out are those whose clauses say that they never refuse, those whose refusal has a cause, and the
crates of tests.
"""
import glob
import os
import re
import sys

TOP = os.path.join(os.path.dirname(os.path.abspath(__file__)), "..")
FUNCTION = re.compile(r"^[ \t]*(?:pub(?:\([a-z]+\))? )?(?:final )?(?:const )?fn (\w+)", re.M)
IMPL = re.compile(r"^(?:impl\b(?:<[^{]*?>)?\s+(?:[^{]*?\sfor\s+)?|pub trait |trait )(\w+)", re.M)
NEVER = re.compile(r"IsOk result|result ≡ Ok\b")
CAUSED = re.compile(r"OnErr result \(.*splits_of pass\.old ≡ 0")


def answer(text):
    """The type that a function answers and its clauses, by the text behind its name."""
    depth, place = 0, 0
    if text.startswith("<"):
        for found in re.finditer(r"->|=>|<|>", text):
            depth += {"<": 1, ">": -1}.get(found.group(), 0)
            if depth == 0:
                place = found.end()
                break
    for place in range(text.index("(", place), len(text)):
        depth += {"(": 1, ")": -1}.get(text[place], 0)
        if depth == 0:
            break
    found = re.match(r"\s*->\s*(.*?)\s*(?:;|\{|\b(?:where|requires|ensures|measure|ghost)\b)", text[place + 1:], re.S)
    end = re.search(r"^\s*\{\s*$|^\s*(?:pub )?(?:final )?fn |;\s*$", text[place + 1:], re.M)
    return (found.group(1) if found else ""), text[place + 1:place + 1 + (end.start() if end else len(text))]


def functions(path):
    """The functions of a file, each with the type or trait in which it stands."""
    with open(path, encoding="utf-8") as it:
        code = re.sub(r"//[^\n]*", "", it.read())
    code = code.partition("#[cfg(test)]")[0]
    impls = [(found.start(), found.group(1)) for found in IMPL.finditer(code)]
    for found in FUNCTION.finditer(code):
        within = [name for start, name in impls if start < found.start()] if code[found.start()] in " \t" else []
        yield (f"{within[-1]}::" if within else "") + found.group(1), *answer(code[found.end():])


def refusing(crate):
    found = []
    for path in sorted(glob.glob(f"{TOP}/crates/{crate}/src/**/*.rt", recursive=True)):
        for name, answered, clauses in functions(path):
            free = not NEVER.search(clauses) and not CAUSED.search(clauses)
            if re.search(r"\bResult<.*\bNoMemory\)?>", answered, re.S) and free and name not in found:
                found.append(name)
    return found


def main(words):
    crates = words or sorted(os.path.basename(path) for path in glob.glob(f"{TOP}/crates/*") if "_tests_" not in path)
    count = 0
    for crate in crates:
        names = refusing(crate)
        count += len(names)
        if names:
            print(f"{crate}: {', '.join(names)}")
    print(f"{count} functions")
    return 0


if __name__ == "__main__":
    if len(sys.argv) > 2 or sys.argv[1:2] and sys.argv[1].startswith("-"):
        print(__doc__, file=sys.stderr)
        sys.exit(2)
    sys.exit(main(sys.argv[1:]))
