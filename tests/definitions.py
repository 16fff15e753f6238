#!/usr/bin/env python3
"""The page docs/DEFINITIONS.md: each crate of crates.txt with its files of definitions; and the table of crates in docs/ARCHITECTURE.md.

    python3 tests/definitions.py            prints the page
    python3 tests/definitions.py --write    writes it, and the table
    python3 tests/definitions.py --check    the status is 1 where either is not what would be written, or a file begins with no comment

A crate's row in the table is the first sentence of its `src/lib.rt` or `src/main.rt`, cut at its first colon where it is long. A file's row in the page is the first sentence of its first
comment. Crates come in the order of crates.txt, under its headings. Files come in the order of `specs/Lib.antt`, but after those of the crate that they
cite. The page begins with tests/definitions.md. The table stands between two comments, `<!-- crates -->` and `<!-- end of crates -->`.
"""
import os
import re
import sys

TOP = os.path.join(os.path.dirname(os.path.abspath(__file__)), "..")
PAGE = "docs/DEFINITIONS.md"
PREFACE = "tests/definitions.md"
MAP, BEGIN, END = "docs/ARCHITECTURE.md", "<!-- crates -->\n", "<!-- end of crates -->\n"


def read(name):
    with open(f"{TOP}/{name}", encoding="utf-8") as it:
        return it.read()


def groups():
    """The headings of crates.txt, each with its crates."""
    found = []
    for part in re.split(r"\n\s*\n", read("crates.txt")):
        lines = part.splitlines()
        heading = next((line[1:].strip() for line in lines if line.startswith("#")), "")
        crates = [line.split(":")[0].split()[0] for line in lines if ":" in line and not line.startswith("#")]
        if crates:
            found.append((heading, crates))
    return found


def comment(text, mark):
    """The lines at the beginning of a text that are comments, without their mark, as one line."""
    lines = []
    for line in text.splitlines():
        if not line.startswith(mark):
            break
        lines.append(line[len(mark):].strip())
    return " ".join(lines)


def first_sentence(text):
    return re.split(r"(?<=\.)\s+(?=[A-Z`])", text)[0].replace("|", chr(92) + "|")


def about(crate):
    """What a crate is, by the first sentence about it; of a long one the part before its first colon or semicolon."""
    for name in ("lib", "main"):
        path = f"crates/{crate}/src/{name}.rt"
        if os.path.exists(f"{TOP}/{path}"):
            sentence = first_sentence(comment(read(path), "//!"))
            return sentence if len(sentence) <= 120 else re.sub(r"^(.{30,}?)[:;] .*", r"\1.", sentence)
    return ""


def modules(crate, name="Lib"):
    """The files of definitions of a crate, as a list of their paths below `specs`, in the order in which they are declared."""
    path = f"crates/{crate}/specs/{name}.antt"
    if not os.path.exists(f"{TOP}/{path}"):
        return []
    below = "" if name == "Lib" else f"{name}/"
    found = []
    for module in re.findall(r"^(?:pub )?mod (\w+)", read(path), re.M):
        if module != "declared":
            found += modules(crate, below + module) + [below + module]
    return found


def ordered(crate):
    """The same, each behind those of the crate that it cites."""
    declared = modules(crate)
    found = []

    def put(module):
        if module in found or module not in declared:
            return
        declared.remove(module)
        for cited in re.findall(rf"^(?:pub )?use Rattle\.{crate}\.specs\.([\w.]+?)(?:\.\{{|\s|$)", read(f"crates/{crate}/specs/{module}.antt"), re.M):
            put(cited.replace(".", "/"))
        found.append(module)

    for module in list(declared):
        put(module)
    return found


def row(crate, module):
    folder, _, name = module.rpartition("/")
    about_it = first_sentence(comment(read(f"crates/{crate}/specs/{module}.antt"), "--"))
    return f"| {folder + ' ' if folder else ''}`{name}` | {about_it} |"


def page():
    parts = [read(PREFACE).rstrip()]
    for heading, crates in groups():
        tables = []
        for crate in crates:
            rows = [row(crate, module) for module in ordered(crate)]
            if rows:
                tables.append("\n".join([f"| **{crate}** | |", "|---|---|", *rows]))
        if tables:
            parts += [f"## {heading}", *tables]
    return "\n\n".join(parts) + "\n"


def crate_table():
    """The table of crates, under the headings of crates.txt."""
    rows = ["| crate | what it is |", "|---|---|"]
    for heading, crates in groups():
        rows.append(f"| **{heading.split(':')[0]}** | |")
        rows += [f"| {crate} | {about(crate)} |" for crate in crates]
    return "\n".join(rows) + "\n"


def with_table(text):
    """The page of the architecture with the table as it would be written; None where the two comments are missing."""
    head, begin, rest = text.partition(BEGIN)
    _, end, tail = rest.partition(END)
    return f"{head}{begin}{crate_table()}{end}{tail}" if begin and end else None


def check():
    """Reports what is wrong with both pages: files that begin with no comment, and a text that is not the one that would be written."""
    status = 0
    for crate in (name for _, crates in groups() for name in crates):
        for module in modules(crate):
            if not comment(read(f"crates/{crate}/specs/{module}.antt"), "--"):
                print(f"crates/{crate}/specs/{module}.antt begins with no comment", file=sys.stderr)
                status = 1
    if read(PAGE) != page():
        print(f"{PAGE} is stale: python3 tests/definitions.py --write", file=sys.stderr)
        status = 1
    if read(MAP) != with_table(read(MAP)):
        print(f"{MAP} has another table of crates, or none: python3 tests/definitions.py --write", file=sys.stderr)
        status = 1
    return status


def main(words):
    if not words:
        sys.stdout.write(page())
        return 0
    if words == ["--write"]:
        with open(f"{TOP}/{PAGE}", "w", encoding="utf-8") as it:
            it.write(page())
        table = with_table(read(MAP))
        if table is None:
            print(f"{MAP} lacks {BEGIN.strip()} or {END.strip()}", file=sys.stderr)
            return 1
        with open(f"{TOP}/{MAP}", "w", encoding="utf-8") as it:
            it.write(table)
        return 0
    if words == ["--check"]:
        return check()
    print(__doc__, file=sys.stderr)
    return 2


if __name__ == "__main__":
    sys.exit(main(sys.argv[1:]))
