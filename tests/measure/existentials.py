#!/usr/bin/env python3
"""Fields of the definitions in crates/*/specs that a body may choose: existentials, to be read.

    python3 tests/measure/existentials.py              prints each free field with its type
    python3 tests/measure/existentials.py CRATE ..     those of these crates
    python3 tests/measure/existentials.py --all        also those that an equation ties

A record in a clause is proved by giving its fields. A field that holds a value, of which later
fields speak, is a witness: the prover finds one, and a wrong body may invent one. It is tied where
an equation of the record names it with an argument, or with a tied field. A free one may be right:
then another statement ties it, which this script does not understand.
"""
import argparse
import glob
import os
import re
import sys

TOP = os.path.normpath(os.path.join(os.path.dirname(os.path.abspath(__file__)), "..", ".."))
RECORD = re.compile(r"^pub record (\S+)(.*)$")
FIELD = re.compile(r"^  pub (\S+) : (.*)$")
STATEMENT = re.compile(r"^abbrev pub (\S+) :(.*)$", re.M)
NAME = re.compile(r"[^\s(){}\[\]×→,;=]+")
ARGUMENT = re.compile(r"[({]([^:(){}]+) :")
SIGNS = (" ≡ ", " ≢ ", " ≤ ", " < ", "→", "⊎")
VERBS = ("Is", "Are", "Has", "May")


def names_in(text):
    """The names in a term, each up to its first dot: `b.round.first` gives `b`."""
    return {name.split(".")[0] for name in NAME.findall(text)}


def records(lines):
    """For each record of a file its name, its head, and its fields: (line, name, type) each."""
    found = []
    part = None
    for number, line in enumerate(lines, 1):
        start, field = RECORD.match(line), FIELD.match(line)
        if start:
            found.append([start.group(1), start.group(2), []])
            part = "head"
        elif field and part:
            found[-1][2].append([number, field.group(1), field.group(2)])
            part = "field"
        elif not line.startswith("  "):
            part = None
        elif part == "head":
            found[-1][1] += " " + line.strip()
        elif part == "field":
            found[-1][2][-1][2] += " " + line.strip()
    return found


def is_statement(kind, statements):
    """Whether a field is something to be proved, and no value."""
    first = kind.lstrip("(").split(" ")[0]
    return any(sign in kind for sign in SIGNS) or first in statements or first.startswith(VERBS)


def statements_of(files):
    """The names of the definitions that are statements; a record of values alone is none."""
    found = set()
    fields_of = {}
    for text, made in files:
        for name, kind in STATEMENT.findall(text):
            if kind.split("→")[-1].strip() == "Type 0":
                found.add(name)
        fields_of.update({name: fields for name, _, fields in made})
    found.update(fields_of)
    while True:
        views = {
            name
            for name in found & set(fields_of)
            if not any(is_statement(kind, found) for _, _, kind in fields_of[name])
        }
        if not views:
            return found
        found -= views


def equations_of(kind):
    """The equations that a field states without a premise."""
    if "→" in kind or "⊎" in kind:
        return []
    return [part for part in kind.split(" × ") if " ≡ " in part]


def tied_fields(head, fields):
    """The names of the fields that an equation ties to an argument, or to a tied field."""
    given = {name for group in ARGUMENT.findall(head) for name in group.split()}
    own = {name for _, name, _ in fields}
    tied = set()
    while True:
        more = set()
        for _, _, kind in fields:
            for equation in equations_of(kind):
                named = names_in(equation)
                new = (named & own) - tied
                if len(new) == 1 and named & (given | tied):
                    more |= new
        if not more:
            return tied
        tied |= more


def witnesses(head, fields, statements):
    """The fields that hold a value of which a later one speaks, and whether each is tied."""
    tied = tied_fields(head, fields)
    for place, (line, name, kind) in enumerate(fields):
        spoken_of = any(name in names_in(later) for _, _, later in fields[place + 1 :])
        if spoken_of and not is_statement(kind, statements):
            yield line, name, kind, name in tied


def main():
    parser = argparse.ArgumentParser(description=__doc__.split("\n")[0])
    parser.add_argument("crates", nargs="*", metavar="CRATE", help="only these crates")
    parser.add_argument("--all", action="store_true", help="also fields that an equation ties")
    options = parser.parse_args()
    files = {}
    for path in sorted(glob.glob(f"{TOP}/crates/*/specs/*.antt")):
        with open(path, encoding="utf-8") as it:
            text = it.read()
        files[os.path.relpath(path, TOP)] = text, records(text.split("\n"))
    known = {path.split(os.sep)[1] for path in files}
    for crate in options.crates:
        if crate not in known:
            sys.exit(f"existentials: {crate} has no specs; these have: {', '.join(sorted(known))}")
    statements = statements_of(files.values())
    seen, counts = 0, {True: 0, False: 0}
    for path, (_, made) in files.items():
        if options.crates and path.split(os.sep)[1] not in options.crates:
            continue
        for record, head, fields in made:
            seen += 1
            if record not in statements:
                continue
            for line, name, kind, is_tied in witnesses(head, fields, statements):
                counts[is_tied] += 1
                if options.all or not is_tied:
                    mark = "tied" if is_tied else "free"
                    print(f"{path}:{line}: {mark} {record}.{name} : {kind}")
    print(f"{seen} records, {counts[False]} free fields, {counts[True]} tied fields")


main()
