#!/usr/bin/env python3
"""What crates.txt costs: its uses, and the readings of crates that the toolchain makes for them.

    python3 tests/measure/uses.py             the sums, the uses that could go, and the dearest ones
    python3 tests/measure/uses.py --most N    the same; the status is 1 where there are more than N readings, or a use that nothing names

To sum up what a crate is made from, the toolchain goes through the crates that it lists and through theirs, and remembers none that
it has read. So a crate costs one reading and those of each crate that it lists. A round sums up every crate once.
A use can go where no file of the crate names the other one: crates between pass on what public clauses cite, by `pub use`.
"""
import glob
import os
import re
import sys

TOP = os.path.join(os.path.dirname(os.path.abspath(__file__)), "..", "..")
NAMED = re.compile(r"(?<![\w.:])(?:Rattle\.(\w+)|(\w+)::)")


def crates():
    """The crates of crates.txt, each with those of the repository that it lists."""
    found = {}
    with open(f"{TOP}/crates.txt") as it:
        for line in it:
            name, colon, uses = line.partition("#")[0].partition(":")
            if colon:
                found[name.split()[0]] = uses.split()
    return {name: [use for use in uses if use in found] for name, uses in found.items()}


def readings(uses):
    """For each crate how many crates are read to sum it up."""
    counted = {}

    def count(name):
        if name not in counted:
            counted[name] = 1 + sum(map(count, uses[name]))
        return counted[name]

    for name in uses:
        count(name)
    return counted


def ways(uses, counted):
    """For each crate how many ways lead to it from the crates that are summed up."""
    found = dict.fromkeys(uses, 1)
    for name in sorted(uses, key=counted.get, reverse=True):
        for use in uses[name]:
            found[use] += found[name]
    return found


def named_in(crate):
    """The crates that a crate's files name."""
    found = set()
    for path in glob.glob(f"{TOP}/crates/{crate}/**/*", recursive=True):
        if path.endswith((".rt", ".antt")) and "/out/" not in path:
            with open(path) as it:
                text = re.sub(r"//[^\n]*", "", it.read()) if path.endswith(".rt") else it.read()
            found.update(name for pair in NAMED.findall(text) for name in pair)
    return found


def main(most):
    uses = crates()
    counted = readings(uses)
    found = ways(uses, counted)
    unnamed = [(name, use) for name in uses for use in set(uses[name]) - named_in(name)]
    total = sum(counted.values())
    print(f"uses: {sum(map(len, uses.values()))} of {len(uses)} crates; readings a round: {total}")
    for name, use in sorted(unnamed):
        print(f"could go: {name} lists {use} and names it nowhere")
    dear = sorted(((found[name] * counted[use], name, use) for name in uses for use in uses[name]), reverse=True)
    for price, name, use in dear[:10]:
        print(f"{price:6} readings: {name} lists {use}")
    if most is not None and (total > most or unnamed):
        print(f"uses: more than {most} readings, or a use that nothing names", file=sys.stderr)
        return 1
    return 0


if __name__ == "__main__":
    if len(sys.argv) == 1:
        sys.exit(main(None))
    if len(sys.argv) == 3 and sys.argv[1] == "--most" and sys.argv[2].isdecimal():
        sys.exit(main(int(sys.argv[2])))
    print(__doc__, file=sys.stderr)
    sys.exit(2)
