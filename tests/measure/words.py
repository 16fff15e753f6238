#!/usr/bin/env python3
"""What the calls on the shared words cost, beside the bare atomic operations in plain Rust: prints the table of history.md.

usage: words.py [--rounds 9]

The calls stand in words_crate, as files that belong into crates/vt_tests_words: the gate has no use for them. They are laid into a copy of the crates, where
`rt test` proves and builds them, which takes minutes; words.rs is built here. Each call is timed as many times as a test of words_crate makes it, from
outside, less the time of the test that makes a tenth of these calls; so the start of the process and what is set up before are left out. Both programs run
in turn, by `chrt -f 40` where it may. It prints the medians and the least times. It wants rustc.
"""
import argparse
import os
import shutil
import statistics
import subprocess
import tempfile
import time

HERE = os.path.dirname(os.path.abspath(__file__))
TOP = os.path.dirname(os.path.dirname(HERE))

# of each call its name in the table, its module and its name among the tests, how often the test makes it, and how many make one time of words.rs
CALLS = [
    ("a pin and an unpin", "calls", "holds", 10_000_000, 1),
    ("an entry", "calls", "entries", 100_000_000, 1),
    ("a word", "calls", "words", 100_000_000, 1),
    ("a fill of 64x64, one byte a sample", "calls", "narrow_fills", 6_000, 1),
    ("a fill of 64x64, two bytes a sample", "calls", "wide_fills", 6_000, 1),
    ("a round: a fill of 2x2 and two publishes", "rounds", "rounds", 1_000_000, 1_000),
]


def tests_in(folder):
    """Builds the tests of vt_tests_words with those of words_crate among them, in a copy of the crates that is made in a folder, and answers their program."""
    shutil.copytree(os.path.join(TOP, "crates"), os.path.join(folder, "crates"), ignore=shutil.ignore_patterns("out", "must-fail"))
    for name in ("crates.txt", "HANDLES"):
        shutil.copy(os.path.join(TOP, name), folder)
    crate = os.path.join(folder, "crates", "vt_tests_words")
    for at, _, names in os.walk(os.path.join(HERE, "words_crate")):
        for name in names:
            place = os.path.join(crate, os.path.relpath(at, os.path.join(HERE, "words_crate")), name.removesuffix(".txt"))
            os.makedirs(os.path.dirname(place), exist_ok=True)
            shutil.copy(os.path.join(at, name), place)
    for name, line in (("src/lib.rt", "#[cfg(test)]\nmod measured;\n"), ("proofs/Lib.antt", "mod Blank\n"), ("specs/Lib.antt", "pub mod BlankStreams\n")):
        with open(os.path.join(crate, name), "a", encoding="utf-8") as it:
            it.write(line)
    subprocess.run(["rt", "test"], cwd=crate, stdin=subprocess.DEVNULL, stdout=subprocess.DEVNULL, check=True)
    return os.path.join(crate, "out", "vt_tests_words_tests")


def first_words():
    """`chrt -f 40`, where this process may call it."""
    first = ["chrt", "-f", "40"]
    try:
        return first if subprocess.run([*first, "true"], stderr=subprocess.DEVNULL).returncode == 0 else []
    except OSError:
        return []


def seconds(words):
    begin = time.monotonic()
    subprocess.run(words, check=True, stdout=subprocess.DEVNULL)
    return time.monotonic() - begin


def nanoseconds(runs, calls):
    """The nanoseconds of a call by the medians and by the least times of runs, each with one that makes so many calls and one that makes a tenth of them."""
    return [(of(many for many, _ in runs) - of(few for _, few in runs)) * 1e9 / (0.9 * calls) for of in (statistics.median, min)]


def main():
    parser = argparse.ArgumentParser()
    parser.add_argument("--rounds", type=int, default=9)
    asked = parser.parse_args()
    first = first_words()
    timed = lambda many, few: (seconds([*first, *many]), seconds([*first, *few]))
    with tempfile.TemporaryDirectory() as folder:
        tests = tests_in(folder)
        plain = os.path.join(folder, "words")
        subprocess.run(["rustc", "-O", os.path.join(HERE, "words.rs"), "-o", plain], check=True)
        bare = [timed([plain, "stores", "10000000"], [plain, "stores", "1000000"]) for _ in range(asked.rounds)]
        print("a store in plain Rust: %.2f ns, at least %.2f\n" % tuple(nanoseconds(bare, 10_000_000)))
        print("| call | ns | plain Rust, ns | times | least ns | plain Rust, least ns | times |\n|---|---|---|---|---|---|---|", flush=True)
        for title, module, name, calls, group in CALLS:
            ours, others = [], []
            for _ in range(asked.rounds):
                ours.append(timed(*([tests, "measured::%s::%s_%s" % (module, often, name)] for often in ("many", "few"))))
                others.append(timed(*([plain, name, str(times)] for times in (calls // group, calls // group // 10))))
            pairs = zip(nanoseconds(ours, calls), nanoseconds(others, calls))
            print("| %s | %s |" % (title, " | ".join("%.2f | %.2f | %.2f" % (our, other, our / other) for our, other in pairs)), flush=True)


if __name__ == "__main__":
    main()
