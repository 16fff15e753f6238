#!/usr/bin/env python3
"""Runs the program on random inputs, options, failing calls and conditions of the machine, and judges each run by the reference beside it.

usage: run.py [SECONDS] [--program PROGRAM] [--seed N] [--only COMMAND..] [--without WORD..] [--every SECONDS] [--sum FILE] [--until FILE] [--rest FILE]

(3600, crates/vtex/out/vtex, a new seed, all commands and a line each 600 seconds where they are not given; it wants gcc)

Outside the gate. A case is a command with random textures, paths, stores and journals, of which some are damaged or missing, and random options. One in
three has a call that fails, comes short or stops the program; cases with a word of --without are left out. Each runs under a condition: on all processors, on two, on one, beside busy loops, or with
files that make each call wait. A run that ends in no time, or is at work too long, is wrong. It stops where the file of --until is there, and begins no
case while that of --rest is.

Each so many seconds it prints a line of all so far. At the end it says how many cases of each kind it ran, under which conditions, how many inputs were damaged
in which way, how many passes, versions and rows the journals of walks told and at which versions of their passes rows were drawn, and how many cases were
wrong; each of these is kept in a folder with its words, its inputs and what the program left. With --sum these numbers are added to those of earlier runs in
that file. The same seed gives the same cases, but not the same order in which tiles come.
"""
import argparse
import json
import os
import random
import shutil
import subprocess
import sys
import tempfile
import time
import traceback
from collections import Counter

here = os.path.dirname(os.path.abspath(__file__))
top = os.path.dirname(os.path.dirname(here))
sys.path[:0] = [os.path.join(top, "tests"), os.path.join(top, "tests", "faults")]

from cases import MAKERS, case_of
from failing import KINDS, UNTOLD, Failing, doubt_of, doubt_of_walk, flaws_of_reads
from judge import Doubt
from stores import contents

# How long a run may take, in seconds: long, since the machine may have no time for it.
LIMIT = 1800
# The conditions: how many processors a run may use (0: all), how many busy loops run beside it for each processor of the machine, and the most
# microseconds that files make a call wait.
CONDITIONS = {
    "all processors": (0, 0, 0),
    "two processors": (2, 0, 0),
    "one processor": (1, 0, 0),
    "busy loops": (0, 2, 0),
    "slow files": (0, 0, 3000),
    "slow files, one processor": (1, 0, 1000),
}


def rows_of(text):
    """What a journal tells, counted: its passes, its versions, and its rows by where in their pass the version lies at which they were drawn."""
    counts, start, last = Counter(), 0, 0
    for line in text.split(b"\n")[:-1]:
        words = line.split(b" ")
        if words[0] == b"pass":
            start = last
            counts["passes"] += 1
        elif words[0] in (b"map", b"unmap"):
            last = int(words[1])
            counts["versions"] += 1
        elif words[0] == b"row":
            version = int(words[3])
            place = "at the start" if version == start else "at the newest version" if version == last else "in between"
            counts["rows " + (place if start < last else "of passes that change nothing")] += 1
    return counts


class Busy:
    """So many loops that are always at work."""

    def __init__(self, count):
        self.count, self.loops = count, []

    def __enter__(self):
        self.loops = [subprocess.Popen(["sh", "-c", "while :; do :; done"]) for _ in range(self.count)]

    def __exit__(self, *_):
        for loop in self.loops:
            loop.kill()
            loop.wait()


class Soak:
    def __init__(self, program, scratch, commands, without):
        self.failing, self.folder = Failing(program, scratch, LIMIT), os.path.join(scratch, "folder")
        self.commands, self.without, self.wrong, self.kept = commands, set(without), 0, None
        self.kinds, self.calls, self.conditions, self.damages, self.told = (Counter() for _ in range(5))
        os.mkdir(self.folder)
        os.chdir(self.folder)

    def flaws(self, case, kind, at):
        """What is wrong with what the case leaves where this call of the kind fails, or none with 0."""
        case.fill()
        left, _, reads = self.failing.run(case.words, kind, at)
        doubt = doubt_of(kind) if at else Doubt()
        if at and case.settings and contents("s.vts"):
            doubt = doubt_of_walk(kind, reads, "s.vts", case.settings)
        try:
            found = case.changed() + case.flaws(left, doubt)
            if found or not case.settings or (at and kind in UNTOLD):
                return found
            return flaws_of_reads(reads, "s.vts", "p.path", case.settings, left)
        except Exception:
            return ["the judge failed: " + traceback.format_exc()]

    def keep(self, case, seed, told, flaws):
        """Copies the folder of a case that is wrong, with a text that tells it."""
        self.kept = self.kept or tempfile.mkdtemp(prefix="vtex-soak-")
        folder = os.path.join(self.kept, "%d" % seed)
        shutil.copytree(self.folder, folder, dirs_exist_ok=True)
        text = "seed %d\nwords %r\n%s\n%s\n" % (seed, case.words, told, "\n".join(flaws))
        with open(os.path.join(folder, "case.txt"), "w") as file:
            file.write(text)
        print(text + "kept in " + folder, flush=True)

    def try_case(self, seed):
        case, chance = case_of(seed, self.commands), random.Random("call %d" % seed)
        if self.without.intersection(case.words):
            return
        kind, at, condition = chance.choice(list(KINDS)), 0, chance.choice(list(CONDITIONS))
        processors, loops, self.failing.slow = CONDITIONS[condition]
        own = sorted(os.sched_getaffinity(0))
        self.failing.processors = chance.sample(own, min(processors, len(own)))
        with Busy(loops * len(own)):
            try:
                if chance.randrange(3) == 0:
                    case.fill()
                    calls = self.failing.run(case.words, kind, 0)[1]
                    at = chance.randint(1, calls) if calls else 0
                flaws = self.flaws(case, kind, at)
            except subprocess.TimeoutExpired as expired:
                flaws = ["no end within %s seconds" % expired.timeout]
        self.kinds[case.kind + (", a call fails" if at else "")] += 1
        self.calls.update([kind] if at else [])
        self.conditions[condition] += 1
        if case.settings and os.path.isfile("j.txt"):
            self.told.update(rows_of(contents("j.txt")))
        self.damages.update(case.damages)
        if flaws:
            self.wrong += 1
            self.keep(case, seed, "%s, failing call %s %d" % (condition, kind, at), flaws)

    def numbers(self):
        """All that was counted."""
        tables = ("", self.kinds), ("failing call, ", self.calls), ("under ", self.conditions), ("damaged input, ", self.damages), ("journals of walks, ", self.told)
        counts = Counter({title + name: count for title, table in tables for name, count in table.items()})
        counts["cases"], counts["wrong"] = sum(self.kinds.values()), self.wrong
        return counts


def line_of(counts):
    """The numbers in one line."""
    told = lambda name: counts.get("journals of walks, " + name, 0)
    newest, between = told("rows at the newest version"), told("rows in between")
    rows = newest + between + told("rows at the start") + told("rows of passes that change nothing")
    text = "%d cases, %d wrong, %d passes, %d rows; %d rows name a version that their own pass made, %d of them not its newest"
    return text % (counts["cases"], counts["wrong"], told("passes"), rows, newest + between, between)


def summed(name, counts):
    """The numbers with those of earlier runs in a file, which holds them from now on."""
    if name is None:
        return counts
    earlier = {}
    if os.path.exists(name):
        with open(name) as file:
            earlier = json.load(file)
    all_counts = Counter(earlier) + counts
    all_counts["wrong"] = earlier.get("wrong", 0) + counts["wrong"]
    with open(name + ".new", "w") as file:
        json.dump(all_counts, file, indent=1, sort_keys=True)
    os.rename(name + ".new", name)
    return all_counts


def words_given():
    parser = argparse.ArgumentParser()
    parser.add_argument("seconds", type=float, nargs="?", default=3600)
    parser.add_argument("--program", default=os.path.join(top, "crates/vtex/out/vtex"))
    parser.add_argument("--seed", type=int, default=random.randrange(10**9))
    parser.add_argument("--only", nargs="+", default=list(MAKERS), choices=list(MAKERS))
    parser.add_argument("--without", nargs="+", default=[])
    parser.add_argument("--every", type=float, default=600)
    for name in ("--sum", "--until", "--rest"):
        parser.add_argument(name, type=os.path.abspath)
    return parser.parse_args()


def main():
    options = words_given()
    seed, begun = options.seed, time.monotonic()
    print("seed %d" % seed, flush=True)
    with tempfile.TemporaryDirectory() as scratch:
        soak, told = Soak(os.path.abspath(options.program), scratch, options.only, options.without), begun
        while time.monotonic() < begun + options.seconds and not (options.until and os.path.exists(options.until)):
            if options.rest and os.path.exists(options.rest):
                time.sleep(1)
                continue
            soak.try_case(seed)
            seed += 1
            if time.monotonic() > told + options.every:
                told = time.monotonic()
                print("%s: %s" % (time.strftime("%H:%M:%S"), line_of(soak.numbers())), flush=True)
        os.chdir(top)
    counts = soak.numbers()
    for title, count in sorted(counts.items()):
        print("%s: %d" % (title, count))
    print(line_of(counts))
    if options.sum:
        print("with earlier runs: " + line_of(summed(options.sum, counts)))
    return 1 if soak.wrong else 0


if __name__ == "__main__":
    sys.exit(main())
