#!/usr/bin/env python3
"""Runs the program on foreign files, made by the grammar of each format, and compares what it says and leaves with the reference beside it.

usage: run.py [--cases N] [--workers N] [--seed N] [--only COMMAND..] [--limit SECONDS] [--program PROGRAM]

(1,000 cases, one worker, a new seed, all commands that read files, 10 seconds and crates/vtex/out/vtex where they are not given)

The gate tries 300 cases. A case is a command of ../soak/cases.py with small lawful inputs, of which mostly one is mutated by the parts of its grammar (mutations.py):
numbers at bounds and beyond words of 32 and 64 bits, other spellings, gaps and separators, fields and lines left out, repeated, exchanged or taken from
elsewhere, journals that are counted anew after that, rasters and tiles cut short, bytes changed, other files in their place. Each run has to end within the
limit with the status, the line and the files that docs/FORMATS.md says by stores.py, textures.py, journals.py, walks.py and judge.py; where it succeeds and has
a journal, the pictures have to be those of client.py too.

At the end it says how often which mutation was made, and by command how often which answer came. A case that is wrong is printed with its seed, and its words
and files are kept in a folder. The same seed gives the same cases whatever the number of workers is: `--seed N --cases 1` runs the case of seed N alone.
"""
import argparse
import os
import random
import re
import shutil
import subprocess
import sys
import tempfile
import time
import traceback
from collections import Counter
from multiprocessing import Pool

here = os.path.dirname(os.path.abspath(__file__))
top = os.path.dirname(os.path.dirname(here))
sys.path[:0] = [os.path.join(top, "tests"), os.path.join(top, "tests", "soak"), here]

from cases import MAKERS
from client import pictures_of
from judge import Doubt, Left
from mutations import Mutations, is_small
from stores import contents

WEIGHTS = {"plain": 5, "tile": 4, "info": 2, "upgrade": 2, "walk": 4, "replay": 9}


def case_of(seed, commands):
    """The case of a seed among those of some commands."""
    make, case = Mutations(seed), None
    while case is None or not is_small(case):
        make.damages = []
        case = MAKERS[make.random.choices(commands, [WEIGHTS[command] for command in commands])[0]](make)
        make.mutate(case)
    case.damages = make.damages
    return case


def flaws_of_client(case):
    """What is wrong with the pictures by the client that trusts its files; it draws those that have a journal."""
    if not os.path.exists("j.txt"):
        return []
    pictures = enumerate(pictures_of("s.vts", "p.path", "j.txt", "bilinear" if "bilinear" in case.words else "nearest"))
    return ["picture %d is not that of the client" % k for k, picture in pictures if contents("f%04d.ppm" % k) != picture]


class Worker:
    """Runs cases in a folder of its own."""

    def __init__(self, options, scratch, kept):
        self.options, self.kept = options, kept
        self.folder = tempfile.mkdtemp(dir=scratch)
        os.chdir(self.folder)

    def run(self, case):
        """What the command left, or None where it came to no end."""
        command = [self.options.program, *case.words]
        try:
            done = subprocess.run(command, stdin=subprocess.DEVNULL, capture_output=True, timeout=self.options.limit)
        except subprocess.TimeoutExpired:
            return None
        return Left(done.returncode, done.stdout, done.stderr)

    def flaws(self, case, left):
        """What is wrong with what a case left."""
        if left is None:
            return ["no end within %s seconds" % self.options.limit]
        try:
            flaws = case.changed() + case.flaws(left, Doubt())
            return flaws or (flaws_of_client(case) if left.status == 0 else [])
        except Exception:
            return ["the judge failed: " + traceback.format_exc()]

    def keep(self, case, seed, left, flaws):
        """Copies the folder of a case that is wrong, with a text that tells it."""
        folder = os.path.join(self.kept, "%d" % seed)
        shutil.copytree(self.folder, folder, dirs_exist_ok=True)
        told = "none" if left is None else "status %s, output %r, error line %r" % (left.status, left.out, left.error)
        text = "seed %d\nwords %s\nmutations %s\nleft: %s\n%s\n" % (seed, " ".join(case.words), ", ".join(case.damages), told, "\n".join(flaws))
        with open(os.path.join(folder, "case.txt"), "w") as file:
            file.write(text)
        return text + "kept in " + folder

    def try_case(self, seed):
        """The case's command and answer, its mutations, how long the program ran, and a text where something is wrong."""
        case = case_of(seed, self.options.only)
        case.fill()
        begin = time.monotonic()
        left = self.run(case)
        seconds, flaws = time.monotonic() - begin, self.flaws(case, left)
        answer = "%s: %s" % (case.kind, "no end" if left is None else answer_of(left))
        return answer, case.damages, seconds, self.keep(case, seed, left, flaws) if flaws else None


def answer_of(left):
    """The status and error line of what a command left, with N for each number."""
    return "status %s %s" % (left.status, re.sub("[0-9]+", "N", left.error.decode(errors="replace").strip()))


def begin(*arguments):
    global worker
    worker = Worker(*arguments)


def try_case(seed):
    return worker.try_case(seed)


def options_of():
    parser = argparse.ArgumentParser()
    for option, kind, value in (("cases", int, 1000), ("workers", int, 1), ("seed", int, random.randrange(10**9)), ("limit", float, 10)):
        parser.add_argument("--" + option, type=kind, default=value)
    parser.add_argument("--only", nargs="+", choices=list(WEIGHTS), default=list(WEIGHTS))
    parser.add_argument("--program", type=os.path.abspath, default=os.path.join(top, "crates/vtex/out/vtex"))
    return parser.parse_args()


def main():
    options, answers, mutations, longest, wrong = options_of(), Counter(), Counter(), 0, 0
    print("seed %d" % options.seed, flush=True)
    shared = "/dev/shm" if os.path.isdir("/dev/shm") else None
    kept, start = tempfile.mkdtemp(prefix="vtex-hostile-"), time.monotonic()
    with tempfile.TemporaryDirectory(dir=shared) as scratch, Pool(options.workers, begin, (options, scratch, kept)) as pool:
        seeds = range(options.seed, options.seed + options.cases)
        for number, (answer, damages, seconds, text) in enumerate(pool.imap_unordered(try_case, seeds, 20), 1):
            answers[answer] += 1
            mutations.update(damages)
            longest, wrong = max(longest, seconds), wrong + (text is not None)
            if text is not None:
                print(text, flush=True)
            if number % 10000 == 0:
                print("%d cases, %d wrong" % (number, wrong), flush=True)
    took = time.monotonic() - start
    for title, count in [("mutation, " + title, count) for title, count in sorted(mutations.items())] + sorted(answers.items()):
        print("%s: %d" % (title, count))
    print("%d cases, %d wrong, %.0f a second, longest run %.2f s" % (options.cases, wrong, options.cases / took, longest))
    if not wrong:
        os.rmdir(kept)
    return 1 if wrong else 0


if __name__ == "__main__":
    sys.exit(main())
