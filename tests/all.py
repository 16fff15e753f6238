#!/usr/bin/env python3
"""Runs every test that needs no proof, several at a time, and adds up what they found.

usage: all.py [--list] [--program PROGRAM] [NAME ..]

The tests are run by the program of dist/, or by crates/vtex/out/vtex if that is newer; --program
runs another one. NAME runs the tests of that name alone. A test whose tools are not installed is
left out, with the reason. The last line is `N passed, M failed`; the status is 0 where nothing
failed, 1 where something did, and 2 for a NAME that is no test.
"""
import argparse
import os
import re
import shlex
import shutil
import subprocess
import sys
import threading
import time

import artefacts

HERE = os.path.dirname(os.path.abspath(__file__))
TOP = artefacts.TOP
CHROMIUM = ("chromium", "chromium-browser", "google-chrome")
# What each row of TESTS may need, how it is looked for, and what a reader installs.
NEEDS = {
    "program": (lambda: True, ""),
    "git": (lambda: shutil.which("git"), "git is not installed"),
    "library": (
        lambda: artefacts.library() is not None,
        "there is no library in dist/ or crates/vtex_c/out",
    ),
    "gcc": (lambda: shutil.which("gcc"), "gcc is not installed"),
    "g++": (lambda: shutil.which("g++"), "g++ is not installed"),
    "node": (lambda: shutil.which("node"), "node is not installed (Debian: nodejs)"),
    "chromium": (
        lambda: any(map(shutil.which, CHROMIUM)),
        "Chromium is not installed (Debian: chromium)",
    ),
    "nginx": (
        lambda: shutil.which("nginx") or os.path.exists("/usr/sbin/nginx"),
        "nginx is not installed (Debian: nginx-light)",
    ),
    "rt": (lambda: shutil.which("rt"), "the toolchain is not installed"),
    "egl": (
        lambda: os.path.exists("/usr/include/EGL/egl.h"),
        "EGL is not installed (Debian: libegl-dev libgl-dev libgl1-mesa-dri)",
    ),
}
FAULTS = ["faults/run.py", "--program", "PROGRAM", "--workers", "2", "--only", "replay"]
HOSTILE = ["hostile/run.py", "--program", "PROGRAM", "--cases", "300", "--seed", "1"]
HOSTILE += ["--workers", "2"]
# Name, script with its arguments, what it needs, and how many processors it keeps busy. PROGRAM
# stands for the program. A script that does not know --short is called without it. Those that take
# longest are first.
TESTS = [
    ("viewer", ["viewer.py", "--short"], [], 2),
    ("engine", ["engine.py", "PROGRAM"], ["program", "library", "gcc", "g++"], 1),
    ("servers", ["servers.py", "--short"], [], 1),
    ("real files", ["real_files.py", "--without-engine", "PROGRAM"], ["program"], 2),
    ("player", ["player.py", "--short", "--program", "PROGRAM"], ["program", "node"], 1),
    ("component", ["view_component.py", "--short"], ["chromium"], 1),
    ("faults", FAULTS, ["program", "gcc"], 2),
    ("hostile files", HOSTILE, ["program"], 2),
    ("gpu", ["gpu.py"], ["program", "library", "g++", "egl"], 1),
    ("study", ["study.py", "PROGRAM"], ["program"], 1),
    ("bindings", ["bindings.py"], ["program", "library", "gcc"], 1),
    ("path", ["path.py", "PROGRAM"], ["program"], 1),
    ("explain", ["explain.py", "PROGRAM"], ["program"], 1),
    ("release", ["dist.py"], ["git", "gcc"], 1),
]
# A test that hangs is ended after so many seconds.
LIMIT = 900
COUNT = re.compile(r"(\d+) passed, (\d+) failed")
CASES = re.compile(r"(\d+) cases, (\d+) wrong")


class Results:
    """What the tests found so far, and the processors that are free."""

    def __init__(self, processors):
        self.passed = self.failed = 0
        self.free, self.change = processors, threading.Condition()

    def take(self, wanted):
        with self.change:
            self.change.wait_for(lambda: self.free >= wanted)
            self.free -= wanted

    def give(self, taken):
        with self.change:
            self.free += taken
            self.change.notify_all()

    def add(self, name, passed, failed, seconds, lines):
        with self.change:
            self.passed, self.failed = self.passed + passed, self.failed + failed
            print(f"{name}: {passed} passed, {failed} failed, {seconds:.0f} s", flush=True)
            for line in lines:
                print(f"    {line}", flush=True)


def words_of(row, program):
    """Returns the script of a row with its arguments, as they are given to Python."""
    script, *options = row[1]
    with open(os.path.join(HERE, script), encoding="utf-8") as file:
        if "--short" in options and "--short" not in file.read():
            options.remove("--short")
    return [f"tests/{script}", *(program if word == "PROGRAM" else word for word in options)]


def run(row, program, results, width):
    """Runs a row's script, and adds what it found to the results."""
    name, words, begin = row[0], words_of(row, program), time.monotonic()
    try:
        ran = subprocess.run(
            [sys.executable, *words],
            cwd=TOP,
            stdin=subprocess.DEVNULL,
            stdout=subprocess.PIPE,
            stderr=subprocess.STDOUT,
            text=True,
            errors="replace",
            timeout=LIMIT,
        )
        output, status = ran.stdout, ran.returncode
    except subprocess.TimeoutExpired as late:
        output = (late.stdout or b"").decode(errors="replace")
        status = f"still running after {LIMIT} seconds"
    lines, passed, failed = output.splitlines(), 0, 0
    for line in lines:
        if found := COUNT.search(line):
            passed, failed = map(int, found.groups())
        elif found := CASES.search(line):
            failed = int(found.group(2))
            passed = int(found.group(1)) - failed
    left_out = [line for line in lines if re.match(r"(skipped|left out)\b", line)]
    if status != 0 or failed or not (passed or left_out):
        # Whatever ended badly counts as a failure, whether it has counted so or not.
        failed = max(failed, 1)
        shown = [line for line in lines if not COUNT.fullmatch(line)][-25:]
        shown.append(f"the status is {status}: python3 {shlex.join(words)}")
    else:
        shown = left_out
    results.add(name, passed, failed, time.monotonic() - begin, shown)
    results.give(width)


def main():
    parser = argparse.ArgumentParser(
        usage=__doc__.split("usage: ")[1].split("\n")[0], add_help=True
    )
    parser.add_argument("--list", action="store_true")
    parser.add_argument("--program")
    parser.add_argument("names", nargs="*")
    words = parser.parse_args()
    tests = [row for row in TESTS if os.path.exists(os.path.join(HERE, row[1][0]))]
    names = [row[0] for row in tests]
    unknown = [name for name in words.names if name not in names]
    if unknown:
        print(
            f"no test is named {', '.join(unknown)}; the tests are {', '.join(names)}",
            file=sys.stderr,
        )
        return 2
    chosen = [row for row in tests if not words.names or row[0] in words.names]
    if words.list:
        for name, script, needs, _ in chosen:
            print(f"{name}: python3 tests/{' '.join(script)} ({', '.join(needs) or 'Python'})")
        return 0
    program = os.path.abspath(words.program) if words.program else artefacts.program()
    if program is None or not os.access(program, os.X_OK):
        print(
            f"no program at {program or 'dist/vtex'}: a release has it, and `bash build` makes it",
            file=sys.stderr,
        )
        return 1
    print(
        f"by {os.path.relpath(program, TOP)}"
        + (f" and {os.path.relpath(artefacts.library(), TOP)}" if artefacts.library() else ""),
        flush=True,
    )
    processors = len(os.sched_getaffinity(0))
    results, threads = Results(processors), []
    for row in chosen:
        lacks = [NEEDS[need][1] for need in row[2] if not NEEDS[need][0]()]
        if lacks:
            print(f"{row[0]}: left out, since {' and '.join(lacks)}", flush=True)
            continue
        width = min(row[3], processors)
        results.take(width)
        threads.append(threading.Thread(target=run, args=(row, program, results, width)))
        threads[-1].start()
    for thread in threads:
        thread.join()
    print(f"{results.passed} passed, {results.failed} failed")
    return 1 if results.failed or not results.passed else 0


if __name__ == "__main__":
    sys.exit(main())
