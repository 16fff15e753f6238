#!/usr/bin/env python3
"""Lets each call of a kind on the system fail in turn, for each command and each machine of `walk`, over small textures, stores, paths and journals.

usage: run.py [--program PROGRAM] [--workers N] [--only WORD..] [--without WORD..] [--limit SECONDS]

(crates/vtex/out/vtex, a worker for each processor, all commands, else those that have one of these words, and 120 seconds; it wants gcc)

Outside the gate. The kinds are those of failing.py: an allocation that is refused, or it and all later ones; an opening, a seek, a length, a read or a write that fails,
or it and all later ones; a read that fails late, while other threads go on; a read or a write that comes short; a thread that cannot be made, or it and all
later ones; and a call at which the program is stopped, to go on some milliseconds later. Beside them each command runs with outputs that are full or
closed, and over a file system that is full after so many bytes of a file.

Each run is judged by ../judge.py: its status and error line have their cause, and what stands is what docs/FORMATS.md says of that status. A read that fails
is told by its file and place, so that a page that a live walk loses gives status 0, and any other read that fails does not. A walk asks its store for nothing
but what it is due to read, and for nothing twice, and in the threads of its crew it asks for no memory but what a new thread takes.

With walks it also looks whether pictures are written while tiles of the next pass are read: files are slow then, and each write of a picture waits some
time for such a read.
"""
import argparse
import os
import re
import resource
import signal
import subprocess
import sys
import tempfile
import time
from collections import Counter
from multiprocessing import Pool

here = os.path.dirname(os.path.abspath(__file__))
top = os.path.dirname(os.path.dirname(here))
sys.path.insert(0, os.path.join(top, "tests"))

from failing import KINDS, LIMIT, UNTOLD, Failing, doubt_of, doubt_of_walk, flaws_of_reads
from judge import Doubt, Left, flaws_of_due, flaws_of_walk
from rows import EIGHT_STORE, FIRST, FOUR, FOUR_ROWS, FOUR_STORE, LOST, WRAPPED, filled, grey, pixel
from stores import BILINEAR, contents
from walks import SHARED, SWAP, Settings

TEXELS = FOUR_STORE[16::3]
SCALED = (0, 17, 68, 85, 34, 51, 102, 119, 136, 153, 204, 221, 170, 187, 238, 255, 43, 77, 179, 213)
SCALED_STORE = FOUR_STORE[:16] + b"".join(bytes([n] * 3) for n in SCALED)
WIDE = b"VTS2" + FOUR_STORE[4:16] + b"".join(bytes([n] * 6) for n in TEXELS)
TOLD = b"store 4 4 tile 2 levels 2 pages 5 bytes 76\n"
MADE = b"P6\n2 2\n255\n\x01\x03\x07\x02\x03\x07\x01\x04\x07\x02\x04\x08"
BLEND, COARSE_BLEND = pixel(5), pixel(6)
INPUTS = {
    "g4.ppm": b"P6\n4 4\n255\n" + b"".join(bytes([n] * 3) for n in range(16)),
    "g15.ppm": b"P6\n4 4\n15\n" + b"".join(bytes([n] * 3) for n in range(16)),
    "a.path": FIRST,
    "four.path": FOUR,
    "rows.path": FOUR_ROWS + FOUR_ROWS.splitlines(True)[-1],
    "s.vts": FOUR_STORE,
    "e.vts": EIGHT_STORE,
    "wide.vts": WIDE,
    "j.txt": filled(LOST, 2, 4),
    "b.path": WRAPPED,
    "b.txt": b"map 1 1 0 0 0\npass 1 picture 0 start 1\nrow 0 0 1\n",
}


class Job:
    """A command that writes these names with their bytes, in their order, and prints a line."""

    def __init__(self, words, due, line):
        self.words, self.due, self.line, self.prints = words, due, line, bool(line)

    def writes(self, name):
        return name in dict(self.due)

    def flaws(self, left, doubt):
        held = {name: contents(name) for name, _ in self.due}
        return flaws_of_due(self.due, self.line, (0, b""), left, held, doubt)

    def doubt_of(self, kind, reads):
        return doubt_of(kind)

    def flaws_of_calls(self, kind, left, reads, grown):
        return []


class WalkJob:
    """A walk over a store along a path. A page that it loads may be lost, by a failed read of its tile in the store."""

    prints = True

    def __init__(self, store, path, settings, loaders, options="", grows=False):
        self.store, self.path, self.settings, self.grows = store, path, settings, grows
        self.words = ["walk", store, path, "f", "--journal", "w.txt", "--loaders", str(loaders)]
        for option in ("frames", "samplers", "batch"):
            self.words += ["--" + option, str(getattr(settings, option))]
        self.words += ["--settled"] * settings.settled + options.split()

    def writes(self, name):
        return name == "w.txt" or re.fullmatch("f[0-9]{4}.ppm", name)

    def flaws(self, left, doubt):
        return flaws_of_walk(self.store, self.path, self.settings, left.with_walk(contents("w.txt"), "f"), doubt)

    def doubt_of(self, kind, reads):
        return doubt_of_walk(kind, reads, self.store, self.settings)

    def flaws_of_calls(self, kind, left, reads, grown):
        found = [] if kind in UNTOLD else flaws_of_reads(reads, self.store, self.path, self.settings, left)
        return found + (["%d allocations in threads of the crew" % grown] if grown and not self.grows else [])


# The machines of `walk`: the options that ask for one, what of its settings is another than the default, and whether a pass of it may ask for memory.
MACHINES = [
    ("", {}, False),
    ("--rows shared", {"scheduling": SHARED}, False),
    ("--filter bilinear", {"filtering": BILINEAR}, False),
    ("--table swap", {"table": SWAP}, True),
]
CREWS = [(1, 1), (4, 3)]


def walks_of(options, machine, grows, samplers, loaders):
    """A live walk and a settled one by a machine and a crew. A blend wants the pages of all its texels."""
    live = Settings(4, samplers, 2, **machine)
    settled = Settings(5 if live.filtering == BILINEAR else 3, samplers, 1, settled=True, **machine)
    return [WalkJob("s.vts", "rows.path", live, loaders, options, grows), WalkJob("s.vts", "a.path", settled, loaders, options, grows)]


PICTURES = [("f%04d.ppm" % k, grey(samples)) for k, samples in enumerate([(0x0B, 0x03), (0x0B, 0x01), (0x0D, 0x05), (0x0D, 0x05)])]
JOBS = [
    Job(["plain", "g4.ppm", "a.path", "f", "--tile", "2"], [("f0000.ppm", grey((0x0D, 0x01)))], b"end pictures 1\n"),
    Job(["tile", "g4.ppm", "g4.vts", "--tile", "2"], [("g4.vts", FOUR_STORE)], TOLD),
    Job(["tile", "g15.ppm", "g15.vts", "--tile", "2"], [("g15.vts", SCALED_STORE)], TOLD),
    Job(["info", "s.vts"], [], TOLD),
    Job(["gen", "1", "2", "2", "g.ppm"], [("g.ppm", MADE)], b""),
    Job(["upgrade", "s.vts", "w.vts"], [("w.vts", WIDE)], TOLD.replace(b"76", b"136")),
    Job(["replay", "s.vts", "four.path", "j.txt", "f"], PICTURES, b"end pictures 4\n"),
    Job(["plain", "g4.ppm", "b.path", "f", "--tile", "2", "--filter", "bilinear"], [("f0000.ppm", BLEND)], b"end pictures 1\n"),
    Job(["replay", "s.vts", "b.path", "b.txt", "f", "--filter", "bilinear"], [("f0000.ppm", COARSE_BLEND)], b"end pictures 1\n"),
    WalkJob("s.vts", "four.path", Settings(3, 1), 1),
    WalkJob("s.vts", "a.path", Settings(2, 1, 1, 1, True), 1),
    WalkJob("s.vts", "four.path", Settings(4, 2, 2), 3),
    WalkJob("e.vts", "a.path", Settings(5, 7, 64, 1, True), 2),
    WalkJob("wide.vts", "a.path", Settings(3, 2, 64, 1, True), 1),
]
JOBS += [job for machine in MACHINES for crew in CREWS for job in walks_of(*machine, *crew)]


def full():
    return open("/dev/full", "wb")


def closed_pipe():
    """A pipe that nobody reads."""
    reads, writes = os.pipe()
    os.close(reads)
    return os.fdopen(writes, "wb")


# What the output and the error output may be. None is a pipe that is read.
OUTPUTS = {
    "full output": (full, None),
    "full outputs": (full, full),
    "closed output": (closed_pipe, None),
    "closed outputs": (closed_pipe, closed_pipe),
}
FULL_FILES = "full files"


def ended(command, limit, out=None, error=None, before=None):
    """What a command left."""
    given = [subprocess.PIPE if make is None else make() for make in (out, error)]
    done = subprocess.run(command, stdin=subprocess.DEVNULL, stdout=given[0], stderr=given[1], timeout=limit, preexec_fn=before)
    for output in given:
        if output != subprocess.PIPE:
            output.close()
    return Left(done.returncode, done.stdout or b"", done.stderr if error is None else None)


def full_after(size):
    """Lets no file have more bytes."""

    def limit():
        signal.signal(signal.SIGXFSZ, signal.SIG_IGN)
        resource.setrlimit(resource.RLIMIT_FSIZE, (size, size))

    return limit


class Worker:
    """Runs jobs in a folder of its own."""

    def __init__(self, program, scratch, limit):
        self.program, self.limit, self.failing = program, limit, Failing(program, scratch, limit)
        os.chdir(tempfile.mkdtemp(dir=scratch))

    def fill(self):
        """Makes the folder hold the inputs and nothing else."""
        for name in os.listdir("."):
            os.remove(name)
        for name, data in INPUTS.items():
            with open(name, "wb") as file:
                file.write(data)

    def changed(self, job):
        """What is wrong with the names that a job does not write."""
        names = [name for name, data in INPUTS.items() if contents(name) != data]
        names += [name for name in os.listdir(".") if name not in INPUTS and not job.writes(name)]
        return ["%s is not as before" % name for name in names]

    def try_calls(self, job, kind):
        """Each call of a kind in turn: the status of each run, and what is wrong with it."""
        self.fill()
        calls = self.failing.run(job.words, kind, 0)[1]
        for at in range(1, calls + 1):
            self.fill()
            try:
                left, _, reads = self.failing.run(job.words, kind, at)
            except subprocess.TimeoutExpired as expired:
                yield at, "none", ["no end within %s seconds" % expired.timeout]
                continue
            flaws = self.changed(job) + job.flaws(left, job.doubt_of(kind, reads))
            yield at, left.status, flaws or job.flaws_of_calls(kind, left, reads, self.failing.grown)

    def try_outputs(self, job, kind):
        """The same for outputs that take nothing. A command that prints does not end well then."""
        self.fill()
        left = ended([self.program, *job.words], self.limit, *OUTPUTS[kind])
        flaws = self.changed(job) + job.flaws(left, Doubt({3} if job.prints else ()))
        yield 1, left.status, flaws + (["it ends well"] if job.prints and left.status == 0 else [])

    def try_files(self, job, kind):
        """The same for a file system that takes so many bytes of a file, from none to those that the files want."""
        size, status = 0, None
        while status != 0 and size < 1000:
            self.fill()
            left = ended([self.program, *job.words], self.limit, before=full_after(size))
            yield size, left.status, self.changed(job) + job.flaws(left, Doubt({3}))
            size, status = size + 1, 0 if left.status in (0, 5) else left.status

    def try_all(self, job, kind):
        """The number of runs by status, and a text for each that is wrong."""
        way = self.try_files if kind == FULL_FILES else self.try_outputs if kind in OUTPUTS else self.try_calls
        statuses, wrong = Counter(), []
        for at, status, flaws in way(job, kind):
            statuses[status] += 1
            wrong += ["%s, %s %d: %s" % (" ".join(job.words), kind, at, flaw) for flaw in flaws[:1]]
        return job.words, kind, statuses, wrong


def is_written_beside(program, scratch, limit):
    """Whether a live walk writes a picture while its crew reads the tiles of the next pass."""
    failing = Failing(program, scratch, limit)
    failing.slow, failing.patience = 4000, 500
    os.chdir(tempfile.mkdtemp(dir=scratch))
    with open("a.path", "w") as file:
        file.write("size 128 128\nfocal 64\nat 1792 0 204800 16384 0\nto 7 263936 0 204800 16384 0\n")
    subprocess.run([program, "gen", "7", "1024", "1024", "t.ppm"], check=True)
    subprocess.run([program, "tile", "t.ppm", "s.vts", "--tile", "16"], check=True, stdout=subprocess.DEVNULL)
    words = "walk s.vts a.path f --journal w.txt --frames 256 --samplers 2 --loaders 1 --batch 16".split()
    left = failing.run(words, "stop", 0)[0]
    return left.status == 0 and failing.met > 0


def begin(*arguments):
    global worker
    worker = Worker(*arguments)


def try_all(task):
    number, kind = task
    return worker.try_all(JOBS[number], kind)


def counted(statuses):
    return ", ".join("status %s: %d" % pair for pair in sorted(statuses.items(), key=str))


def main():
    parser = argparse.ArgumentParser()
    parser.add_argument("--program", default=os.path.join(top, "crates/vtex/out/vtex"))
    parser.add_argument("--workers", type=int, default=os.cpu_count())
    parser.add_argument("--only", nargs="+")
    parser.add_argument("--without", nargs="+", default=[])
    parser.add_argument("--limit", type=float, default=LIMIT)
    options, begun = parser.parse_args(), time.monotonic()
    program = os.path.abspath(options.program)
    kinds = [*KINDS, *OUTPUTS, FULL_FILES]
    only, without = set(options.only or [job.words[0] for job in JOBS]), set(options.without)
    tasks = [(number, kind) for number, job in enumerate(JOBS) if only.intersection(job.words) and not without.intersection(job.words) for kind in kinds]
    by_kind, wrong, looks_beside = {kind: Counter() for kind in kinds}, 0, int("walk" in only)
    with tempfile.TemporaryDirectory() as scratch:
        Failing(program, scratch)
        if looks_beside and not is_written_beside(program, scratch, options.limit):
            print("wrong: no picture is written while tiles of the next pass are read", flush=True)
            wrong += 1
        with Pool(options.workers, begin, (program, scratch, options.limit)) as pool:
            for words, kind, statuses, found in pool.imap(try_all, tasks):
                print("%s, %s: %s" % (" ".join(words), kind, counted(statuses) or "no such call"), flush=True)
                by_kind[kind].update(statuses)
                wrong += len(found)
                for text in found:
                    print("wrong: " + text, flush=True)
    for kind, statuses in by_kind.items():
        print("all commands, %s: %d runs, %s" % (kind, sum(statuses.values()), counted(statuses)))
    total = sum(by_kind.values(), Counter())
    print("all runs: %s" % counted(total))
    print("%d passed, %d failed, in %d seconds" % (sum(total.values()) + looks_beside - wrong, wrong, time.monotonic() - begun))
    return 1 if wrong else 0


if __name__ == "__main__":
    sys.exit(main())
