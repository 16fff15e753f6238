"""Runs the program with a call of a kind that fails, comes short or stops it, by faults.c, which wants gcc; or with an output or a file system that is full."""
import os
import resource
import signal
import subprocess
import time
from collections import Counter

from judge import Doubt, Left, followed, refusal_of
from stores import Flaw, Store, contents
from walks import Walk

# A kind of failing calls is a call of faults.c, whether each later one fails too, and the statuses that it may cause.
KINDS = {
    "alloc": ("alloc", False, {1}),
    "all allocs": ("alloc", True, {1}),
    "open": ("open", False, {3}),
    "seek": ("seek", False, {3}),
    "stat": ("stat", False, {3}),
    "read": ("read", False, {3}),
    "late read": ("late_read", False, {3}),
    "all reads": ("read", True, {3}),
    "write": ("write", False, {3}),
    "all writes": ("write", True, {3}),
    "short read": ("short_read", False, set()),
    "short write": ("short_write", False, set()),
    "broken read": ("broken_read", False, set()),
    "broken write": ("broken_write", False, set()),
    "thread": ("thread", False, set()),
    "all threads": ("thread", True, set()),
    "stop": ("stop", False, set()),
}
# Kinds after which the reads that are noted do not tell what was asked.
UNTOLD = {"short read", "seek"}
# How long a run may take, and how long its threads may be at work together, in seconds.
LIMIT, BUSY = 120, 60


class Failing:
    def __init__(self, program, scratch, limit=LIMIT):
        library, source = os.path.join(scratch, "faults.so"), os.path.join(os.path.dirname(os.path.abspath(__file__)), "faults.c")
        if not os.path.exists(library):
            built = "%s.%d" % (library, os.getpid())
            subprocess.run(["gcc", "-shared", "-fPIC", "-O1", source, "-o", built, "-ldl", "-lpthread"], check=True)
            os.rename(built, library)
        self.program, self.limit = program, limit
        self.seen, self.reads = (os.path.join(scratch, "%s.%d" % (name, os.getpid())) for name in ("seen", "reads"))
        self.environment = dict(os.environ, LD_PRELOAD=library, FAULT_SEEN=self.seen, FAULT_READS=self.reads)
        # Of the last run: how many allocations the program asked for in threads that it made, and how many writes of pictures met a read there.
        self.grown, self.met = 0, 0
        # The processors that runs may use (all where there are none), the most microseconds that files make a call wait, and the most milliseconds
        # that a write of a picture waits for a read in a thread that the program made.
        self.processors, self.slow, self.patience = None, 0, 0

    def run(self, words, kind, at):
        """What the command left, the number of its calls of the kind, and its reads. With 0 no call fails."""
        with open(self.reads, "w"):
            pass
        call, is_on, _ = KINDS[kind]
        environment = dict(self.environment, FAULT_KIND=call, FAULT_AT=str(at), FAULT_ON=str(int(is_on)), FAULT_SLOW=str(self.slow), FAULT_MEET=str(self.patience))
        left = self.ended([self.program, *words], environment)
        with open(self.seen) as seen, open(self.reads) as reads:
            calls, self.grown, self.met = map(int, seen.read().split())
            return left, calls, [Read(line) for line in reads]

    def begin(self):
        resource.setrlimit(resource.RLIMIT_CPU, (BUSY, BUSY))
        if self.processors:
            os.sched_setaffinity(0, self.processors)

    def ended(self, command, environment):
        """What a command left that goes on whenever it was stopped. One that comes to no end raises TimeoutExpired."""
        with subprocess.Popen(command, env=environment, stdout=subprocess.PIPE, stderr=subprocess.PIPE, preexec_fn=self.begin) as process:
            if environment["FAULT_KIND"] == "stop":
                go_on(process, self.limit)
            try:
                out, error = process.communicate(timeout=self.limit)
            except subprocess.TimeoutExpired:
                process.kill()
                raise
        if process.returncode in (-signal.SIGXCPU, -signal.SIGKILL):
            raise subprocess.TimeoutExpired(command, BUSY)
        return Left(process.returncode, out, error)


def go_on(process, limit):
    """Lets a process go on where it was stopped, some milliseconds later, up to its end."""
    end = time.monotonic() + limit
    while time.monotonic() < end:
        told = os.waitid(os.P_PID, process.pid, os.WSTOPPED | os.WEXITED | os.WNOWAIT | os.WNOHANG)
        if told is None:
            time.sleep(0.001)
        elif told.si_code == os.CLD_STOPPED:
            os.waitid(os.P_PID, process.pid, os.WSTOPPED)
            time.sleep(0.005)
            process.send_signal(signal.SIGCONT)
        else:
            return


class Read:
    """A read of a file: its place and length, whether it failed, and the file's name."""

    def __init__(self, line):
        place, length, failed, name = line.rstrip("\n").split(" ", 3)
        self.place, self.length, self.failed, self.name = int(place), int(length), failed == "1", os.path.basename(name)


def doubt_of(kind):
    return Doubt(KINDS[kind][2], 0, KINDS[kind][0] == "write")


def doubt_of_walk(kind, reads, store_name, settings):
    """A failed read of a tile that is not pinned loses its page, and is no other cause. Where a seek of a read fails, no read is noted."""
    if kind == "seek":
        return Doubt(KINDS[kind][2], 1)
    try:
        store = Store(contents(store_name))
    except Flaw:
        return doubt_of(kind)
    failed, end = [read for read in reads if read.failed], 16 + store.tile_bytes * store.geometry.pinned(settings.pinned)[0]
    lost = [read for read in failed if read.name == store_name and 16 <= read.place < end]
    return Doubt(lost=len(lost)) if lost and len(lost) == len(failed) else Doubt(KINDS[kind][2], len(lost), KINDS[kind][0] == "write")


def flaws_of_reads(reads, store_name, path_name, settings, left):
    """A walk asks its store for the header, and for each tile of the pinned pages and of the batches once; on another status than 0 for no more."""
    status, _, store, path = refusal_of(store_name, path_name, settings)
    if status is not None:
        return []
    run = followed(Walk(store.geometry, path, settings), left.journal).run
    tiles = list(run.walk.pinned) + run.asked + ([entry.page for entry in run.plan] if run.goes_on() else [])
    due = Counter([(0, 16)] + [(16 + store.tile_bytes * page, store.tile_bytes) for page in tiles])
    asked = Counter((read.place, read.length) for read in reads if read.name == store_name)
    if asked == due or (left.status != 0 and not asked - due):
        return []
    return ["the store is asked for %s, and %s are due" % (sorted((asked - due).elements()), sorted((due - asked).elements()))]
