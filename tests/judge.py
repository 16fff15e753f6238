"""Judges what a command left, whole or refused, by the rules of docs/FORMATS.md; of a walk its journal, pictures, log and error line."""
import glob
import os
import re

from journals import Journal, replay
from stores import Flaw, Path, Store, contents, plain_picture
from walks import MOST_FRAME_TEXELS, Run, Walk

FAULT = b"vtex: fault on files or output\n"
LINES = {
    0: b"",
    1: b"vtex: out of memory\n",
    2: b"vtex: usage: vtex COMMAND ARGUMENTS (plain, tile, info, walk, replay, gen, trial, upgrade)\n",
    3: FAULT,
}


class Left:
    """What a command left: its status, what it printed on both outputs (None where that is not known), and what its names hold."""

    def __init__(self, status, out, error):
        self.status, self.out, self.error = status, out, error

    def with_walk(self, journal, prefix):
        """The same with the bytes of the journal's name, or None, and those of each picture that is there."""
        self.journal, self.pictures = journal, {}
        for name in glob.glob(glob.escape(prefix) + "????.ppm"):
            if re.fullmatch("[0-9]{4}", name[len(prefix) : -4]) and os.path.isfile(name):
                self.pictures[int(name[len(prefix) : -4])] = contents(name)
        return self


class Doubt:
    """What else may have happened: the statuses that a failed call or refused memory may have caused, the most pages that may have been lost,
    and whether the error line may be cut short."""

    def __init__(self, statuses=(), lost=0, cut=False):
        self.statuses, self.lost, self.cut = set(statuses), lost, cut


class Ended(Exception):
    """The text has ended; what is left of it begins a line that might come next."""


class Wrong(Exception):
    """The text has a line that may not come next."""


class Lines:
    """The lines of a text, of which each must be one of those that may come next."""

    def __init__(self, text):
        self.lines, self.taken = re.findall(rb"[^\n]*\n|[^\n]+", text), 0

    def next(self):
        """The next line, or nothing at the end."""
        return b"".join(self.lines[self.taken : self.taken + 1])

    def take(self, lawful):
        """The next line's place among the lawful ones."""
        if self.taken == len(self.lines):
            raise Ended
        line, lawful = self.lines[self.taken], list(lawful)
        if line in lawful:
            self.taken += 1
            return lawful.index(line)
        if self.taken + 1 == len(self.lines) and any(other.startswith(line) for other in lawful):
            raise Ended
        raise Wrong("journal: line %d may not come next" % (self.taken + 1))


def named(line, samplers):
    """Of the samplers that may draw a row the one that its line names, or all where it names none of them."""
    field = line.split(b" ")[2:3]
    return [sampler for sampler in samplers if [b"%d" % sampler] == field] or samplers


class Follower:
    """Follows a journal line by line, along the run that it tells, up to its end."""

    def __init__(self, walk, text):
        self.run, self.lines, self.lost, self.whole = Run(walk), Lines(text), 0, 0

    def follow(self):
        """Ends where the text does, or where nothing more may come."""
        for line in self.run.head():
            self.lines.take([line])
        self.whole = self.lines.taken
        while self.run.goes_on():
            self.lines.take([self.run.begin_line()])
            losses, version = self.events()
            self.rows(version)
            self.run.settle(losses)
            self.whole = self.lines.taken
        if self.lines.taken < len(self.lines.lines):
            raise Wrong("journal: line %d follows its end" % (self.lines.taken + 1))

    def events(self):
        """Takes the lines of all entries of the batch, in any order; answers which were lost, and the newest version."""
        run, left, losses, version = self.run, list(range(len(self.run.plan))), set(), self.run.version
        while left:
            reads = [run.read_lines(run.plan[place], version) for place in left]
            taken = self.lines.take([lines[0] for lines in reads] + [run.lost_line(run.plan[place]) for place in left])
            place = left.pop(taken % len(reads))
            if taken >= len(reads):
                losses.add(place)
                self.lost += 1
                continue
            for line in reads[taken][1:]:
                self.lines.take([line])
            version += len(reads[taken])
        return losses, version

    def rows(self, newest):
        """Takes the lines of all rows, each by a sampler that may draw it, at a version of the pass that is none that its sampler left behind."""
        floors, settings = {}, self.run.walk.settings
        for y in range(self.run.walk.path.height):
            samplers = named(self.lines.next(), settings.samplers_of(y))
            lawful = [(s, version) for s in samplers for version in range(floors.get(s, self.run.version), newest + 1)]
            sampler, version = lawful[self.lines.take(self.run.row_line(y, *row) for row in lawful)]
            floors[sampler] = version

    def is_over(self):
        """The run that the journal tells is whole."""
        return self.whole > 0 and self.run.is_whole()

    def reached(self):
        """The picture of the last pass of which the journal has a byte; 0 where it has none."""
        begun = self.run.counts[0] > 0 or (self.whole > 0 and len(self.lines.lines) > self.whole)
        return self.run.picture if begun else max(self.run.picture - 1, 0)

    def due(self):
        """The status and the line that are due after so much of a journal, or None where more is to come."""
        return ending_of(self.run) if self.whole > 0 else (None, None)


def ending_of(run):
    """The status and the line of a walk that met no failed call but lost pages, or None where it is not over."""
    if run.is_whole():
        return 0, b""
    if not run.stopped:
        return None, None
    if run.counts[2]:
        return 3, FAULT
    return 5, b"vtex: picture %d wants %d pages, room for %d\n" % (run.picture, run.walk.needed(run.picture), run.walk.room)


def followed(walk, journal):
    """The follower of a walk's journal, or of none."""
    follower = Follower(walk, journal or b"")
    try:
        follower.follow()
    except Ended:
        pass
    return follower


def refusal_of(store_name, path_name, settings):
    """The status and line of the first cause in path, store and settings, or None for the status, with the store and the path."""
    if not settings.go_together():
        return 2, LINES[2], None, None
    try:
        name, data = path_name, contents(path_name)
        path = Path(data, settings.filtering) if data is not None else None
        name, data = store_name, contents(store_name) if path else None
        store = Store(data) if data is not None else None
    except Flaw as flaw:
        return 4, b"vtex: bad input: %s: %s\n" % (name.encode(), str(flaw).encode()), None, None
    if store is None:
        return 3, FAULT, None, None
    if settings.frames * store.geometry.tile**2 > MOST_FRAME_TEXELS:
        return 2, LINES[2], store, path
    needed = len(store.geometry.pinned(settings.pinned))
    if settings.frames < needed:
        return 5, b"vtex: %d frames, pinned pages need %d\n" % (settings.frames, needed), store, path
    return None, b"", store, path


def flaws_of_status(due, left, doubt):
    """The status is the due one, or one of those in doubt, and the error line is that of the status."""
    status, line = due
    if left.status != status and left.status not in doubt.statuses:
        return ["status %s, and %s is due" % (left.status, status)]
    line = line if left.status == status else LINES[left.status]
    is_line = left.error in (None, line) or (doubt.cut and left.status != 0 and line.startswith(left.error))
    return [] if is_line else ["error line %r, and %r is due" % (left.error, line)]


def flaws_of_walk(store_name, path_name, settings, left, doubt):
    """What is wrong with what a walk left."""
    *due, store, path = refusal_of(store_name, path_name, settings)
    if due[0] is not None:
        silent = left.journal is None and not left.pictures and not left.out
        return flaws_of_status(due, left, doubt) + ([] if silent else ["a refused walk wrote something"])
    try:
        follower = followed(Walk(store.geometry, path, settings), left.journal)
    except Wrong as wrong:
        return [str(wrong)]
    found = flaws_of_status(follower.due(), left, doubt)
    if follower.lost > doubt.lost:
        found.append("%d pages are lost, and at most %d reads failed" % (follower.lost, doubt.lost))
    whole, wrong = whole_pictures(follower, store, path, left.pictures)
    return found + wrong + flaws_of_progress(follower, left, whole)


def whole_pictures(follower, store, path, held):
    """How many pictures are whole, each what the journal replays; and what is wrong with the others, of which one may be begun."""
    pictures = []
    if follower.whole > 0:
        text = b"".join(follower.lines.lines[: follower.whole])
        pictures = replay(store, path, Journal(store.geometry, path.height, text, len(path.cameras)))[: follower.run.picture]
    whole = 0
    while whole < len(pictures) and held.get(whole) == pictures[whole]:
        whole += 1
    begun = pictures[whole : whole + 1]
    wrong = [k for k in held if k > whole or (k == whole and not (begun and begun[0].startswith(held[k])))]
    found = ["picture %d is not what the journal replays" % k for k in wrong]
    if follower.run.walk.settings.settled:
        found += ["picture %d is not the plain one" % k for k in range(whole) if pictures[k] != plain_picture(store, path, k)]
    return whole, found


def flaws_of_progress(follower, left, whole):
    """Pictures and lines come in turn: those before a pass that has begun are whole, and on status 0 all are."""
    run, reached, lines = follower.run, follower.reached(), follower.run.log.splitlines(keepends=True)
    may, due = b"".join(lines[:whole]), b"".join(lines[:reached])
    if follower.is_over() and whole == run.picture:
        may += run.end_line()
    if left.status == 0:
        reached, due = run.picture, run.log + run.end_line()
    found = [] if whole >= reached else ["%d pictures are whole, and %d are due" % (whole, reached)]
    if not (may.startswith(left.out) and left.out.startswith(due)):
        found.append("the log is not that of the journal")
    return found


def flaws_of_due(due, line, refusal, left, held, doubt):
    """What is wrong with what another command left: of the names with their bytes that are due, in their order, whole ones and then at most one
    that is begun, and of the line a front part only where all are whole. What is held of a name that is not there is None."""
    found = flaws_of_status(refusal, left, doubt)
    whole = 0
    while whole < len(due) and held[due[whole][0]] == due[whole][1]:
        whole += 1
    for name, data in due[whole:]:
        begun = (name, data) == due[whole] and held[name] is not None and data.startswith(held[name])
        if held[name] is not None and not begun:
            found.append("%s is not what is due" % name)
    if left.status == 0 and (whole < len(due) or left.out != line):
        found.append("not all is written")
    if not line.startswith(left.out) or (left.out and whole < len(due)):
        found.append("output %r" % left.out)
    return found
