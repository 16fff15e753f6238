"""Reads journals, refuses what is none, and draws their pictures from a store, by the rules of docs/FORMATS.md."""
from stores import Flaw, number_of, picture_of, row_samples

MOST = 2**62
FORMS = {b"map": 6, b"unmap": 6, b"lost": 4, b"pass": 6, b"row": 4}


class Pass:
    """A pass as a journal tells it: its picture, its first and its last version, and the sampler and version of each row."""

    def __init__(self, picture, start):
        self.picture, self.start, self.last, self.rows, self.floors = picture, start, start, [], {}


class Journal:
    """What a journal's text tells. A change is a page and its frame, or None for the frame where the page was unmapped."""

    def __init__(self, geometry, height, text, pictures=None):
        self.geometry, self.height, self.pictures = geometry, height, pictures
        self.changes, self.passes, self.table, self.used = [], [], {}, set()
        *lines, rest = text.split(b"\n")
        for number, line in enumerate(lines, 1):
            if not self.take(line.split(b" ")):
                raise Flaw("bad line %d" % number)
        if rest or not self.is_complete():
            raise Flaw("bad line %d" % (len(lines) + 1))

    def is_complete(self):
        """The head is whole, or the last pass has all its rows."""
        if self.passes:
            return len(self.passes[-1].rows) == self.height
        return bool(self.changes) and self.changes[-1][0] == self.geometry.root

    def take(self, fields):
        """Takes in the next line, or answers that it may not come next."""
        word, numbers = fields[0], [number_of(field, 0, MOST) for field in fields[1:]]
        if FORMS.get(word) != len(fields):
            return False
        if word == b"pass":
            words, numbers = (fields[2], fields[4]), numbers[::2]
            return None not in numbers and words == (b"picture", b"start") and self.begins(*numbers)
        if None in numbers:
            return False
        return {b"map": self.maps, b"unmap": self.unmaps, b"lost": self.loses, b"row": self.draws}[word](*numbers)

    def is_before_rows(self):
        return bool(self.passes) and not self.passes[-1].rows

    def changes_to(self, page, frame):
        self.changes.append((page, frame))
        if self.passes:
            self.passes[-1].last = len(self.changes)
        return True

    def maps(self, version, level, column, row, frame):
        page = self.geometry.index_of(level, column, row)
        if page is None or frame >= 65535 or version != len(self.changes) + 1:
            return False
        if page in self.table or frame in self.used:
            return False
        if not self.passes and not self.is_in_head(page, frame):
            return False
        if self.passes and not self.is_before_rows():
            return False
        self.table[page] = frame
        self.used.add(frame)
        return self.changes_to(page, frame)

    def is_in_head(self, page, frame):
        return frame == len(self.changes) and (not self.changes or page == self.changes[-1][0] + 1)

    def unmaps(self, version, level, column, row, frame):
        page = self.geometry.index_of(level, column, row)
        if page is None or version != len(self.changes) + 1 or not self.is_before_rows():
            return False
        if self.table.get(page) != frame or page >= self.changes[0][0]:
            return False
        del self.table[page]
        self.used.remove(frame)
        return self.changes_to(page, None)

    def loses(self, level, column, row):
        page = self.geometry.index_of(level, column, row)
        return page is not None and self.is_before_rows() and page not in self.table

    def begins(self, number, picture, start):
        lawful = (self.passes[-1].picture, self.passes[-1].picture + 1) if self.passes else (0,)
        if not self.is_complete() or number != len(self.passes) + 1 or picture not in lawful or start != len(self.changes):
            return False
        if self.pictures is not None and picture >= self.pictures:
            return False
        self.passes.append(Pass(picture, start))
        return True

    def draws(self, y, sampler, version):
        if not self.passes or y != len(self.passes[-1].rows) or y >= self.height or sampler >= 64:
            return False
        drawn = self.passes[-1]
        if not drawn.floors.get(sampler, drawn.start) <= version <= drawn.last:
            return False
        drawn.rows.append((sampler, version))
        drawn.floors[sampler] = version
        return True

    def last_passes(self):
        """The last pass of each picture, in their order, each with the table at its beginning."""
        table, last, at = {}, {}, 0
        for a_pass in self.passes:
            at = self.apply(table, at, a_pass.start)
            last[a_pass.picture] = a_pass, dict(table)
        return list(last.values())

    def apply(self, table, at, version):
        """Brings a table from one version to a later one."""
        for page, frame in self.changes[at:version]:
            table[page] = frame
            if frame is None:
                del table[page]
        return version


def pass_rows(store, path, journal, a_pass, table, draw=row_samples):
    """What each row of a pass shows at its version; the table, which is that of the pass's start, is used up."""
    rows, at = [None] * path.height, a_pass.start
    for y in sorted(range(path.height), key=lambda y: a_pass.rows[y][1]):
        at = journal.apply(table, at, a_pass.rows[y][1])
        rows[y] = draw(store, path, a_pass.picture, y, table)
    return rows


def replay(store, path, journal):
    """The pictures of a journal, in their order."""
    return [picture_of(store, path, pass_rows(store, path, journal, *last)) for last in journal.last_passes()]
