#!/usr/bin/env python3
"""Shows what each picture of a finished walk was drawn from, and holds its journal, its pictures and its store against each other.

usage: evidence.py STORE PATH PREFIX JOURNAL [--filter FILTER] [OPTIONS] [--chain] [--short] [--quiet] [--flip N]

For each picture: its last pass, the versions at the beginning and the end of it, how many pixels show which mip level, and how many show a coarser one than
they want; then for each run of rows that are equal in this the sampler, the version, and the same of their pixels. By blends a pixel counts for the coarsest
of its four texels. --short leaves out the rows, --quiet the pictures.
Then for each file `agrees`, or its first place that contradicts the others. Where a sample of a picture is not what the journal's replay gives, this is told of
the picture, of the line of its row and of the bytes of the store that it is drawn from, with how many of the bytes drawn by them are otherwise: one byte alone
points to the picture, all that were drawn from one byte of the store to the store; what one byte of a picture alone was drawn from cannot be told from it. A
byte of the store that no picture shows is not found, nor a version that shows the same.

OPTIONS are those of `vtex walk` but --journal. Where --frames is among them, the journal has to be one that a walk with these options writes. With --chain the
store has to be what `vtex tile` makes of the texture that its level 0 shows. --flip N flips the lowest bit of N random bytes (0:
of each byte) of journal, pictures and store, one at a time, and says how many of the flips are found, and where those lie that are not: by flips.py. The status
is 1 where anything contradicts.
"""
import argparse
import os
import sys
from collections import Counter
from functools import lru_cache
from itertools import groupby, zip_longest

from flips import flip
from journals import Journal, pass_rows
from judge import Wrong, followed
from reference import walk_words
from stores import BILINEAR, Flaw, Path, Store, contents, picture_of, row_samples
from textures import chain_of, store_of, texel_of
from walks import Walk

class Contradiction(Exception):
    """A file contradicts its format or the walk's options: which one, and where."""


def check_chain(store):
    """Refuses a store that is not made of the texture that its level 0 shows."""
    width, height, depth, tile = store.geometry.width, store.geometry.height, store.depth, store.geometry.tile
    sample = lambda texel, c: int.from_bytes(texel[c * depth : (c + 1) * depth], "big")
    texture = [[sample(texel_of(store, 0, x, y), c) for x in range(width) for c in range(3)] for y in range(height)]
    due = store_of(depth, chain_of(texture, tile), tile)
    if due != store.data:
        raise Flaw("not the chain of its level 0: " + difference(due, store.data))


@lru_cache(1)
def replayed(path, store, journal, settings, is_walk, is_chain):
    """What the bytes of path, store and journal tell, and each picture as the journal's replay draws it."""
    kind, text = "path", journal
    try:
        path = Path(path, settings.filtering)
        kind = "store"
        store = Store(store)
        if is_chain:
            check_chain(store)
        kind = "journal"
        journal = Journal(store.geometry, path.height, text, len(path.cameras))
        if is_walk and not (follower := followed(Walk(store.geometry, path, settings), text)).is_over():
            line = follower.lines.taken + 1
            raise Flaw("line %d may not come next" % line if line <= text.count(b"\n") else "ends before the walk is over")
    except (Flaw, Wrong) as flaw:
        raise Contradiction(kind, str(flaw).removeprefix("journal: "))
    return path, store, journal, [picture_of(store, path, pass_rows(store, path, journal, *last)) for last in journal.last_passes()]


def texels(store, path, picture, y, table):
    """Of each pixel of a row the texels that it is made of, each as its level, how much coarser that is than wanted, and its place in the store."""
    geometry, tile, found = store.geometry, store.geometry.tile, []
    level, wanted = path.texels(geometry, picture, y)
    for column, row in wanted:
        page = geometry.look_up(table, geometry.index_of(level, column // tile, row // tile))
        up = geometry.name_of(page)[0] - level
        found.append((level + up, up, 16 + store.tile_bytes * page + 3 * store.depth * ((row >> up) % tile * tile + (column >> up) % tile)))
    size = 4 if path.filtering == BILINEAR else 1
    return [found[at : at + size] for at in range(0, len(found), size)]


class Evidence:
    """The bytes of a walk's files."""

    def __init__(self, names, settings, is_walk, is_chain):
        self.kind, self.names = (settings, is_walk, is_chain), dict(zip(("store", "path", "prefix", "journal"), names))
        self.store, self.path, self.journal = (contents(self.names[kind]) for kind in ("store", "path", "journal"))
        self.pictures = []
        while (picture := contents(self.picture_name(len(self.pictures)))) is not None:
            self.pictures.append(picture)

    def picture_name(self, number):
        return "%s%04d.ppm" % (self.names["prefix"], number)

    def replay(self):
        for kind in ("path", "store", "journal"):
            if getattr(self, kind) is None:
                raise Contradiction(kind, "missing")
        return replayed(self.path, self.store, self.journal, *self.kind)

    def agrees(self):
        try:
            return self.replay()[3] == self.pictures
        except Contradiction:
            return False

    def rows(self):
        """Of each picture its last pass, and for each row the texels of its pixels."""
        path, store, journal, _ = self.replay()
        for last, table in journal.last_passes():
            yield last, pass_rows(store, path, journal, last, table, texels)

    def show(self, is_short):
        path, _, journal, due = self.replay()
        for k, (last, rows) in enumerate(self.rows()):
            rows = list(rows)
            began = "%s: pass %d, versions %d to %d" % (self.picture_name(k), journal.passes.index(last) + 1, last.start, last.last)
            print("%s, %s" % (began, levels_line([pixel for pixels in rows for pixel in pixels])))
            for told, group in groupby(enumerate([] if is_short else rows), lambda row: row_line(last.rows[row[0]], row[1])):
                numbers = [y for y, _ in group]
                print("  %s: %s" % ("row %d" % numbers[0] if len(numbers) == 1 else "rows %d to %d" % (numbers[0], numbers[-1]), told))
        if len(due) < len(path.cameras):
            print("%d of the %d pictures of the path are drawn" % (len(due), len(path.cameras)))

    def verdicts(self):
        """For each file what is said of it."""
        try:
            due = self.replay()[3]
        except Contradiction as found:
            kind, text = found.args
            return {name: text if other == kind else "not judged" for other, name in self.names.items() if other != "prefix"}
        said = {self.names[kind]: "agrees" for kind in ("path", "journal", "store")}
        said.update((self.picture_name(k), difference(*both)) for k, both in enumerate(zip_longest(due, self.pictures)))
        said.update(self.traced(due) if due != self.pictures else {})
        return said

    def traced(self, due):
        """The first line of the journal and the first byte of the store by which a sample is drawn that is otherwise."""
        counts, (path, store, journal, _) = {}, self.replay()
        size, numbers = 3 * store.depth, [at for at, line in enumerate(self.journal.split(b"\n"), 1) if line.startswith(b"row ")]
        for want, have, (last, rows) in zip(due, self.pictures, self.rows()):
            number, place = journal.passes.index(last) * path.height, len(want) - size * path.width * path.height
            for y, pixel in ((y, pixel) for y, pixels in enumerate(rows) for pixel in pixels):
                for channel in range(size):
                    for by in [("journal", numbers[number + y])] + [("store", texel + channel) for _, _, texel in pixel]:
                        other, every = counts.get(by, (0, 0))
                        counts[by] = other + (have[place : place + 1] != want[place : place + 1]), every + 1
                    place += 1
        for kind, text in (("journal", "line %d: %d of the %d bytes drawn by it"), ("store", "byte %d: %d of the %d bytes drawn from it")):
            found = [(by[1], *both) for by, both in counts.items() if by[0] == kind and both[0]]
            if found:
                yield self.names[kind], text % min(found) + " are otherwise"


def difference(want, have):
    """Where a picture is otherwise than it is due."""
    if want is None or have is None:
        return "missing" if have is None else "not drawn by any pass"
    at = len(os.path.commonprefix([want, have]))
    return "agrees" if want == have else "byte %d is %s, due is %s" % (at, *("%d" % data[at] if at < len(data) else "none" for data in (have, want)))


def row_line(row, pixels):
    return "sampler %d, version %d, %s" % (*row, levels_line(pixels))


def levels_line(pixels):
    levels, coarser = Counter(max(pixel)[0] for pixel in pixels), sum(any(up for _, up, _ in pixel) for pixel in pixels)
    shown = ", ".join("%d of level %d" % (count, level) for level, count in sorted(levels.items()))
    return "pixels %s, coarser than wanted %d" % (shown, coarser)


def main():
    parser = argparse.ArgumentParser(allow_abbrev=False, usage=__doc__.split("\n")[2].removeprefix("usage: "))
    parser.add_argument("--quiet", action="store_true", help="say nothing of the pictures but whether they agree")
    parser.add_argument("--short", action="store_true", help="say nothing of rows")
    parser.add_argument("--chain", action="store_true", help="hold the store against its own level 0")
    parser.add_argument("--flip", type=int, metavar="N", help="flip N bytes (0: each), and say which flips are found")
    options, words = parser.parse_known_args()
    found, settings = walk_words(words)
    if len(found.names) != 4:
        parser.error("wants a store, a path, a prefix and a journal")
    evidence = Evidence(found.names, settings, any(word.startswith("--frames") for word in words), options.chain)
    said = evidence.verdicts()
    is_sound = set(said.values()) == {"agrees"}
    if not options.quiet and "not judged" not in said.values():
        evidence.show(options.short)
    print("\n".join("%s: %s" % both for both in said.items()))
    if options.flip is not None and is_sound:
        flip(evidence, options.flip)
    return 0 if is_sound else 1


if __name__ == "__main__":
    sys.exit(main())
