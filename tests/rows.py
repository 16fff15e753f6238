"""Worked rows: walks, journals and replays of small textures whose results were found by hand, against the modules beside this one."""
import os
import tempfile
from itertools import product

from journals import Journal, replay
from judge import LINES, Doubt, Left, flaws_of_walk
from stores import BILINEAR, Flaw, Geometry, Path, Store, plain_picture
from textures import chain_of, picture_of
from walks import DEALT, SHARED, SWAP, Settings, Shuffled, Still, Walk, trial, walked

FIRST = b"size 2 1\nfocal 1\nat 0 0 256 16384 0\n"
FOUR = b"size 2 1\nfocal 1\n" + b"at 0 0 256 16384 0\n" * 2 + b"at 512 0 256 16384 0\n" * 2
FOUR_TEXELS = [0, 1, 4, 5, 2, 3, 6, 7, 8, 9, 12, 13, 10, 11, 14, 15, 3, 5, 11, 13]
FOUR_ROWS = b"size 2 4\nfocal 1\nat 0 0 1024 16384 0\n"
WRAPPED = b"size 1 1\nfocal 1\nat 640 -64 256 16384 0\n"
LOST = b"""map 1 1 0 0 0
pass 1 picture 0 start 1
row 0 0 1
pass 2 picture 1 start 1
map 2 0 0 0 1
map 3 0 0 1 2
row 0 0 <a>
pass 3 picture 2 start 3
row 0 0 3
pass 4 picture 3 start 3
lost 0 1 0
unmap 4 0 0 0 1
map 5 0 1 1 1
row 0 0 <b>
"""
ONE_SETTLED = b"""map 1 1 0 0 0
pass 1 picture 0 start 1
row 0 0 1
pass 2 picture 0 start 1
map 2 0 0 0 1
row 0 0 <a>
pass 3 picture 0 start 2
map 3 0 0 1 2
row 0 0 <b>
pass 4 picture 0 start 3
row 0 0 3
"""
COARSE_TO_FINE = b"""map 1 2 0 0 0
pass 1 picture 0 start 1
row 0 0 1
pass 2 picture 0 start 1
map 2 1 0 0 1
map 3 1 0 1 2
row 0 0 <a>
pass 3 picture 0 start 3
map 4 0 0 0 3
map 5 0 0 3 4
row 0 0 <b>
pass 4 picture 0 start 5
row 0 0 5
"""


def grey(samples):
    return b"P6\n2 1\n255\n" + b"".join(bytes([sample] * 3) for sample in samples)


def pixel(sample):
    """A picture of one pixel."""
    return b"P6\n1 1\n255\n" + bytes([sample] * 3)


def filled(text, a, b):
    return text.replace(b"<a>", b"%d" % a).replace(b"<b>", b"%d" % b)


def store_of(side, texels):
    return b"VTS1" + b"".join(n.to_bytes(4, "big") for n in (side, side, 2)) + b"".join(bytes([n] * 3) for n in texels)


def eight_texels():
    """The tiles of the chain of an 8x8 texture with the samples 8y+x."""
    levels = [[[8 * y + x for x in range(8)] for y in range(8)]]
    while len(levels[-1]) > 2:
        last, half = levels[-1], range(len(levels[-1]) // 2)
        box = lambda x, y: (last[2 * y][2 * x] + last[2 * y][2 * x + 1] + last[2 * y + 1][2 * x] + last[2 * y + 1][2 * x + 1] + 2) // 4
        levels.append([[box(x, y) for x in half] for y in half])
    pages = [(level, c, r) for level in levels for r in range(len(level) // 2) for c in range(len(level) // 2)]
    return [level[2 * r + y][2 * c + x] for level, c, r in pages for y in (0, 1) for x in (0, 1)]


FOUR_STORE, EIGHT_STORE = store_of(4, FOUR_TEXELS), store_of(8, eight_texels())


class Rows:
    """Finds which rows come out otherwise than they were worked."""

    def __init__(self, folder):
        self.folder, self.wrong = folder, []

    def is_true(self, said, row):
        if not said:
            self.wrong.append(row)

    def name(self, name, data):
        full = os.path.join(self.folder, name)
        with open(full, "wb") as file:
            file.write(data)
        return full

    def judged(self, store, path, settings, status, log, error, journal, pictures, doubt=Doubt()):
        """What the judge finds wrong with a walk that left this."""
        for name in os.listdir(self.folder):
            os.remove(os.path.join(self.folder, name))
        for number, picture in enumerate(pictures):
            self.name("f%04d.ppm" % number, picture)
        left = Left(status, log, error).with_walk(journal, os.path.join(self.folder, "f"))
        return flaws_of_walk(self.name("s.vts", store), self.name("p.path", path), settings, left, doubt)

    def walk(self, row, store_bytes, path_text, settings, journal, log, pictures, lost=()):
        """A walk with one loader: its journal, log and pictures are these, the judge finds nothing, and each other byte is found wrong."""
        store, path = Store(store_bytes), Path(path_text, settings.filtering)
        text, run = walked(Walk(store.geometry, path, settings), Still(), lost)
        self.is_true(journal is None or text == journal, row + ": journal")
        self.is_true(run.log + run.end_line() == log, row + ": log")
        drawn = replay(store, path, Journal(store.geometry, path.height, text))
        self.is_true(pictures is None or drawn == pictures, row + ": pictures")
        doubt = Doubt(lost=len(lost))
        self.is_true(not self.judged(store_bytes, path_text, settings, 0, log, b"", text, drawn, doubt), row + ": judged")
        self.is_true(self.judged(store_bytes, path_text, settings, 0, log, b"", text, drawn[:-1], doubt), row + ": a picture less")
        self.is_true(self.judged(store_bytes, path_text, settings, 0, log[:-1], b"", text, drawn, doubt), row + ": a byte less of the log")
        self.is_true(self.judged(store_bytes, path_text, settings, 0, log, b"", text[:-1], drawn, doubt), row + ": a byte less of the journal")
        self.is_true(self.judged(store_bytes, path_text, settings, 3, log, None, text, drawn, doubt), row + ": status 3 without a cause")

    def refusal(self, row, store_bytes, path_text, settings, status, line, journal, log, pictures, doubt=Doubt()):
        """A refused walk left this, and nothing more may stand."""
        said = self.judged(store_bytes, path_text, settings, status, log, line, journal, pictures, doubt)
        self.is_true(not said, "%s: judged: %s" % (row, said))
        self.is_true(self.judged(store_bytes, path_text, settings, 0, log, b"", journal, pictures, doubt), row + ": status 0")
        more = self.judged(store_bytes, path_text, settings, status, log, line, journal, pictures + [b"P"], doubt)
        self.is_true(more, row + ": a picture more")

    def versions(self, row, store, path, settings, text, ways, pictures, log, lost=0):
        """A journal with other versions in its rows is lawful within these, and shows these samples."""
        for a, b, samples in ways:
            journal, drawn = filled(text, a, b), [grey(picture) for picture in pictures(samples)]
            said = self.judged(store, path, settings, 0, log, b"", journal, drawn, Doubt(lost=lost))
            self.is_true((not said) == (samples is not None), "%s: versions %d and %d: %s" % (row, a, b, said))


def single_texel(rows):
    store = b"VTS1" + b"".join(n.to_bytes(4, "big") for n in (1, 1, 2)) + bytes([10, 20, 30] * 4)
    log = b"picture 0 passes 1 wanted 1 loaded 0 lost 0 evicted 0\nend pictures 1 reads 1\n"
    journal = b"map 1 0 0 0 0\npass 1 picture 0 start 1\nrow 0 0 1\n"
    path = b"size 1 1\nfocal 1\nat 0 0 256 16384 0\n"
    rows.walk("single texel", store, path, Settings(), journal, log, [b"P6\n1 1\n255\n\x0a\x14\x1e"])


def starved_walk(rows):
    log = b"picture 0 passes 1 wanted 2 loaded 0 lost 0 evicted 0\nend pictures 1 reads 1\n"
    rows.walk("starved live walk", FOUR_STORE, FIRST, Settings(frames=1), None, log, [grey([0x0B, 0x03])])
    line = b"vtex: 4 frames, pinned pages need 5\n"
    rows.refusal("too few frames", FOUR_STORE, FIRST, Settings(frames=4, pinned=2), 5, line, None, b"", [])


def blends(rows):
    """Two pictures of one pixel, whose place lies between four texels; about the second the texture begins anew both ways."""
    texture = [[sample for x in range(4) for sample in [4 * y + x] * 3] for y in range(4)]
    between = b"size 1 1\nfocal 1\nat 128 64 256 16384 0\n"
    for row, text, sample in (("a blend", between, 3), ("a blend that wraps", WRAPPED, 5)):
        path = Path(text, BILINEAR)
        plain = [picture_of(1, chain_of(texture, 2), path, 0), plain_picture(Store(FOUR_STORE), path, 0)]
        rows.is_true(plain == [pixel(sample)] * 2, row)
    log = b"picture 0 passes 1 wanted 4 loaded 0 lost 0 evicted 0\nend pictures 1 reads 1\n"
    rows.walk("starved blends", FOUR_STORE, WRAPPED, Settings(frames=1, filtering=BILINEAR), None, log, [pixel(6)])
    log = b"picture 0 passes 3 wanted 4 loaded 4 lost 0 evicted 0\nend pictures 1 reads 5\n"
    for samplers in (1, 2, 7):
        settings = Settings(frames=5, samplers=samplers, settled=True, filtering=BILINEAR)
        rows.walk("settled blends", FOUR_STORE, WRAPPED, settings, None, log, [pixel(5)])
    settings, line = Settings(frames=4, settled=True, filtering=BILINEAR), b"vtex: picture 0 wants 4 pages, room for 3\n"
    rows.refusal("blends that do not fit", FOUR_STORE, WRAPPED, settings, 5, line, HEAD + ONE_PASS + b"row 0 0 1\n", b"", [])


def lost_tile(rows):
    settings, ends = Settings(frames=3, samplers=1), [(0, 0, 0), (2, 0, 0), (0, 0, 0), (1, 1, 1)]
    log = b"".join(b"picture %d passes 1 wanted 2 loaded %d lost %d evicted %d\n" % (k, *end) for k, end in enumerate(ends))
    log += b"end pictures 4 reads 5\n"
    first, third = [grey([0x0B, 0x03])], [grey([0x0D, 0x05])]
    rows.walk("lost tile", FOUR_STORE, FOUR, settings, filled(LOST, 1, 3), log, first * 2 + third * 2, (2,))
    second = {1: [0x0B, 0x03], 2: [0x0B, 0x01], 3: [0x0D, 0x01]}
    fourth = {3: [0x0D, 0x05], 4: [0x0D, 0x05], 5: [0x0F, 0x05]}
    ways = [(a, b, (second[a], fourth[b])) for a in second for b in fourth] + [(0, 3, None), (4, 3, None), (1, 2, None), (1, 6, None)]
    shown = lambda samples: [[0x0B, 0x03], (samples or (second[1],))[0], [0x0D, 0x05], (samples or (0, fourth[3]))[1]]
    rows.versions("lost tile", FOUR_STORE, FOUR, settings, LOST, ways, shown, log, lost=1)
    journal, pictures = filled(LOST, 1, 3), first * 2 + third * 2
    rows.is_true(rows.judged(FOUR_STORE, FOUR, settings, 0, log, b"", journal, pictures), "lost tile: without a failed read")


def other_lines(rows):
    """The lost tile's journal with a line less, a line twice, or two lines in the other order is found wrong."""
    settings, lines = Settings(frames=3, samplers=1), filled(LOST, 1, 3).splitlines(keepends=True)
    log = b"".join(b"picture %d passes 1 wanted 2 loaded %d lost %d evicted %d\n" % n for n in [(0, 0, 0, 0), (1, 2, 0, 0), (2, 0, 0, 0), (3, 1, 1, 1)])
    log += b"end pictures 4 reads 5\n"
    drawn = [grey([0x0B, 0x03])] * 2 + [grey([0x0D, 0x05])] * 2
    for n in range(len(lines)):
        others = [lines[:n] + lines[n + 1 :], lines[:n] + lines[n : n + 1] + lines[n:], lines[:n] + lines[n : n + 2][::-1] + lines[n + 2 :]]
        for other in others[: 2 if n + 1 == len(lines) else 3]:
            said = rows.judged(FOUR_STORE, FOUR, settings, 0, log, b"", b"".join(other), drawn, Doubt(lost=1))
            rows.is_true(said, "a journal with another line %d: %r" % (n + 1, other))


def no_tile_lost(rows):
    log = b"".join(b"picture %d passes 1 wanted 2 loaded %d lost 0 evicted %d\n" % n for n in [(0, 0, 0), (1, 2, 0), (2, 0, 0), (3, 2, 2)])
    log += b"end pictures 4 reads 5\n"
    journal = filled(LOST[: LOST.index(b"lost")], 1, 3)
    journal += b"unmap 4 0 0 1 2\nmap 5 0 1 0 2\nunmap 6 0 0 0 1\nmap 7 0 1 1 1\nrow 0 0 3\n"
    pictures = [grey([0x0B, 0x03])] * 2 + [grey([0x0D, 0x05])] * 2
    rows.walk("no tile lost", FOUR_STORE, FOUR, Settings(frames=3, samplers=1), journal, log, pictures)


def one_settled(rows):
    log, picture = b"picture 0 passes 4 wanted 2 loaded 2 lost 0 evicted 0\nend pictures 1 reads 3\n", [grey([0x0D, 0x01])]
    for samplers in (1, 2, 7):
        settings = Settings(frames=3, samplers=samplers, batch=1, settled=True)
        rows.walk("one picture settled", FOUR_STORE, FIRST, settings, filled(ONE_SETTLED, 1, 2), log, picture)
    ways = [(a, b, 1 if a in (1, 2) and b in (2, 3) else None) for a in range(4) for b in range(1, 5)]
    settings = Settings(frames=3, samplers=1, batch=1, settled=True)
    rows.versions("one picture settled", FOUR_STORE, FIRST, settings, ONE_SETTLED, ways, lambda samples: [[0x0D, 0x01]], log)
    settings = Settings(frames=2, samplers=1, batch=1, settled=True)
    line = b"vtex: picture 0 wants 2 pages, room for 1\n"
    journal = ONE_SETTLED[: ONE_SETTLED.index(b"pass 2")]
    rows.refusal("one picture settled that does not fit", FOUR_STORE, FIRST, settings, 5, line, journal, b"", [])


def shared_rows(rows):
    """Walks whose samplers share the rows: any of them may draw a row, at a version that is none that it left behind."""
    log, picture = b"picture 0 passes 4 wanted 2 loaded 2 lost 0 evicted 0\nend pictures 1 reads 3\n", [grey([0x0D, 0x01])]
    for samplers in (1, 2, 7):
        settings = Settings(frames=3, samplers=samplers, batch=1, settled=True, scheduling=SHARED)
        rows.walk("one picture settled, shared rows", FOUR_STORE, FIRST, settings, filled(ONE_SETTLED, 1, 2), log, picture)
    log = b"picture 0 passes 1 wanted 3 loaded 0 lost 0 evicted 0\nend pictures 1 reads 1\n"
    picture = b"P6\n2 4\n255\n" + bytes(sample for sample in (11, 11, 13, 5, 11, 3, 11, 3) for _ in range(3))
    rows.walk("four shared rows", FOUR_STORE, FOUR_ROWS, Settings(frames=1, samplers=2, scheduling=SHARED), None, log, [picture])
    for drew in ((0, 1, 1, 1), (1, 0, 0, 0), (1, 1, 1, 1), (0, 1, 0, 1), (0, 1, 2, 1), (0, 0, 0, 64)):
        text = HEAD + ONE_PASS + b"".join(b"row %d %d 1\n" % (y, sampler) for y, sampler in enumerate(drew))
        for name, scheduling in (("shared", SHARED), ("dealt", DEALT)):
            settings = Settings(frames=1, samplers=2, scheduling=scheduling)
            said = rows.judged(FOUR_STORE, FOUR_ROWS, settings, 0, log, b"", text, [picture])
            lawful = max(drew) < 2 and (scheduling == SHARED or drew == (0, 1, 0, 1))
            rows.is_true((not said) == lawful, "four %s rows by %s: %s" % (name, drew, said))


def shared_versions(rows):
    """Two rows of a pass that loads two pages, by two samplers that share them: each sampler and each version in turn."""
    path, settings = b"size 2 2\nfocal 1\n" + b"at 0 0 512 16384 0\n" * 2, Settings(frames=3, samplers=2, scheduling=SHARED)
    store = Store(FOUR_STORE)
    text, run = walked(Walk(store.geometry, Path(path), settings), Still())
    front, log, start = b"".join(text.splitlines(True)[:-2]), run.log + run.end_line(), run.version - 2
    rows.is_true(front.endswith(b"map %d 0 0 1 2\n" % run.version), "shared versions: two pages are loaded")
    for s, v, other, w in product(range(3), range(start - 1, start + 4), range(3), range(start - 1, start + 4)):
        journal, drawn = front + b"row 0 %d %d\nrow 1 %d %d\n" % (s, v, other, w), []
        lawful = max(s, other) < 2 and start <= min(v, w) and max(v, w) <= start + 2 and (s != other or v <= w)
        if lawful:
            drawn = replay(store, Path(path), Journal(store.geometry, 2, journal))
        said = rows.judged(FOUR_STORE, path, settings, 0, log, b"", journal, drawn)
        rows.is_true((not said) == lawful, "shared versions %s: %s" % ((s, v, other, w), said))


def swapped_table(rows):
    """A walk over the swapped table leaves what one over words does; and no two options that ask for another machine go together."""
    log, picture = b"picture 0 passes 4 wanted 2 loaded 2 lost 0 evicted 0\nend pictures 1 reads 3\n", [grey([0x0D, 0x01])]
    for samplers in (1, 2, 7):
        settings = Settings(frames=3, samplers=samplers, batch=1, settled=True, table=SWAP)
        rows.walk("one picture settled, swapped table", FOUR_STORE, FIRST, settings, filled(ONE_SETTLED, 1, 2), log, picture)
    other = {"filtering": BILINEAR, "scheduling": SHARED, "table": SWAP}
    for left_out in other:
        both = Settings(**{option: value for option, value in other.items() if option != left_out})
        rows.refusal("two machines, without another %s" % left_out, FOUR_STORE, FIRST, both, 2, LINES[2], None, b"", [])
    rows.refusal("three machines", FOUR_STORE, FIRST, Settings(**other), 2, LINES[2], None, b"", [])


def one_batch(rows):
    log = b"picture 0 passes 3 wanted 2 loaded 2 lost 0 evicted 0\nend pictures 1 reads 3\n"
    settings = Settings(frames=3, samplers=1, batch=2, settled=True)
    rows.walk("two reads at once", FOUR_STORE, FIRST, settings, None, log, [grey([0x0D, 0x01])])


def coarse_to_fine(rows):
    log, picture = b"picture 0 passes 4 wanted 2 loaded 4 lost 0 evicted 0\nend pictures 1 reads 5\n", [grey([0x39, 0x01])]
    settings = Settings(frames=5, samplers=1, settled=True)
    rows.walk("coarse to fine", EIGHT_STORE, FIRST, settings, filled(COARSE_TO_FINE, 1, 3), log, picture)
    ways = [(a, b, 1 if 1 <= a <= 3 <= b <= 5 else None) for a in range(5) for b in range(2, 7)]
    rows.versions("coarse to fine", EIGHT_STORE, FIRST, settings, COARSE_TO_FINE, ways, lambda samples: [[0x39, 0x01]], log)
    settings = Settings(frames=5, samplers=1, batch=1, settled=True)
    store, path = Store(EIGHT_STORE), Path(FIRST)
    text = walked(Walk(store.geometry, path, settings), Still())[0]
    loads = [[line.split()[2:5] for line in part.splitlines() if line[:3] == b"map"] for part in text.split(b"pass")[1:]]
    names = [[[b"%d" % n for n in store.geometry.name_of(page)] for page in batch] for batch in ([], [16], [0], [18], [12], [])]
    rows.is_true(loads == names, "coarse to fine, one page a batch")
    settings = Settings(frames=4, samplers=1, settled=True)
    line, journal = b"vtex: picture 0 wants 4 pages, room for 3\n", COARSE_TO_FINE[: COARSE_TO_FINE.index(b"pass 2")]
    rows.refusal("coarse to fine that does not fit", EIGHT_STORE, FIRST, settings, 5, line, journal, b"", [])


def failing_calls(rows):
    """The settled walk of one picture, stopped by each of its calls in turn."""
    settings, doubt = Settings(frames=3, samplers=1, batch=1, settled=True), Doubt({3}, 1)
    whole, fault = filled(ONE_SETTLED, 1, 2), b"vtex: fault on files or output\n"
    log, picture = b"picture 0 passes 4 wanted 2 loaded 2 lost 0 evicted 0\nend pictures 1 reads 3\n", grey([0x0D, 0x01])
    stops = [(None, b"", [])] + [(whole[:n], b"", []) for n in range(len(whole) + 1)]
    stops += [(whole, b"", [picture[:n]]) for n in range(len(picture))] + [(whole, log[:n], [picture]) for n in range(len(log) + 1)]
    for journal, said, pictures in stops:
        wrong = rows.judged(FOUR_STORE, FIRST, settings, 3, said, fault, journal, pictures, doubt)
        rows.is_true(not wrong, "stopped at %r, %r: %s" % (journal, said, wrong))
    first = whole[: whole.index(b"map 2")]
    rows.refusal("first read fails", FOUR_STORE, FIRST, settings, 3, fault, first + b"lost 0 0 0\nrow 0 0 1\n", b"", [], doubt)
    second = whole[: whole.index(b"map 3")]
    rows.refusal("second read fails", FOUR_STORE, FIRST, settings, 3, fault, second + b"lost 0 0 1\nrow 0 0 2\n", b"", [], doubt)
    for journal, pictures in [(whole[:-1], [picture]), (whole, [grey([0, 0])]), (whole[:20] + b"x", []), (whole[: whole.index(b"map 3")] + b"row 0", [])]:
        rows.is_true(rows.judged(FOUR_STORE, FIRST, settings, 3, b"", fault, journal, pictures, doubt), "stands although it may not: %r" % journal)


def failing_creations(rows):
    """The live walk of four pictures, stopped at the creation of each of them."""
    settings, whole, fault, doubt = Settings(frames=3, samplers=1), filled(LOST, 1, 3), b"vtex: fault on files or output\n", Doubt({3}, 1)
    ends = [whole.index(b"pass %d" % n) for n in (2, 3, 4)] + [len(whole)]
    lines = [b"picture %d passes 1 wanted 2 loaded %d lost 0 evicted 0\n" % n for n in ((0, 0), (1, 2), (2, 0))]
    pictures = [grey([0x0B, 0x03])] * 2 + [grey([0x0D, 0x05])] * 2
    for k, end in enumerate(ends):
        stopped = (FOUR_STORE, FOUR, settings, 3, b"".join(lines[:k]), fault, whole[:end])
        rows.is_true(not rows.judged(*stopped, pictures[:k], doubt), "creation of picture %d fails" % k)
        rows.is_true(rows.judged(*stopped, pictures[: k + 2] if k < 3 else pictures + [b""], doubt), "creation of picture %d fails: a picture more" % k)
        rows.is_true(not k or rows.judged(*stopped, pictures[: k - 1], doubt), "creation of picture %d fails: a picture less" % k)
        rows.is_true(not k or rows.judged(*stopped[:4], b"".join(lines[: k - 1]), *stopped[5:], pictures[:k], doubt), "a line less before %d" % k)


def replays(rows):
    """The worked journals replayed, at both depths, and with a line less."""
    store, path, text = Store(FOUR_STORE), Path(FIRST), filled(ONE_SETTLED, 1, 2)
    rows.is_true(replay(store, path, Journal(store.geometry, 1, text, 1)) == [grey([0x0D, 0x01])], "replay")
    tiles = b"".join(bytes([n] * 6) for n in FOUR_TEXELS)
    wide = Store(b"VTS2" + FOUR_STORE[4:16] + tiles)
    drawn = replay(wide, path, Journal(wide.geometry, 1, text, 1))
    rows.is_true(drawn == [b"P6\n2 1\n65535\n" + b"\x0d" * 6 + b"\x01" * 6], "replay of two bytes a sample")
    lines = text.splitlines(keepends=True)
    refused(rows, b"".join(lines[:7] + lines[8:]), 9)


def refused(rows, text, line, pictures=1):
    """The journal of a 4x4 texture is refused at a line; with None it is none that is refused."""
    try:
        Journal(Store(FOUR_STORE).geometry, 1, text, pictures)
        said = None
    except Flaw as flaw:
        said = str(flaw)
    rows.is_true(said == (line and "bad line %d" % line), "journal %r: %s" % (text, said))


HEAD, ONE_PASS = b"map 1 1 0 0 0\n", b"pass 1 picture 0 start 1\n"
BAD_SECOND = [b"pass 2 picture 0 start 1", b"pass 1 picture 1 start 1", b"pass 1 picture 0 start 0", b"lost 0 0 0", b"map 2 0 0 0 1", b"row 0 0 1"]
BAD_SECOND += [b"", b"pass 1 picture 0", b"pass 1 picture 0 start 1 ", b"pass 1 picture 0 start 01", b"pass 1 start 1 picture 0"]
BAD_THIRD = [b"row 0 0 2", b"row 0 64 1", b"unmap 2 1 0 0 0", b"lost 1 0 0", b"map 2 0 0 0 0", b"map 2 0 2 0 1", b"map 3 0 0 0 1", b"row 1 0 1"]
BAD_THIRD += [b"map 2 0 0 0 65535", b"unmap 2 0 0 0 1", b"row 0 0 -1", b"row 0 0 1 ", b"row 0  0 1", b"map 2 2 0 0 1", b"lost 0 0 2", b"row 0 0 1\r"]


def foreign_journals(rows):
    refused(rows, b"", 1)
    refused(rows, HEAD, None)
    refused(rows, HEAD[:-1], 1)
    refused(rows, b"map 1 1 0 0 1\n", 1)
    refused(rows, b"map 1 0 0 1 0\nmap 2 1 0 0 1\n", 2)
    refused(rows, b"map 1 0 1 1 0\nmap 2 1 0 0 1\n", None)
    refused(rows, b"map 1 0 1 1 0\n" + ONE_PASS, 2)
    for line in BAD_SECOND:
        refused(rows, HEAD + line + b"\n", 2)
    for line in BAD_THIRD:
        refused(rows, HEAD + ONE_PASS + line + b"\n", 3)
    refused(rows, HEAD + ONE_PASS, 3)
    second = b"pass 2 picture 1 start 1\nrow 0 0 1\n"
    refused(rows, HEAD + ONE_PASS + b"row 0 0 1\n" + second, 4)
    refused(rows, HEAD + ONE_PASS + b"row 0 0 1\n" + second, None, 2)
    whole = filled(LOST, 1, 3)
    for end in range(len(whole)):
        text = whole[:end]
        last = text[:-1].rsplit(b"\n", 1)[-1]
        lawful = text.endswith(b"\n") and (last.startswith(b"row") or text == HEAD)
        refused(rows, text, None if lawful else text.count(b"\n") + 1, 4)


def held_version(rows):
    """A version that is held maps what it mapped, whatever was unmapped since."""
    geometry, maps = Geometry(4, 4, 2), b"".join(b"map %d 0 %d %d %d\n" % (n + 2, n % 2, n // 2, n + 1) for n in range(4))
    unmaps = b"".join(b"unmap %d 0 %d %d %d\n" % (n + 6, n % 2, n // 2, n + 1) for n in range(4))
    journal = Journal(geometry, 1, HEAD + ONE_PASS + maps + unmaps + b"row 0 0 5\n")
    held, after = {}, {}
    journal.apply(held, 0, 5)
    journal.apply(after, 0, 8)
    rows.is_true(held == {4: 0, 0: 1, 1: 2, 2: 3, 3: 4} and after == {4: 0, 3: 4}, "held version")


def large_walk(rows):
    """The walk of a trial: its pictures need at most 44 pages, and each settles within its bounds."""
    line, run = trial(7)
    walk = run.walk
    unpinned = [len(set(walk.wants(k)).difference(walk.pinned)) for k in range(60)]
    rows.is_true(max(unpinned) <= 40 and max(walk.needed(k) for k in range(60)) <= 44, "large walk: pages that are needed")
    rows.is_true(run.is_whole() and run.reads() == int(line.split()[7]) and line.endswith(b" differ 0\n"), "large walk: its end")


def any_order(rows):
    """Walks whose pages come in any order settle to the same picture and log, and the judge finds nothing wrong with them."""
    store = Store(EIGHT_STORE)
    path = b"size 5 4\nfocal 3\nat 100 -77 3000 11585 -11585\nto 3 2000 300 700 16384 0\n"
    for seed in range(30):
        numbers = {"frames": 12 + seed % 10, "samplers": 1 + seed % 5, "batch": 1 + seed % 6, "pinned": 1 + seed % 2}
        settings = Settings(**numbers, settled=seed % 3 == 0, scheduling=SHARED if seed % 7 < 3 else DEALT)
        text, run = walked(Walk(store.geometry, Path(path), settings), Shuffled(seed), (3, 7) if not settings.settled else ())
        drawn = replay(store, Path(path), Journal(store.geometry, 4, text, 4))[: run.picture]
        log, status = (run.log + run.end_line(), 0) if run.is_whole() else (run.log, 5)
        said = rows.judged(EIGHT_STORE, path, settings, status, log, None, text, drawn, Doubt(lost=2))
        rows.is_true(not said, "any order %d: %s" % (seed, said))
        cut = text[: text.rindex(b"row 0")]
        said = rows.judged(EIGHT_STORE, path, settings, 3, b"".join(log.splitlines(True)[:-2]), None, cut, drawn[:-1], Doubt({3}, 2))
        rows.is_true(status == 5 or not said, "any order %d, cut: %s" % (seed, said))


WORKED = [single_texel, starved_walk, blends, lost_tile, other_lines, no_tile_lost, one_settled, shared_rows, shared_versions, swapped_table, one_batch]
WORKED += [coarse_to_fine, failing_calls, replays, foreign_journals, failing_creations, held_version, large_walk, any_order]


def wrong_rows():
    """The rows that come out otherwise than they were worked."""
    with tempfile.TemporaryDirectory() as folder:
        rows = Rows(folder)
        for row in WORKED:
            row(rows)
    return rows.wrong
