"""Tables of real_files.py: whole commands over files of their own, and what each leaves. The results were found by hand."""
import re
from collections import namedtuple

from judge import FAULT, LINES
from rows import EIGHT_STORE, FIRST, FOUR, FOUR_STORE

# The words; the files before the run, which stay but for those of `left`; what is printed; what names hold after it that are new or another's; the
# pictures of the prefix f; the status; and the error line. After the run the folder holds nothing else.
Run = namedtuple("Run", "words files out left pictures status err", defaults=(b"", {}, [], 0, b""))


def journal(text, *pairs):
    """The journals of a text, in which each ? is a digit from the first of its pair to the second."""
    parts = [re.escape(part.encode()) for part in text.split("?")]
    return re.compile(parts[0] + b"".join(b"([%d-%d])%s" % (*pair, part) for pair, part in zip(pairs, parts[1:])))


def greys(samples):
    return b"".join(bytes([sample] * 3) for sample in samples)


G4 = b"P6\n4 4\n255\n" + greys(range(16))
WIDE_STORE = b"VTS2" + bytes.fromhex(
    """00000004 00000004 00000002
    000000000000 010101010101 040404040404 050505050505 020202020202 030303030303 060606060606 070707070707
    080808080808 090909090909 0c0c0c0c0c0c 0d0d0d0d0d0d 0a0a0a0a0a0a 0b0b0b0b0b0b 0e0e0e0e0e0e 0f0f0f0f0f0f
    030303030303 050505050505 0b0b0b0b0b0b 0d0d0d0d0d0d"""
)
SINGLE_STORE = b"VTS1" + bytes.fromhex("00000001 00000001 00000002 0a141e 0a141e 0a141e 0a141e")

# The path of one picture of two pixels, from higher; and paths of one pixel.
HIGHER = b"size 2 1\nfocal 1\nat 0 0 512 16384 0\n"
DOT = b"size 1 1\nfocal 1\nat 0 0 256 16384 0\n"

# What the first picture shows of the texture, at two bytes a sample, from higher, with the root alone and with page 0 besides.
PICTURE = b"P6\n2 1\n255\n\x0d\x0d\x0d\x01\x01\x01"
WIDE_PICTURE = b"P6\n2 1\n65535\n\x0d\x0d\x0d\x0d\x0d\x0d\x01\x01\x01\x01\x01\x01"
COARSE = b"P6\n2 1\n255\n\x0d\x0d\x0d\x05\x05\x05"
LOW = b"P6\n2 1\n255\n\x0b\x0b\x0b\x03\x03\x03"
WITH_PAGE_0 = b"P6\n2 1\n255\n\x0b\x0b\x0b\x01\x01\x01"
# The third picture where neither page 1 nor page 3 is mapped, where one of them is, and settled.
FAR = b"P6\n2 1\n255\n\x0d\x0d\x0d\x05\x05\x05"
FAR_WITH_PAGE_1 = b"P6\n2 1\n255\n\x0d\x0d\x0d\x03\x03\x03"
FAR_WITH_PAGE_3 = b"P6\n2 1\n255\n\x0f\x0f\x0f\x05\x05\x05"
OTHER = b"P6\n2 1\n255\n\x0f\x0f\x0f\x03\x03\x03"


def drawn(texture, path, *pictures, options=""):
    files = {"g4.ppm": texture, "a.path": path}
    return Run("plain g4.ppm a.path f --tile 2" + options, files, b"end pictures %d\n" % len(pictures), {}, [*pictures])


def tiled(texture, line, store):
    return Run("tile t.ppm s.vts --tile 2", {"t.ppm": texture, "a.path": FIRST}, line, {"s.vts": store})


def informed(line, store):
    return Run("info s.vts", {"s.vts": store, "a.path": FIRST}, line)


def replayed(text, *pictures, store=FOUR_STORE, path=FIRST, options=""):
    files = {"s.vts": store, "a.path": path, "j.txt": text}
    return Run("replay s.vts a.path j.txt f" + options, files, b"end pictures %d\n" % len(pictures), {}, [*pictures])


def refused(run, status, err):
    return run._replace(out=b"", left={}, pictures=[], status=status, err=err)


def cut(lines, *pictures):
    """A replay of so many lines of the settled walk's journal: with no picture the next line is the one that is missing."""
    run = replayed(b"".join(SETTLED_PASSES.splitlines(True)[:lines]), *pictures)
    return run if pictures else refused(run, 4, b"vtex: bad input: j.txt: bad line %d\n" % (lines + 1))


# A journal of the settled walk of one picture.
SETTLED_PASSES = b"""map 1 1 0 0 0
pass 1 picture 0 start 1
row 0 0 1
pass 2 picture 0 start 1
map 2 0 0 0 1
row 0 0 1
pass 3 picture 0 start 2
map 3 0 0 1 2
row 0 0 2
pass 4 picture 0 start 3
row 0 0 3
"""
# The same, where the row of its third pass shows the page that is mapped in it; and without the map that makes version 3.
LAST_SHOWN = SETTLED_PASSES.replace(b"row 0 0 2", b"row 0 0 3")
BROKEN = SETTLED_PASSES.replace(b"map 3 0 0 1 2\n", b"")
# That again, where the row of the second pass shows the page that is mapped in it.
UNCHANGED = b"""map 1 1 0 0 0
pass 1 picture 0 start 1
row 0 0 1
pass 2 picture 0 start 1
map 2 0 0 0 1
row 0 0 2
pass 3 picture 0 start 2
row 0 0 2
pass 4 picture 0 start 3
row 0 0 3
"""

# The journal of the walk that lost a tile, by the versions of its second and of its fourth row.
LOST = b"""map 1 1 0 0 0
pass 1 picture 0 start 1
row 0 0 1
pass 2 picture 1 start 1
map 2 0 0 0 1
map 3 0 0 1 2
row 0 0 %d
pass 3 picture 2 start 3
row 0 0 3
pass 4 picture 3 start 3
lost 0 1 0
unmap 4 0 0 0 1
map 5 0 1 1 1
row 0 0 %d
"""

# A journal that maps a page to the last frame, and the store of a texture of 32x16 texels for tiles of 16x16, each of one colour.
LAST_FRAME = b"map 1 1 0 0 0\npass 1 picture 0 start 1\nmap 2 0 0 0 65534\nrow 0 0 2\n"
THREE_COLOURS = b"VTS1\0\0\0\x20\0\0\0\x10\0\0\0\x10" + b"".join(bytes([colour] * 768) for colour in (0x11, 0x22, 0x33))

# Where the first of these ends after its head and after each of its passes.
ENDS = {14: 0, 49: 1, 112: 2, 147: 3, 223: 4}


def front(end):
    """A replay of the front of that journal which ends there: it is refused where it ends elsewhere."""
    text = (LOST % (1, 3))[:end]
    if end in ENDS:
        return replayed(text, *[LOW, LOW, FAR, FAR][: ENDS[end]], path=FOUR)
    return refused(replayed(text, path=FOUR), 4, b"vtex: bad input: j.txt: bad line %d\n" % (text.count(b"\n") + 1))


# Half a texel to the right of texel (1, 0) and a quarter of one down, so the texels 1, 2, 5 and 6 have the weights 24576, 24576, 8192 and 8192; and
# half a texel to the right of texel (3, 3) and three quarters down, where the texels 15, 12, 3 and 0 have the weights 8192, 8192, 24576 and 24576.
INSIDE = b"size 1 1\nfocal 1\nat 128 64 256 16384 0\n"
WRAPPING = b"size 1 1\nfocal 1\nat 640 -64 256 16384 0\n"
BLEND = b"P6\n1 1\n255\n\x05\x05\x05"
ROOT_BLEND = b"P6\n1 1\n255\n\x06\x06\x06"
BY_BLENDS = " --filter bilinear"

ONE_PASS = b"map 1 1 0 0 0\npass 1 picture 0 start 1\nrow 0 0 1\n"
WALK = "walk s.vts a.path f --frames %d --samplers %d --loaders 1 --journal j.txt"
ONE_BY_ONE = "walk s.vts a.path f --frames 3 --samplers %d --loaders %d --batch 1 --journal j.txt --settled"
BLENDED_TEXT = """map 1 1 0 0 0
pass 1 picture 0 start 1
row 0 0 1
pass 2 picture 0 start 1
map 2 0 0 0 1
map 3 0 1 0 2
map 4 0 0 1 3
map 5 0 1 1 4
row 0 0 ?
pass 3 picture 0 start 5
row 0 0 5
"""
BLENDED = Run(
    WALK % (5, 1) + " --settled" + BY_BLENDS,
    {"s.vts": FOUR_STORE, "a.path": WRAPPING},
    b"picture 0 passes 3 wanted 4 loaded 4 lost 0 evicted 0\nend pictures 1 reads 5\n",
    {"j.txt": journal(BLENDED_TEXT, (1, 5))},
    [BLEND],
)

# Stores, and the lines that tell of them. All channels of texel (x, y) of the odd one are 10y+x. The boxes of 0, 1, 2, 3 and of 0, 0, 0, 1 are the
# two texels of level 1 of the rounded one: 2 and 0.
DEEP_STORE = b"VTS2" + bytes.fromhex("00000001 00000001 00000002 00018000ffff 00018000ffff 00018000ffff 00018000ffff")
ODD_STORE = b"VTS1" + bytes.fromhex(
    """00000005 00000003 00000002
    000000 010101 0a0a0a 0b0b0b 020202 030303 0c0c0c 0d0d0d 040404 040404 0e0e0e 0e0e0e
    141414 151515 141414 151515 161616 171717 161616 171717 181818 181818 181818 181818
    060606 080808 151515 171717 090909 090909 181818 181818 0f0f0f 111111 0f0f0f 111111"""
)
ROUNDED_STORE = b"VTS1" + bytes.fromhex(
    "00000004 00000002 00000002 000000 010101 020202 030303 000000 000000 000000 010101 020202 000000 020202 000000"
)
SINGLE_LINE = b"store 1 1 tile 2 levels 1 pages 1 bytes 28\n"
DEEP_LINE = b"store 1 1 tile 2 levels 1 pages 1 bytes 40\n"
G4_LINE = b"store 4 4 tile 2 levels 2 pages 5 bytes 76\n"
WIDE_LINE = b"store 4 4 tile 2 levels 2 pages 5 bytes 136\n"
ODD_LINE = b"store 5 3 tile 2 levels 3 pages 9 bytes 124\n"
ROUNDED_LINE = b"store 4 2 tile 2 levels 2 pages 3 bytes 52\n"

SETTLED_TEXT = """map 1 1 0 0 0
pass 1 picture 0 start 1
row 0 0 1
pass 2 picture 0 start 1
map 2 0 0 0 1
row 0 0 ?
pass 3 picture 0 start 2
map 3 0 0 1 2
row 0 0 ?
pass 4 picture 0 start 3
row 0 0 3
"""
SETTLED = Run(
    ONE_BY_ONE % (1, 1),
    {"s.vts": FOUR_STORE, "a.path": FIRST},
    b"picture 0 passes 4 wanted 2 loaded 2 lost 0 evicted 0\nend pictures 1 reads 3\n",
    {"j.txt": journal(SETTLED_TEXT, (1, 2), (2, 3))},
    [PICTURE],
)
WIDE = SETTLED._replace(files={"s.vts": WIDE_STORE, "a.path": FIRST}, pictures=[WIDE_PICTURE])
CREWS = [(1, 1), (2, 1), (7, 1), (1, 3), (2, 3), (7, 3)]

# A picture of eight rows, askew, while only the root is mapped, by three samplers, to which the rows are dealt or which share them.
TALL = Run(
    WALK % (1, 3),
    {"s.vts": FOUR_STORE, "a.path": b"size 3 8\nfocal 2\nat 300 200 700 11585 11585\n"},
    b"picture 0 passes 1 wanted 5 loaded 0 lost 0 evicted 0\nend pictures 1 reads 1\n",
    {
        "j.txt": b"""map 1 1 0 0 0
pass 1 picture 0 start 1
row 0 0 1
row 1 1 1
row 2 2 1
row 3 0 1
row 4 1 1
row 5 2 1
row 6 0 1
row 7 1 1
"""
    },
    [
        b"P6\n3 8\n255\n"
        + bytes.fromhex(
            """0d0d0d 030303 0d0d0d 030303 0d0d0d 0d0d0d 050505 0d0d0d 0b0b0b 050505 050505 0b0b0b
            050505 030303 030303 050505 030303 030303 050505 030303 030303 030303 030303 030303"""
        )
    ],
)
SHARED_TALL = "map 1 1 0 0 0\npass 1 picture 0 start 1\n" + "".join("row %d ? 1\n" % row for row in range(8))
SHARED_TEXT = """map 1 1 0 0 0
pass 1 picture 0 start 1
row 0 ? 1
pass 2 picture 0 start 1
map 2 0 0 0 1
row 0 ? ?
pass 3 picture 0 start 2
map 3 0 0 1 2
row 0 ? ?
pass 4 picture 0 start 3
row 0 ? 3
"""

BATCH_OF_TWO = SETTLED._replace(
    words="walk s.vts a.path f --frames 3 --samplers 1 --loaders 1 --batch 2 --journal j.txt --settled",
    out=b"picture 0 passes 3 wanted 2 loaded 2 lost 0 evicted 0\nend pictures 1 reads 3\n",
    left={
        "j.txt": journal(
            """map 1 1 0 0 0
pass 1 picture 0 start 1
row 0 0 1
pass 2 picture 0 start 1
map 2 0 0 0 1
map 3 0 0 1 2
row 0 0 ?
pass 3 picture 0 start 3
row 0 0 3
""",
            (1, 3),
        )
    },
)
SETTLED_FOUR = Run(
    WALK % (3, 1) + " --settled",
    {"s.vts": FOUR_STORE, "a.path": FOUR},
    b"""picture 0 passes 3 wanted 2 loaded 2 lost 0 evicted 0
picture 1 passes 1 wanted 2 loaded 0 lost 0 evicted 0
picture 2 passes 3 wanted 2 loaded 2 lost 0 evicted 2
picture 3 passes 1 wanted 2 loaded 0 lost 0 evicted 0
end pictures 4 reads 5
""",
    {
        "j.txt": journal(
            """map 1 1 0 0 0
pass 1 picture 0 start 1
row 0 0 1
pass 2 picture 0 start 1
map 2 0 0 0 1
map 3 0 0 1 2
row 0 0 ?
pass 3 picture 0 start 3
row 0 0 3
pass 4 picture 1 start 3
row 0 0 3
pass 5 picture 2 start 3
row 0 0 3
pass 6 picture 2 start 3
unmap 4 0 0 1 2
map 5 0 1 0 2
unmap 6 0 0 0 1
map 7 0 1 1 1
row 0 0 ?
pass 7 picture 2 start 7
row 0 0 7
pass 8 picture 3 start 7
row 0 0 7
""",
            (1, 3),
            (3, 7),
        )
    },
    [PICTURE, PICTURE, OTHER, OTHER],
)
# The pages 16 and 18 are above the wanted pages 0 and 12; and one entry a batch, the pages 16, 0, 18 and 12 in their turn.
COARSE_TO_FINE = Run(
    "walk s.vts a.path f --frames 5 --samplers 1 --loaders 1 --batch 64 --journal j.txt --settled",
    {"s.vts": EIGHT_STORE, "a.path": FIRST},
    b"picture 0 passes 4 wanted 2 loaded 4 lost 0 evicted 0\nend pictures 1 reads 5\n",
    {
        "j.txt": journal(
            """map 1 2 0 0 0
pass 1 picture 0 start 1
row 0 0 1
pass 2 picture 0 start 1
map 2 1 0 0 1
map 3 1 0 1 2
row 0 0 ?
pass 3 picture 0 start 3
map 4 0 0 0 3
map 5 0 0 3 4
row 0 0 ?
pass 4 picture 0 start 5
row 0 0 5
""",
            (1, 3),
            (3, 5),
        )
    },
    [b"P6\n2 1\n255\n\x39\x39\x39\x01\x01\x01"],
)
ENTRY_BY_ENTRY = COARSE_TO_FINE._replace(
    words="walk s.vts a.path f --frames 5 --samplers 1 --loaders 1 --batch 1 --journal j.txt --settled",
    out=b"picture 0 passes 6 wanted 2 loaded 4 lost 0 evicted 0\nend pictures 1 reads 5\n",
    left={
        "j.txt": journal(
            """map 1 2 0 0 0
pass 1 picture 0 start 1
row 0 0 1
pass 2 picture 0 start 1
map 2 1 0 0 1
row 0 0 ?
pass 3 picture 0 start 2
map 3 0 0 0 2
row 0 0 ?
pass 4 picture 0 start 3
map 4 1 0 1 3
row 0 0 ?
pass 5 picture 0 start 4
map 5 0 0 3 4
row 0 0 ?
pass 6 picture 0 start 5
row 0 0 5
""",
            (1, 2),
            (2, 3),
            (3, 4),
            (4, 5),
        )
    },
)


def unfit(run, words, text, wanted, room):
    """A settled walk that ends after its first pass."""
    line = b"vtex: picture 0 wants %d pages, room for %d\n" % (wanted, room)
    return refused(run._replace(words=words), 5, line)._replace(left={"j.txt": text})


def walk_refused(words, status, line):
    return refused(SETTLED._replace(words=words), status, line)


def shared_row(samplers):
    """The settled walk whose samplers share its one row: any of them may draw it."""
    last, words = samplers - 1, ONE_BY_ONE % (samplers, 1) + " --rows shared"
    return SETTLED._replace(words=words, left={"j.txt": journal(SHARED_TEXT, (0, last), (0, last), (1, 2), (0, last), (2, 3), (0, last))})


# What is shown, and a run.
RUNS = [
    ("the first picture", drawn(G4, FIRST, PICTURE)),
    ("a row at its own level", drawn(G4, HIGHER, COARSE)),
    ("a row just lower", drawn(G4, b"size 2 1\nfocal 1\nat 0 0 511 16384 0\n", PICTURE)),
    # The places 0, -4, -7 and -10: from the second on the pixels show the column before.
    (
        "pictures on the way",
        drawn(G4, FIRST + b"to 3 -10 0 256 16384 0\n", PICTURE, *[b"P6\n2 1\n255\n\x0c\x0c\x0c\x00\x00\x00"] * 3),
    ),
    ("a texture of one level", drawn(b"P6 1 1 255\n\x0a\x14\x1e", HIGHER, b"P6\n2 1\n255\n\x0a\x14\x1e\x0a\x14\x1e")),
    (
        "one of two bytes a sample",
        drawn(b"P6 1 1 256\n\1\0\0\x80\0\1", HIGHER, b"P6\n2 1\n65535\n\xff\xff\x80\x00\x01\x00\xff\xff\x80\x00\x01\x00"),
    ),
    # The second picture wants texels of level 0, so both are drawn from the whole chain.
    ("one picture that wants level 0", drawn(G4, HIGHER + b"at 0 0 256 16384 0\n", COARSE, PICTURE)),
    ("a scaled texture", drawn(b"P6\n4 4\n100\n" + greys(range(16)), FIRST, b"P6\n2 1\n255\n\x21\x21\x21\x03\x03\x03")),
    ("the greatest maximum", drawn(b"P6 1 1 65535\n\0\1\x80\0\xff\xff", DOT, b"P6\n1 1\n65535\n\x00\x01\x80\x00\xff\xff")),
    ("the maximum 256", drawn(b"P6 1 1 256\n\1\0\0\x80\0\1", DOT, b"P6\n1 1\n65535\n\xff\xff\x80\x00\x01\x00")),
    ("the maximum 255", drawn(b"P6 1 1 255\n\x0a\x14\x1e", DOT, b"P6\n1 1\n255\n\x0a\x14\x1e")),
    ("a blend of four texels", drawn(G4, WRAPPING, BLEND, options=BY_BLENDS)),
    ("one inside", drawn(G4, INSIDE, b"P6\n1 1\n255\n\x03\x03\x03", options=BY_BLENDS)),
    ("the nearest texel there", drawn(G4, WRAPPING, b"P6\n1 1\n255\n\x0f\x0f\x0f", options=" --filter nearest")),
    ("gen over an older file", Run("gen 0 1 1 g4.ppm", {"g4.ppm": G4, "a.path": FIRST}, left={"g4.ppm": b"P6\n1 1\n255\n\x00\x00\x00"})),
    ("the number 1", Run("gen 1 2 1 g.ppm", {"g4.ppm": G4, "a.path": FIRST}, left={"g.ppm": b"P6\n2 1\n255\n\x01\x03\x07\x02\x03\x07"})),
    # The greatest number is 255 of 256, so that its samples are below 256 by 1, 3 and 7.
    (
        "the greatest number",
        Run(
            "gen 65535 3 2 g.ppm",
            {"g4.ppm": G4, "a.path": FIRST},
            left={"g.ppm": b"P6\n3 2\n255\n\xff\xfd\xf9\x00\xfd\xf9\x01\xfd\xf9\xff\xfe\xf9\x00\xfe\xfa\x01\xfe\xfb"},
        ),
    ),
    ("trial 7", Run("trial 7", {}, b"trial 7 pictures 60 passes 73 reads 77 differ 0\n")),
    ("trial 65536", refused(Run("trial 65536", {"g4.ppm": G4, "a.path": FIRST}), 2, LINES[2])),
    ("a journal", replayed(LAST_SHOWN, PICTURE)),
    ("a journal over two bytes a sample", replayed(LAST_SHOWN, WIDE_PICTURE, store=WIDE_STORE)),
    ("a version that is not there", refused(replayed(BROKEN), 4, b"vtex: bad input: j.txt: bad line 9\n")),
    # As many tiles of that side as the frames before it have twice the texels that a walk's frames may have.
    ("the last frame that there may be", replayed(LAST_FRAME, b"P6\n2 1\n255\n\x11\x11\x11\x11\x11\x11", store=THREE_COLOURS)),
    ("a journal by blends", replayed(BLENDED_TEXT.replace("?", "3").encode(), BLEND, path=WRAPPING, options=BY_BLENDS)),
    ("one of one pass", replayed(ONE_PASS, ROOT_BLEND, path=WRAPPING, options=BY_BLENDS)),
    # The journal does not name the filter, so another one gives another picture.
    ("one by the nearest texel", replayed(BLENDED_TEXT.replace("?", "3").encode(), b"P6\n1 1\n255\n\x0f\x0f\x0f", path=WRAPPING)),
    ("the head alone", replayed(b"map 1 1 0 0 0\n")),
    *[("%d lines of a journal" % lines, cut(lines)) for lines in (2, 4, 5, 7, 8, 10)],
    *[("%d lines of a journal" % lines, cut(lines, picture)) for lines, picture in [(3, LOW), (6, LOW), (9, WITH_PAGE_0), (11, PICTURE)]],
    *[("%d bytes of a journal" % end, front(end)) for end in range(224)],
    ("a journal without one of its changes", refused(replayed(UNCHANGED), 4, b"vtex: bad input: j.txt: bad line 9\n")),
    ("the lost tile, at 1 and 3", replayed(LOST % (1, 3), LOW, LOW, FAR, FAR, path=FOUR)),
    ("the lost tile, at 2 and 4", replayed(LOST % (2, 4), LOW, WITH_PAGE_0, FAR, FAR, path=FOUR)),
    ("the lost tile, at 3 and 5", replayed(LOST % (3, 5), LOW, PICTURE, FAR, FAR_WITH_PAGE_3, path=FOUR)),
    ("the lost tile, at 1 and 5", replayed(LOST % (1, 5), LOW, LOW, FAR, FAR_WITH_PAGE_3, path=FOUR)),
    ("the lost tile, at 3 and 3", replayed(LOST % (3, 3), LOW, PICTURE, FAR, FAR, path=FOUR)),
    ("a single texel", tiled(b"P6\n1 1\n255\n\x0a\x14\x1e", SINGLE_LINE, SINGLE_STORE)),
    ("info of a single texel", informed(SINGLE_LINE, SINGLE_STORE)),
    ("two bytes a sample", tiled(b"P6 1 1 65535\n\0\1\x80\0\xff\xff", DEEP_LINE, DEEP_STORE)),
    ("info of two bytes a sample", informed(DEEP_LINE, DEEP_STORE)),
    ("four by four texels", tiled(G4, G4_LINE, FOUR_STORE)),
    ("info of four by four texels", informed(G4_LINE, FOUR_STORE)),
    ("odd sides", tiled(b"P6\n5 3\n255\n" + greys(10 * y + x for y in range(3) for x in range(5)), ODD_LINE, ODD_STORE)),
    ("info of odd sides", informed(ODD_LINE, ODD_STORE)),
    ("boxes that are rounded", tiled(b"P6\n4 2\n255\n" + greys([0, 1, 0, 0, 2, 3, 0, 1]), ROUNDED_LINE, ROUNDED_STORE)),
    ("info of boxes that are rounded", informed(ROUNDED_LINE, ROUNDED_STORE)),
    ("no texture", refused(tiled(b"P5 1 1 255\n\0", b"", b""), 4, b"vtex: bad input: t.ppm: bad magic\n")),
    ("a texture that is not there", refused(tiled(G4, b"", b"")._replace(words="tile none s.vts --tile 2"), 3, FAULT)),
    ("a store that is not there", refused(tiled(G4, b"", b"")._replace(words="info none"), 3, FAULT)),
    ("an upgrade", Run("upgrade s.vts w.vts", {"s.vts": FOUR_STORE, "a.path": FIRST}, WIDE_LINE, {"w.vts": WIDE_STORE})),
    ("info of an upgraded store", informed(WIDE_LINE, WIDE_STORE)),
    ("an upgrade over another file", Run("upgrade s.vts a.path", {"s.vts": FOUR_STORE, "a.path": FIRST}, WIDE_LINE, {"a.path": WIDE_STORE})),
    ("a walk by blends", BLENDED),
    ("one by two samplers", BLENDED._replace(words=WALK % (5, 2) + " --settled" + BY_BLENDS)),
    ("one by seven samplers", BLENDED._replace(words=WALK % (5, 7) + " --settled" + BY_BLENDS)),
    # At two bytes a sample the blend is rounded later.
    (
        "one over two bytes a sample",
        BLENDED._replace(files={"s.vts": WIDE_STORE, "a.path": WRAPPING}, pictures=[b"P6\n1 1\n65535\n\x04\x85\x04\x85\x04\x85"]),
    ),
    # A frame for the root alone, whose texels are 13, 11, 5 and 3.
    (
        "a live walk by blends",
        BLENDED._replace(
            words=WALK % (1, 1) + BY_BLENDS,
            left={"j.txt": ONE_PASS},
            pictures=[ROOT_BLEND],
            out=b"picture 0 passes 1 wanted 4 loaded 0 lost 0 evicted 0\nend pictures 1 reads 1\n",
        ),
    ),
    ("a blend that does not fit", unfit(BLENDED, WALK % (4, 1) + " --settled" + BY_BLENDS, ONE_PASS, 4, 3)),
    ("a picture that does not fit", unfit(SETTLED, ONE_BY_ONE.replace("3", "2", 1) % (1, 1), ONE_PASS, 2, 1)),
    # The pages above the wanted ones need frames too.
    (
        "pages above that do not fit",
        unfit(COARSE_TO_FINE, WALK % (4, 1) + " --settled", b"map 1 2 0 0 0\npass 1 picture 0 start 1\nrow 0 0 1\n", 4, 3),
    ),
    ("pinned pages that do not fit", walk_refused("walk s.vts a.path f --frames 4 --pinned 2", 5, b"vtex: 4 frames, pinned pages need 5\n")),
    ("a path that is not there", walk_refused("walk s.vts b.path f", 3, FAULT)),
    ("too many samplers", walk_refused("walk s.vts a.path f --samplers 65", 2, LINES[2])),
]

# Walks, whose journals are replayed to their pictures.
WALKED = [
    (
        "a single texel",
        Run(
            "walk s.vts a.path f --journal j.txt",
            {"s.vts": SINGLE_STORE, "a.path": DOT},
            b"picture 0 passes 1 wanted 1 loaded 0 lost 0 evicted 0\nend pictures 1 reads 1\n",
            {"j.txt": b"map 1 0 0 0 0\npass 1 picture 0 start 1\nrow 0 0 1\n"},
            [b"P6\n1 1\n255\n\x0a\x14\x1e"],
        ),
    ),
    (
        "a frame for the root alone",
        SETTLED._replace(
            words=WALK % (1, 1),
            out=b"picture 0 passes 1 wanted 2 loaded 0 lost 0 evicted 0\nend pictures 1 reads 1\n",
            left={"j.txt": ONE_PASS},
            pictures=[LOW],
        ),
    ),
    ("eight rows", TALL),
    ("a batch of two", BATCH_OF_TWO),
    ("four pictures", SETTLED_FOUR),
    ("coarse to fine", COARSE_TO_FINE),
    ("one entry a batch", ENTRY_BY_ENTRY),
    *[("%d samplers, %d loaders" % crew, SETTLED._replace(words=ONE_BY_ONE % crew)) for crew in CREWS],
    *[("%d samplers, %d loaders at two bytes a sample" % crew, WIDE._replace(words=ONE_BY_ONE % crew)) for crew in CREWS],
    *[("shared rows by %d" % count, shared_row(count)) for count in (1, 2, 7)],
    ("eight shared rows", TALL._replace(words=WALK % (1, 3) + " --rows shared", left={"j.txt": journal(SHARED_TALL, *[(0, 2)] * 8)})),
    *[("the swapped table by %d" % count, SETTLED._replace(words=ONE_BY_ONE % (count, 1) + " --table swap")) for count in (1, 2, 7)],
    ("eight rows over it", TALL._replace(words=WALK % (1, 3) + " --table=swap")),
]

# Live walks of four pictures of one row each, one pass a picture, in which both pages of a place are replaced by those of another: what each picture
# holds, by the version of its row from the least on.
FLIGHT = Run(
    "walk s.vts a.path f --frames 3 --samplers 1 --loaders 1 --batch 64 --journal j.txt",
    {"s.vts": FOUR_STORE, "a.path": FOUR},
    b"""picture 0 passes 1 wanted 2 loaded 0 lost 0 evicted 0
picture 1 passes 1 wanted 2 loaded 2 lost 0 evicted 0
picture 2 passes 1 wanted 2 loaded 0 lost 0 evicted 0
picture 3 passes 1 wanted 2 loaded 2 lost 0 evicted 2
end pictures 4 reads 5
""",
    {
        "j.txt": journal(
            """map 1 1 0 0 0
pass 1 picture 0 start 1
row 0 0 ?
pass 2 picture 1 start 1
map 2 0 0 0 1
map 3 0 0 1 2
row 0 0 ?
pass 3 picture 2 start 3
row 0 0 ?
pass 4 picture 3 start 3
unmap 4 0 0 1 2
map 5 0 1 0 2
unmap 6 0 0 0 1
map 7 0 1 1 1
row 0 0 ?
""",
            (1, 1),
            (1, 3),
            (3, 3),
            (3, 7),
        )
    },
)
LEAST = (1, 1, 3, 3)
SHOWN = [[LOW], [LOW, WITH_PAGE_0, PICTURE], [FAR], [FAR, FAR, FAR_WITH_PAGE_1, FAR_WITH_PAGE_1, OTHER]]
FLIGHTS = [FLIGHT, FLIGHT._replace(words=FLIGHT.words + " --table swap")]

# Three pictures over a texture of 512 texels a side, from the heights of 64 to 160 texels, and settled walks by one worker of each kind and by many.
TOUR = b"size 64 48\nfocal 48\nat 65536 65536 16384 16384 0\nto 2 90000 50000 40960 11585 11585\n"
ALONE = "walk s.vts a.path f --frames 100 --samplers 1 --loaders 1 --batch 8 --settled"
MANY = "walk s.vts a.path f --frames 100 --samplers 7 --loaders 3 --batch 8 --settled"
