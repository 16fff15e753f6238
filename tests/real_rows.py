"""The tables of real_files.py."""
from judge import FAULT, LINES

USAGE = LINES[2]


def bad_input(name, flaw):
    return b"vtex: bad input: %s: %s\n" % (name.encode(), flaw.encode())


# The sides of a texture, its tile side, the sides of the picture, the focal number, the camera, and the texture's maximum: odd and even sides,
# slanted cameras, places before the texture's first column, and far levels.
PICTURES = [
    (1, 1, 2, "3 2", 1, "0 0 256 16384 0", 255),
    (5, 3, 2, "7 9", 3, "-1000 77 1024 11585 -11585", 255),
    (64, 64, 8, "40 30", 20, "300 -5000 20480 -3000 16000", 255),
    (37, 23, 2, "33 41", 4, "-2147483648 2147483648 16777216 -16384 16384", 255),
    (200, 119, 16, "64 48", 100, "12345 -6789 204800 16384 0", 255),
    (130, 257, 128, "50 20", 7, "0 0 65535 0 -16384", 255),
    (1, 1, 2, "3 2", 1, "0 0 256 16384 0", 65535),
    (5, 3, 2, "7 9", 3, "-1000 77 1024 11585 -11585", 65535),
    (64, 64, 8, "40 30", 20, "300 -5000 20480 -3000 16000", 256),
    (37, 23, 2, "33 41", 4, "-2147483648 2147483648 16777216 -16384 16384", 1000),
    (200, 119, 16, "64 48", 100, "12345 -6789 204800 16384 0", 65534),
    (130, 257, 128, "50 20", 7, "0 0 65535 0 -16384", 65535),
]

# Rounding down on the way in both directions, a step of one picture, and a key of its own in between.
KEYS = """size 9 6
focal 7
at 100 -100 9000 16384 0
to 7 -99 1 300 -16384 5
at 5 5 4096 0 16384
to 1 6 4 4095 1 16383
to 3 9 -9 70000 16384 -3
"""

# A path, and how many pictures it gives or why it is refused.
PATHS = [
    ("size 2 1\nfocal 1\nat 0 0 256 16384 0\n", 1),
    ("size 2 1\nfocal 1\nat 0 0 256 16384 0\nto 3 -10 0 256 16384 0\n", 4),
    ("size 2 1\nfocal 1\n", 0),
    ("", "bad line 1"),
    ("size 2 1", "bad line 1"),
    ("size 2 1\n", "bad line 2"),
    ("size 2 1\nfocal 1", "bad line 2"),
    ("size 2 1\nsize 2 1\n", "bad line 2"),
    ("size 2  1\nfocal 1\n", "bad line 1"),
    ("size 0 1\n", "bad line 1"),
    ("size 02 1\n", "bad line 1"),
    ("size 2 1 \n", "bad line 1"),
    ("size 2 1\r\n", "bad line 1"),
    ("size 2 1\nfocal 1\n\n", "bad line 3"),
    ("size 2 1\nfocal 1\nat -0 0 256 0 0\n", "bad line 3"),
    ("size 2 1\nfocal 1\nat 0 0 0 0 0\n", "bad line 3"),
    ("size 2 1\nfocal 1\nat -2147483649 0 1 0 0\n", "bad line 3"),
    ("size 2 1\nfocal 1\nat 0 0 256 16384 0", "bad line 3"),
    ("size 2 1\nfocal 1\nto 1 0 0 1 0 0\n", "no key at line 3"),
    ("size 2 1\nfocal 1\nto 9999 0 0 1 0 0\n", "no key at line 3"),
    ("size 2 1\nfocal 1\nto 2 0 0 256 16384 0\nat\n", "no key at line 3"),
    ("size 2 1\nfocal 1\nto x 0 0 1 0 0\n", "bad line 3"),
    ("size 2 1\nfocal 1\nat 0 0 256 16384 0\nto 0 0 0 1 0 0\n", "bad line 4"),
    ("size 2 1\nfocal 1\nat 0 0 1 0 0\nto 9999 0 0 1 0 0\n", "too many pictures"),
    ("focal 1\nsize 2 1\n", "bad line 1"),
    ("size 0 1\nfocal 1\n", "bad line 1"),
    ("size 2 2049\nfocal 1\n", "bad line 1"),
    ("size 2 01\nfocal 1\n", "bad line 1"),
    ("size 2 1\nfocal 0\n", "bad line 2"),
    ("size 2 1\nfocal 4097\n", "bad line 2"),
    ("size 2 1\nfocal 1\nat 0 0 1 0 0 0\n", "bad line 3"),
    ("size 2 1\nfocal 1\nat 0 0 1 0 -0\n", "bad line 3"),
    ("size 2 1\nfocal 1\nat 0 0 16777217 1 0\n", "bad line 3"),
    ("size 2 1\nfocal 1\nat 0 0 1 16385 0\n", "bad line 3"),
    ("size 2 1\nfocal 1\nat 0 0 1 0 -16385\n", "bad line 3"),
    ("size 2 1\nfocal 1\nat 2147483649 0 1 0 0\n", "bad line 3"),
    ("size 2 1\nfocal 1\nat 0 -2147483649 1 0 0\n", "bad line 3"),
    ("size 2 1\nfocal 1\nto 1 0 0 1 0\n", "bad line 3"),
    ("size 2 1\nfocal 1\nto 9999 0 0 1 0 0\nat\n", "no key at line 3"),
    ("size 2 1\nfocal 1\nat 0 0 256 16384 0\n\n", "bad line 4"),
    ("size 2 1\nfocal 1\nat 0 0 256 16384 0\nto 10000 0 0 1 0 0\n", "bad line 4"),
    ("size 2 1\nfocal 1\nat 0 0 256 16384 0\nto 9998 0 0 1 0 0\nat 0 0 1 0 0\nat\n", "too many pictures"),
]

# A texture, and the bytes of its first texel.
TEXTURES = [
    (b"P6 1 1 255\n\0abc", b"\x00\x61\x62"),
    (b"P6\r\n# made by hand\r\n2 1\n100\n\0\062\144\144\062\0", b"\x00\x80\xff"),
    (b"P6 2 1 255\r\n\001\002\003\004\005\006", b"\x0a\x01\x02"),
    (b"P6 01 1 255\nabc", b"\x61\x62\x63"),
    (b"P6 #a\n#b\n1 1 255\nabc", b"\x61\x62\x63"),
    (b"P6\t#\r \n#\n0000000001\n1 #x\n 0255\tabcd", b"\x61\x62\x63"),
    (b"P6 1 1 1\n\001\0\001", b"\xff\x00\xff"),
    (b"P6 1 1 254\n\177\376\001", b"\x80\xff\x01"),
    (b"P6 1 1 65535\n\0\001\200\0\377\377", b"\x00\x01\x80\x00\xff\xff"),
    (b"P6 1 1 256\n\001\0\0\200\0\001", b"\xff\xff\x80\x00\x01\x00"),
    (b"P6\t1\r1 #\r255 \007\010\011\012", b"\x07\x08\x09"),
]

# A texture, and why it is refused.
REFUSED_TEXTURES = [
    (b"", "bad magic"),
    (b"P", "bad magic"),
    (b"P5 1 1 255\n\0", "bad magic"),
    (b"P6", "bad header at byte 2"),
    (b"P6 1 1 255", "bad header at byte 10"),
    (b"P6 1 1 255#", "bad header at byte 10"),
    (b"P6 1 1#a\n255\n", "bad header at byte 6"),
    (b"P6 1 1 #a", "bad header at byte 9"),
    (b"P6 1 1\v255\n", "bad header at byte 6"),
    (b"P6 -1 1 255\n", "bad header at byte 3"),
    (b"P6 00000000001 1 255\n", "bad header at byte 13"),
    (b"P6#a\n1 1 255\n", "bad header at byte 2"),
    (b"P6\v1 1 255\n", "bad header at byte 2"),
    (b"P6 0 1 255\n", "bad size"),
    (b"P6 1 16385 255\nabc", "bad size"),
    (b"P6 16385 1 255\nabc", "bad size"),
    (b"P6 9999999999 1 255\n", "bad size"),
    (b"P6 1 1 0\nabc", "bad maximum"),
    (b"P6 1 1 65536\nabc", "bad maximum"),
    (b"P6 1 1 255\nab", "raster of 2 bytes, wanted 3"),
    (b"P6 8192 8192 255\n", "raster of 0 bytes, wanted 201326592"),
    (b"P6 1 1 256\nabc", "raster of 3 bytes, wanted 6"),
    (b"P6 8192 8192 256\n", "raster of 0 bytes, wanted 402653184"),
    (b"P6 1 1 100\n\001\145\0", "sample over maximum at byte 12"),
    (b"P6 1 1 256\n\001\001\0\200\0\001", "sample over maximum at byte 11"),
    (b"P6 1 1 256\n\001\0\0\200\001\001", "sample over maximum at byte 15"),
    (b"P6 1 1x255\nabc", "bad header at byte 6"),
    (b"P6 #1 1 255 abc", "bad header at byte 15"),
]

# Textures whose sides `tile` takes, so that it finds another flaw, and `plain`, which reads a texture whole, does not.
LONG_SIDES = [
    (b"P6 1 8193 255\nabc", "raster of 3 bytes, wanted 24579"),
    (b"P6 8193 1 65535\n", "raster of 0 bytes, wanted 49158"),
    (b"P6 16384 16384 255\n", "raster of 0 bytes, wanted 805306368"),
    (b"P6 16384 16384 256\n", "raster of 0 bytes, wanted 1610612736"),
]

# How many blanks follow the magic, and where the header breaks.
BLANKS = [(100, 102), (70000, 65536)]

# Who writes a texture, and how, into other.ppm.
OTHERS = [
    ("netpbm's ppmpat", "ppmpat -gingham2 -randomseed=1 61 47 > other.ppm"),
    ("netpbm's pamdepth", "ppmpat -tartan -randomseed=2 40 33 | pamdepth 100 > other.ppm"),
    ("ImageMagick", '"$magick" -seed 3 -size 59x31 plasma:red-blue -depth 8 ppm:other.ppm'),
    ("ffmpeg", "ffmpeg -v quiet -y -f lavfi -i testsrc=size=64x48 -frames:v 1 -pix_fmt rgb24 other.ppm"),
]
NOISE = "pgmnoise -maxval=65535 -randomseed=%d 2048 2048"
LARGE_OTHERS = [
    ("netpbm's pgmnoise", "rgb3toppm %s > other.ppm" % " ".join("<(%s)" % (NOISE % seed) for seed in (1, 2, 3))),
    ("ImageMagick", '"$magick" -seed 3 -size 2048x2048 plasma:red-blue -depth 16 ppm:other.ppm'),
]

# The sides of a texture, the tile side, the maximum, and whether tiles.c is held against the others.
STORES = [
    (1, 1, 2, 255, False),
    (5, 3, 2, 255, True),
    (4, 4, 2, 255, False),
    (129, 3, 128, 255, True),
    (64, 64, 64, 255, False),
    (65, 63, 8, 255, True),
    (2, 300, 16, 255, False),
    (1, 1, 2, 65535, False),
    (5, 3, 2, 256, True),
    (129, 3, 128, 65535, False),
    (65, 63, 8, 65534, True),
]

# The sides of a texture of noise, its depth, the tile side, and the KiB of memory that the program gets: for one of them less than the texture has
# bytes.
LARGE_STORES = [
    ("16384x5000", 16384, 5000, 1, 64, 200000),
    ("16383x701 at two bytes a sample", 16383, 701, 2, 32, None),
    ("301x16384", 301, 16384, 1, 128, None),
]

# The magic and the length of a store of g4.ppm, which has 76 bytes, and why it is refused.
STORE_FLAWS = [
    ("a store cut to 3 bytes", b"VTS1", 3, "bad magic"),
    ("a store cut to 4 bytes", b"VTS1", 4, "length 4, wanted 16"),
    ("a store cut to 15 bytes", b"VTS1", 15, "length 15, wanted 16"),
    ("a store cut to 16 bytes", b"VTS1", 16, "length 16, wanted 76"),
    ("a store cut to 75 bytes", b"VTS1", 75, "length 75, wanted 76"),
    ("a store of one byte a sample taken for one of two", b"VTS2", 76, "length 76, wanted 136"),
    ("a store with a byte more", b"VTS1", 77, "length 77, wanted 76"),
]

# What is no store, and why it is refused.
NO_STORES = [
    ("nothing", b"", "bad magic"),
    ("a store of tiles of 3x3 texels", b"VTS1\0\0\0\4\0\0\0\4\0\0\0\3\0\0\0", "bad geometry"),
    ("a store of too many pages", b"VTS1\0\0\40\0\0\0\40\0\0\0\0\2\0\0\0", "bad geometry"),
    ("a texture", b"P6\n4 4\n255\n" + bytes(48), "bad magic"),
]

# The number and the sides of a texture that `gen` makes.
GENERATED = [(0, 1, 1), (1, 300, 257), (7, 64, 64), (65535, 3, 700), (256, 8192, 3), (3, 1, 8192)]

# A command, its words with an option and without or at another place, and what it writes.
OPTIONS = [
    ("tile with no tile side", "tile g4.ppm NAME.vts --tile 64", "tile g4.ppm NAME.vts", "NAME.vts"),
    ("plain with no tile side", "plain g4.ppm a.path NAME --tile 64", "plain g4.ppm a.path NAME", "NAME0000.ppm"),
    ("tile with its option first", "tile g4.ppm NAME.vts --tile 2", "tile --tile=2 g4.ppm NAME.vts", "NAME.vts"),
]

# What a walk is over, the sides, the seed and the maximum of its texture, which `gen` makes where there are none, the tile side, the path and the
# options.
WALK_PATH = """size 40 30
focal 30
at 300 -5000 20480 -3000 16000
to 5 9000 9000 9000 16384 0
at 5 5 4096 0 16384
to 3 99 9 40000 11585 -11585
"""
LARGE_PATH = "size 320 200\nfocal 100\nat 1792 0 204800 16384 0\nto 11 263936 0 204800 16384 0\n"
ODD = "an odd texture", (200, 119, 4, 255)
WALKS = [
    ("a large texture", None, 64, LARGE_PATH, ""),
    (*ODD, 16, WALK_PATH, "--frames 200"),
    (*ODD, 8, WALK_PATH, "--frames 400 --samplers 7 --loaders 3 --batch 5"),
    (*ODD, 16, WALK_PATH, "--frames 130 --samplers 1 --loaders 1 --batch 64 --pinned 2"),
    (*ODD, 16, WALK_PATH, "--frames 150 --samplers 64 --loaders 16 --batch 1 --pinned 16"),
    (*ODD, 8, WALK_PATH, "--frames 400 --samplers 5 --loaders 2 --batch 7 --rows shared"),
    (*ODD, 8, WALK_PATH, "--frames 400 --samplers 5 --loaders 2 --batch 7 --table swap"),
    ("a wide texture", (130, 257, 5, 65535), 32, WALK_PATH, "--frames 70 --samplers 2 --loaders 5 --batch 3"),
    ("a small texture", (5, 3, 6, 255), 2, WALK_PATH, "--frames 9 --batch 2"),
]
DEFAULTS = "--frames 64 --samplers 4 --loaders 3 --batch 64 --pinned 1 --table words --rows dealt --filter nearest --journal long.txt"

# Words that are refused, the status and the line.
REFUSALS = [
    ("", 2, USAGE),
    ("plain g4.ppm none no --tile 2", 3, FAULT),
    ("plain none a.path no --tile 2", 3, FAULT),
    ("plain none g4.ppm no --tile 2", 4, bad_input("g4.ppm", "bad line 1")),
    ("plain a.path none no --tile 2", 3, FAULT),
    ("plain a.path a.path no --tile 2", 4, bad_input("a.path", "bad magic")),
    ("plain a.path g4.ppm no --tile 2", 4, bad_input("g4.ppm", "bad line 1")),
    ("plain g4.ppm g4.ppm no --tile 2", 4, bad_input("g4.ppm", "bad line 1")),
    ("Plain g4.ppm a.path no --tile 2", 2, USAGE),
    ("plain g4.ppm a.path no --tile", 2, USAGE),
    ("plain g4.ppm a.path no --tile 2 2", 2, USAGE),
    ("plain g4.ppm a.path no --tile 3", 2, USAGE),
    ("plain g4.ppm a.path no --tile 02", 2, USAGE),
    ("plain no0000.ppm a.path no --tile 2", 2, USAGE),
    ("plain g4.ppm no1234.ppm no --tile 2", 2, USAGE),
    ("tile g4.ppm g4.ppm --tile 2", 2, USAGE),
    ("tile g4.ppm no.vts --tile 3", 2, USAGE),
    ("tile g4.ppm no.vts --tiles 2", 2, USAGE),
    ("tile g4.ppm no.vts --tile", 2, USAGE),
    ("tile g4.ppm no.vts --tile 2 2", 2, USAGE),
    ("tile none no.vts --tile 2", 3, FAULT),
    ("info", 2, USAGE),
    ("info g4.vts g4.vts", 2, USAGE),
    ("info none", 3, FAULT),
    ("upgrade", 2, USAGE),
    ("upgrade g4.vts", 2, USAGE),
    ("upgrade g4.vts g4.vts", 2, USAGE),
    ("upgrade g4.vts no.vts no.vts", 2, USAGE),
    ("upgrade g4.vts no.vts --tile 2", 2, USAGE),
    ("upgrade none no.vts", 3, FAULT),
    ("gen 0 0 1 no.ppm", 2, USAGE),
    ("gen 0 8193 1 no.ppm", 2, USAGE),
    ("gen 65536 1 1 no.ppm", 2, USAGE),
    ("gen 01 1 1 no.ppm", 2, USAGE),
    ("gen 0 1 no.ppm", 2, USAGE),
    ("walk g4.vts a.path no --samplers 65", 2, USAGE),
    ("walk g4.vts a.path no --samplers 0", 2, USAGE),
    ("walk g4.vts a.path no --loaders 17", 2, USAGE),
    ("walk g4.vts a.path no --batch 4097", 2, USAGE),
    ("walk g4.vts a.path no --pinned 17", 2, USAGE),
    ("walk g4.vts a.path no --frames 65536", 2, USAGE),
    ("walk g4.vts a.path no --frames 04", 2, USAGE),
    ("walk g4.vts a.path no --settled --settled", 2, USAGE),
    ("walk g4.vts a.path no --tile 2", 2, USAGE),
    ("walk g4.vts a.path no --rows taken", 2, USAGE),
    ("walk g4.vts a.path no --rows shared --filter bilinear", 2, USAGE),
    ("walk g4.vts a.path no --table other", 2, USAGE),
    ("walk g4.vts a.path no --table", 2, USAGE),
    ("walk g4.vts a.path no --table swap --rows shared", 2, USAGE),
    ("walk g4.vts a.path no --table swap --filter bilinear", 2, USAGE),
    ("walk g4.vts", 2, USAGE),
    ("walk g4.vts a.path", 2, USAGE),
    ("walk g4.vts a.path no --journal g4.vts", 2, USAGE),
    ("walk g4.vts a.path no --journal a.path", 2, USAGE),
    ("walk g4.vts a.path no --journal no0123.ppm", 2, USAGE),
    ("walk no9999.ppm a.path no", 2, USAGE),
    ("walk g4.vts no0000.ppm no", 2, USAGE),
    ("walk g64.vts a.path no --frames 2049", 2, USAGE),
    ("walk g4.vts none no", 3, FAULT),
    ("walk none a.path no", 3, FAULT),
    ("walk none g4.vts no", 4, bad_input("g4.vts", "bad line 1")),
    ("walk a.path a.path no", 4, bad_input("a.path", "bad magic")),
    ("walk g4.vts a.path no --frames 4 --pinned 2", 5, b"vtex: 4 frames, pinned pages need 5\n"),
    ("replay g4.vts a.path row0000.ppm row", 2, USAGE),
    ("replay g4.vts a.path a.path", 2, USAGE),
    ("replay g4.vts a.path none row --rows shared", 2, USAGE),
    ("replay g4.vts a.path none row --table swap", 2, USAGE),
    ("replay g4.vts a.path g4.vts row", 2, USAGE),
    ("replay row0000.ppm a.path none row", 2, USAGE),
    ("replay g4.vts a.path none row", 3, FAULT),
    ("replay g4.vts none g4.ppm row", 3, FAULT),
    ("replay none a.path g4.ppm row", 3, FAULT),
    ("replay g4.vts a.path g4.ppm row", 4, bad_input("g4.ppm", "bad line 1")),
    ("replay g4.vts g64.vts g4.ppm row", 4, bad_input("g64.vts", "bad line 1")),
    ("replay g4.ppm g64.vts a.path row", 4, bad_input("g64.vts", "bad line 1")),
    ("replay g4.ppm a.path g64.vts row", 4, bad_input("g4.ppm", "bad magic")),
    ("trial 65536", 2, USAGE),
    ("trial -1", 2, USAGE),
    ("trial 07", 2, USAGE),
    ("trial 7 7", 2, USAGE),
    ("trial", 2, USAGE),
]

# Words that are none of a command's, one blank between any two: two blanks stand about an empty word. All end with the usage line.
REFUSED_WORDS = [
    "tile t s --tile 1", "tile t s --tile 129", "tile t s --tile 256", "tile t s --tile 3", "tile t s --tile 08", "tile t s --tile=",
    "tile t s --tile 8 --tile 8", "tile t s --tile", "tile t s --til 8", "tile t s -- --tile 8", "info --", "", "walk s p", "replay s p j",
    "Plain t p x", "plain t p", "plain t p x y", "plain -t p x", "tile t", "tile t s u", "info", "info s u", "info -5", "info --help",
    "info s -h", "info s --version", "info s --tile 8", "upgrade", "upgrade s", "upgrade s n m", "upgrade s n --tile 8", "gen 65536 1 1 n",
    "gen -1 1 1 n", "gen -- -1 1 1 n", "gen 0 0 1 n", "gen 0 8193 1 n", "gen 0 1 0 n", "gen 0 1 8193 n", "gen  1 1 n", "gen +1 1 1 n",
    "gen 1 1 n", "gen 1 1 1 n m", "gen 1 1 1 n --tile 8", "tile a a", "plain x0000.ppm p x", "plain t x9999.ppm x", "plain 0001.ppm p ",
    "upgrade a a", "upgrade  ", "walk s p x --frames 0", "walk s p x --frames 65536", "walk s p x --frames 064", "walk s p x --frames ",
    "walk s p x --frames=-1", "walk s p x --samplers 0", "walk s p x --samplers 65", "walk s p x --loaders 0", "walk s p x --loaders 17",
    "walk s p x --batch 0", "walk s p x --batch 4097", "walk s p x --pinned 0", "walk s p x --pinned 17", "walk s p x --batch 1 --batch 1",
    "walk s p x --batch", "walk", "walk s", "walk s p x y", "walk s p x --settled --settled", "walk s p x --settled=true",
    "walk s p x --settle", "walk s p x --tile 64", "walk s p x --help", "walk s p x -f 64", "walk x0000.ppm p x", "walk s x9999.ppm x",
    "walk s p x --journal x0001.ppm", "walk s p x --journal s", "walk s p x --journal p", "walk journal.txt p x", "walk s journal.txt x",
    "walk 0000.ppm p ", "replay", "replay s p j x y", "replay s p j x --settled", "replay s p s x", "replay s p p x",
    "replay x0000.ppm p j x", "replay s x0000.ppm j x", "replay s p x0000.ppm x", "plain t p x --filter trilinear",
    "plain t p x --filter Bilinear", "replay s p j x --filter=", "replay s p j x --filter", "walk s p x --filter linear",
    "walk s p x --filter bilinear --filter bilinear", "tile t s --filter bilinear", "info s --filter nearest",
    "gen 1 1 1 n --filter bilinear", "trial 7 --filter bilinear", "walk s p x --rows shared --filter bilinear",
    "walk s p x --filter=bilinear --rows=shared", "walk s p x --rows stolen", "walk s p x --rows Shared", "walk s p x --rows=",
    "walk s p x --rows", "walk s p x --rows shared --rows shared", "walk s p x --row shared", "plain t p x --rows shared",
    "replay s p j x --rows shared", "tile t s --rows dealt", "trial 7 --rows shared", "walk s p x --table swap --rows shared",
    "walk s p x --filter=bilinear --table=swap", "walk s p x --table swap --rows shared --filter bilinear", "walk s p x --table other",
    "walk s p x --table Swap", "walk s p x --table=", "walk s p x --table", "walk s p x --table swap --table swap",
    "walk s p x --tabl swap", "replay s p j x --table swap", "trial 7 --table words", "trial 65536", "trial 07", "trial -1", "trial",
    "trial 7 7",
]

# Words that are a command's, whose names are not in the folder: they end with the line of a fault, for the command looks for them.
READ_WORDS = [
    "plain t p x", "tile t s", "tile t s --tile 2", "tile t s --tile 128", "tile t s --tile=8", "tile --tile 16 t s",
    "plain t --tile=32 p x", "info -- --tile", "tile t -- --tile", "tile --tile=4 -- -t -s", "upgrade -- -s --t", "walk s p x",
    "replay s p j x", "plain   ", "tile - s", "info help", "upgrade s n", "tile a ./a", "plain x10000.ppm x000.ppm x",
    "plain y0001.ppm p x", "plain a a a", "upgrade a ./a", "walk s p x --settled", "walk --settled s --journal j p x",
    "walk s p x --frames=3 --samplers 1 --loaders=1", "walk s p x --pinned 2 --batch 1", "walk -- --settled p x", "walk s s s",
    "walk    --journal=-", "walk s p x --journal=", "walk s p x --frames 65535 --samplers 64",
    "walk s p x --loaders=16 --batch=4096 --pinned=16", "walk s p x --frames 1 --samplers 1", "walk x10000.ppm x000.ppm x",
    "walk s p x --journal ./s", "replay s s j s", "replay -- -s -p -j -x", "replay s p ./s x", "plain t p x --filter bilinear",
    "plain --filter=bilinear t p x --tile 2", "plain t p x --filter nearest", "replay s p j x --filter bilinear",
    "replay --filter nearest s p j x", "walk s p x --filter bilinear", "walk s p x --settled --filter=bilinear",
    "walk s p x --filter nearest --settled", "walk s p x --rows shared", "walk --rows=shared s p x --settled", "walk s p x --rows dealt",
    "walk s p x --filter nearest --rows shared", "walk s p x --rows dealt --filter bilinear", "walk s p x --table swap",
    "walk --table=swap s p x --settled", "walk s p x --table words", "walk s p x --rows dealt --filter nearest --table swap",
    "walk s p x --table words --rows shared", "walk s p x --table words --filter bilinear",
]

# A journal of the store g4.vts, and how many pictures it gives or why it is refused.
HEAD = "map 1 1 0 0 0\npass 1 picture 0 start 1\nrow 0 0 1\n"
JOURNALS = [
    ("map 1 1 0 0 0\n", 0),
    (HEAD, 1),
    ("", "bad line 1"),
    ("map 1 1 0 0 1\n", "bad line 1"),
    ("map 1 1 0 0 0", "bad line 1"),
    ("map 1 0 0 0 0\n", "bad line 2"),
    (HEAD + "pass 2 picture 1 start 1\nrow 0 0 1\n", "bad line 4"),
    (HEAD + "pass 2 picture 1 start 1\nrow 0 0 2\n", "bad line 4"),
    ("map 1 1 0 0 0\npass 1 picture 0 start 1\nrow 0 0 2\npass 2 picture 1 start 1\nrow 0 0 1\n", "bad line 3"),
    (HEAD + "pass 2 picture 0 start 1\nlost 0 0 0\nrow 0 0 2\n", "bad line 6"),
    (HEAD + "pass 2 picture 0 start 1\nmap 2 0 0 0 1\nrow 0 63 2\n", 1),
    (HEAD + "pass 2 picture 0 start 1\nmap 2 0 0 0 1\nrow 0 64 2\n", "bad line 6"),
    ("map 2 1 0 0 0\n", "bad line 1"),
    ("map 1 0 0 0 65535\n", "bad line 1"),
    ("map 01 1 0 0 0\n", "bad line 1"),
    ("map 1  1 0 0 0\n", "bad line 1"),
    ("map 1 1 0 0 0 \n", "bad line 1"),
    ("map 1 1 0 0 0\r\n", "bad line 1"),
    ("map 1 0 1 1 0\n", "bad line 2"),
    ("map 1 0 1 1 0\npass 1 picture 0 start 1\n", "bad line 2"),
    ("map 1 0 0 1 0\nmap 2 1 0 0 1\n", "bad line 2"),
    ("map 1 0 1 1 0\nmap 2 1 0 0 1\n", 0),
    ("map 1 1 0 0 0\npass 2 picture 0 start 1\n", "bad line 2"),
    ("map 1 1 0 0 0\npass 1 picture 1 start 1\n", "bad line 2"),
    ("map 1 1 0 0 0\npass 1 picture 0 start 0\n", "bad line 2"),
    ("map 1 1 0 0 0\nmap 2 0 0 0 1\n", "bad line 2"),
    ("map 1 1 0 0 0\nrow 0 0 1\n", "bad line 2"),
    ("map 1 1 0 0 0\nlost 0 0 0\n", "bad line 2"),
    ("map 1 1 0 0 0\n\n", "bad line 2"),
    ("map 1 1 0 0 0\npass 1 picture 0 start 1\n", "bad line 3"),
    ("map 1 1 0 0 0\npass 1 picture 0 start 1\nrow 0 63 1\n", 1),
    ("map 1 1 0 0 0\npass 1 picture 0 start 1\nrow 0 0 2\n", "bad line 3"),
    ("map 1 1 0 0 0\npass 1 picture 0 start 1\nrow 0 0 0\n", "bad line 3"),
    ("map 1 1 0 0 0\npass 1 picture 0 start 1\nrow 0 64 1\n", "bad line 3"),
    ("map 1 1 0 0 0\npass 1 picture 0 start 1\nrow 1 0 1\n", "bad line 3"),
    ("map 1 1 0 0 0\npass 1 picture 0 start 1\nrow 0 0 1\nrow 1 0 1\n", "bad line 4"),
    ("map 1 1 0 0 0\npass 1 picture 0 start 1\nunmap 2 1 0 0 0\n", "bad line 3"),
    ("map 1 1 0 0 0\npass 1 picture 0 start 1\nunmap 2 0 0 0 1\n", "bad line 3"),
    ("map 1 1 0 0 0\npass 1 picture 0 start 1\nlost 1 0 0\n", "bad line 3"),
    ("map 1 1 0 0 0\npass 1 picture 0 start 1\nmap 2 0 0 0 0\n", "bad line 3"),
    ("map 1 1 0 0 0\npass 1 picture 0 start 1\nmap 2 0 2 0 1\n", "bad line 3"),
    ("map 1 1 0 0 0\npass 1 picture 0 start 1\nmap 3 0 0 0 1\n", "bad line 3"),
    ("map 1 1 0 0 0\npass 1 picture 0 start 1\nmap 2 1 0 0 1\n", "bad line 3"),
    ("map 1 1 0 0 0\npass 1 picture 0 start 1\nmap 2 0 0 0 65535\n", "bad line 3"),
    ("map 1 1 0 0 0\npass 1 picture 0 start 1\nmap 2 0 0 0 65534\nrow 0 0 1\n", 1),
    ("map 1 1 0 0 0\npass 1 picture 0 start 1\nmap 2 0 0 0 1\nlost 0 0 0\n", "bad line 4"),
    ("map 1 1 0 0 0\npass 1 picture 0 start 1\nrow 0 0 1\nmap 2 0 0 0 1\n", "bad line 4"),
    ("map 1 1 0 0 0\npass 1 picture 0 start 1\nrow 0 0 1\npass 2 picture 2 start 1\n", "bad line 4"),
]
