#!/usr/bin/env python3
"""Tests examples/explain.py: bad words, files, folders and paths, each with the program's status
and line and what the explanation has to name.

usage: explain.py [PROGRAM]     (that of dist/, or crates/vtex/out/vtex if that is newer)

The statuses and lines are those of docs/FORMATS.md. What an explanation names was written down case
by case, before the tool was run.
"""
import os
import shlex
import struct
import subprocess
import sys
import tempfile
import zlib
from concurrent.futures import ThreadPoolExecutor

import artefacts

TOOL = os.path.join(artefacts.TOP, "examples", "explain.py")
USAGE = "vtex: usage: vtex COMMAND ARGUMENTS (plain, tile, info, walk, replay, gen, trial, upgrade)"
FAULT = "vtex: fault on files or output"
BAD = "vtex: bad input: "
PATH = "size 32 20\nfocal 16\nat 0 0 65536 16384 0\n"
passed, failed = 0, 0

# Words, and what the explanation has to name; each is refused with status 2.
WORDS = [
    ("", ["no command is given", "plain, tile, info, upgrade, walk, replay, gen, trial"]),
    ("--help", ["man vtex"]),
    ("-h", ["man vtex"]),
    ("--version", ["man vtex"]),
    ("-V", ["man vtex"]),
    ("help", ["man vtex"]),
    ("version", ["man vtex"]),
    ("tile --help", ["man vtex"]),
    ("walk -h", ["man vtex"]),
    ("tile", ["tile takes 2 words (TEXTURE STORE)", "got 0"]),
    ("tile photo.ppm", ["TEXTURE STORE", "got 1 (photo.ppm)"]),
    ("walk photo.vts", ["walk takes 3 words (STORE PATH PREFIX)", "got 1"]),
    ("walk photo.vts ok.path f --frame 64", ["no option --frame", "did you mean --frames"]),
    ("walk photo.vts ok.path f --frames", ["--frames has no value"]),
    ("walk photo.vts ok.path f --frames 0", ["--frames", "from 1 to 65535", "not 0"]),
    ("walk photo.vts ok.path f --frames 0064", ["--frames", "without leading zeros", "0064"]),
    ("walk photo.vts ok.path f --frames 65536", ["from 1 to 65535", "65536"]),
    ("walk photo.vts ok.path f --frames 4096", ["side of 64", "at most 2048", "4096"]),
    ("walk photo.vts ok.path f --frames 2049", ["side of 64", "at most 2048", "2049"]),
    ("walk photo.vts ok.path f --frames 64k", ["--frames", "whole number", "64k"]),
    ("--frames 64 walk photo.vts ok.path f", ["the command comes first"]),
    ("walk photo.vts ok.path f -f 64", ["no option -f"]),
    ("walk photo.vts ok.path f --samplers 65", ["--samplers", "from 1 to 64", "65"]),
    ("walk photo.vts ok.path f --loaders 17", ["--loaders", "from 1 to 16"]),
    ("walk photo.vts ok.path f --batch 4097", ["--batch", "from 1 to 4096"]),
    ("walk photo.vts ok.path f --pinned 0", ["--pinned", "from 1 to 16"]),
    (
        "walk photo.vts ok.path f --table swap --filter bilinear",
        ["--table swap", "--filter bilinear", "one of"],
    ),
    ("walk photo.vts ok.path f --filter linear", ["--filter", "nearest, bilinear", "linear"]),
    ("walk photo.vts ok.path f --table=words=x", ["--table", "words, swap"]),
    ("tile photo.ppm t.vts --tile 100", ["--tile", "2, 4, 8, 16, 32, 64, 128", "100"]),
    ("tile photo.ppm t.vts --tile 256", ["--tile", "256"]),
    ("tlie photo.ppm t.vts", ["no command tlie", "did you mean tile"]),
    ("Tile photo.ppm t.vts", ["no command Tile", "did you mean tile"]),
    ("zzz photo.ppm", ["no command zzz", "plain, tile"]),
    ("info photo.vts --tile 4", ["info has no option --tile"]),
    ("walk photo.vts ok.path f --settled yes", ["got 4", "--settled takes no value"]),
    ("walk photo.vts ok.path f --settled=yes", ["--settled takes no value"]),
    ("walk photo.vts ok.path f --settled --settled", ["--settled is given twice"]),
    ("replay photo.vts ok.path f", ["replay takes 4 words (STORE PATH JOURNAL PREFIX)", "got 3"]),
    ("gen 70000 16 16 g.ppm", ["NUMBER", "from 0 to 65535", "70000"]),
    ("gen 7 0 16 g.ppm", ["WIDTH", "from 1 to 8192"]),
    ("gen 7 16384 16 g.ppm", ["WIDTH", "from 1 to 8192", "16384"]),
    ("trial", ["trial takes 1 word (NUMBER)"]),
    ("trial 99999", ["from 0 to 65535"]),
    ("trial -1", ["no option -1"]),
    ("tile photo.ppm photo.ppm", ["written over the texture"]),
    ("upgrade photo.vts photo.vts", ["written over the old one"]),
    ("walk photo.vts ok.path f --journal photo.vts", ["journal", "photo.vts"]),
    ("walk photo.vts ok.path f --journal f0000.ppm", ["f0000.ppm", "name of a picture"]),
    ("plain x0001.ppm ok.path x", ["x0001.ppm", "name of a picture"]),
    ("replay photo.vts ok.path ok.path r", ["both named ok.path", "own journal"]),
    ("plain photo.ppm ok.path", ["plain takes 3 words", "got 2"]),
    ("tile -photo.ppm t.vts", ["no option -photo.ppm", "behind --"]),
]
# Words, the status, the program's line, and what the explanation has to name.
FILES = [
    (
        "tile photo.vts photo.ppm",
        4,
        BAD + "photo.vts: bad magic",
        ["photo.vts is a tile store", "a PPM texture"],
    ),
    (
        "walk ok.path photo.vts f",
        4,
        BAD + "photo.vts: bad line 1",
        ["photo.vts is a tile store", "a camera path", "STORE PATH PREFIX"],
    ),
    (
        "walk photo.ppm ok.path f",
        4,
        BAD + "photo.ppm: bad magic",
        ["photo.ppm is a PPM texture", "a tile store"],
    ),
    (
        "replay photo.vts journal.txt ok.path r",
        4,
        BAD + "journal.txt: bad line 1",
        ["journal.txt is a journal", "a camera path"],
    ),
    (
        "plain photo.vts ok.path p",
        4,
        BAD + "photo.vts: bad magic",
        ["photo.vts is a tile store", "a PPM texture"],
    ),
    ("tile nosuch.ppm t.vts", 3, FAULT, ["there is no file nosuch.ppm", "a PPM texture"]),
    # photo.png, which is there too, is no PPM texture.
    ("tile photo.pnm t.vts", 3, FAULT, ["no file photo.pnm", "did you mean photo.ppm"]),
    ("tile phot.ppm t.vts", 3, FAULT, ["there is no file phot.ppm", "did you mean photo.ppm"]),
    ("walk nosuch.vts ok.path f", 3, FAULT, ["there is no file nosuch.vts", "a tile store"]),
    ("walk photo.vts nosuch.path f", 3, FAULT, ["there is no file nosuch.path", "a camera path"]),
    (
        "replay photo.vts ok.path nosuch.txt r",
        3,
        FAULT,
        ["there is no file nosuch.txt", "a journal"],
    ),
    (
        "tile photo.png t.vts",
        4,
        BAD + "photo.png: bad magic",
        ["photo.png is a PNG image", "vips copy photo.png"],
    ),
    (
        "tile renamed.ppm t.vts",
        4,
        BAD + "renamed.ppm: bad magic",
        ["renamed.ppm is a PNG image", "convert"],
    ),
    ("tile jpeg.jpg t.vts", 4, BAD + "jpeg.jpg: bad magic", ["a JPEG image", "convert"]),
    ("tile p3.ppm t.vts", 4, BAD + "p3.ppm: bad magic", ["a PPM image in text", "convert"]),
    ("tile p5.pgm t.vts", 4, BAD + "p5.pgm: bad magic", ["a grey PGM image", "convert"]),
    ("tile p7.pam t.vts", 4, BAD + "p7.pam: bad magic", ["a PAM image", "convert"]),
    ("tile tif.tif t.vts", 4, BAD + "tif.tif: bad magic", ["a TIFF image", "convert"]),
    ("tile other.bin t.vts", 4, BAD + "other.bin: bad magic", ["not P6", "convert"]),
    ("tile empty.ppm t.vts", 4, BAD + "empty.ppm: bad magic", ["an empty file"]),
    ("tile folder.ppm t.vts", 3, FAULT, ["folder.ppm is a folder"]),
    (
        "tile cut.ppm t.vts",
        4,
        BAD + "cut.ppm: raster of 1000 bytes, wanted 90000",
        ["cut off", "1000", "90000"],
    ),
    ("tile big.ppm t.vts", 4, BAD + "big.ppm: bad size", ["16384", "smaller"]),
    ("plain wide.ppm ok.path p", 4, BAD + "wide.ppm: bad size", ["8192", "smaller"]),
    ("upgrade deep.vts new.vts", 4, BAD + "deep.vts: already wide", ["two bytes a sample already"]),
    (
        "tile over.ppm t.vts",
        4,
        BAD + "over.ppm: sample over maximum at byte 11",
        ["more than the maximum"],
    ),
    ("tile zero.ppm t.vts", 4, BAD + "zero.ppm: bad maximum", ["from 1 to 65535"]),
    (
        "tile minus.ppm t.vts",
        4,
        BAD + "minus.ppm: bad header at byte 3",
        ["header", "without a sign"],
    ),
    (
        "tile float.ppm t.vts",
        4,
        BAD + "float.ppm: bad header at byte 4",
        ["header", "whole numbers"],
    ),
    (
        "tile large.ppm t.vts --tile 2",
        4,
        BAD + "large.ppm: too many pages 1333459",
        ["262,144", "larger"],
    ),
    (
        "info short.vts",
        4,
        BAD + "short.vts: length 208911, wanted 208912",
        ["cut off", "208911", "208912"],
    ),
    ("info long.vts", 4, BAD + "long.vts: length 208913, wanted 208912", ["longer", "208913"]),
    ("info third.vts", 4, BAD + "third.vts: bad magic", ["VTS1 or VTS2"]),
    ("info shape.vts", 4, BAD + "shape.vts: bad geometry", ["no store has"]),
    (
        "walk photo.vts ok.path f --frames 2 --pinned 16",
        5,
        "vtex: 2 frames, pinned pages need 17",
        ["17", "--pinned"],
    ),
    (
        "walk four.vts two.path f --frames 2 --settled",
        5,
        "vtex: picture 0 wants 2 pages, room for 1",
        ["picture 0", "by 1 or more"],
    ),
    (
        "replay photo.vts ok.path cut.txt r",
        4,
        BAD + "cut.txt: bad line 2",
        ["cut.txt", "journal.txt of that walk"],
    ),
    ("tile photo.ppm nodir/t.vts", 3, FAULT, ["the folder nodir is not there", "mkdir -p nodir"]),
    ("walk photo.vts ok.path out/f", 3, FAULT, ["the folder out is not there"]),
    ("walk photo.vts ok.path f --journal out/j.txt", 3, FAULT, ["the folder out is not there"]),
    ("gen 1 2 2 out/g.ppm", 3, FAULT, ["the folder out is not there"]),
    ("tile photo.ppm folder.ppm", 3, FAULT, ["folder.ppm is a folder"]),
    ("tile - t.vts", 3, FAULT, ["/dev/stdin"]),
]
# A path's text, the line of the program, and what the explanation has to name.
PATHS = [
    ("# my flight\n" + PATH, "bad line 1", ["line 1", "comment"]),
    (PATH.replace("\n", "\r\n"), "bad line 1", ["carriage return", "sed"]),
    (PATH[:-1], "bad line 3", ["line feed is missing"]),
    (PATH.replace("at", "ta"), "bad line 3", ["begins with ta", "at U V H C S"]),
    (PATH.replace("at 0", "at 0.5"), "bad line 3", ["u is 0.5", "1/256 texel"]),
    (PATH.replace("size ", "size  "), "bad line 1", ["one blank"]),
    (PATH.replace("16\n", "16\n\n"), "bad line 3", ["empty"]),
    (
        "size 32 20\nfocal 16\nto 3 0 0 65536 16384 0\n",
        "no key at line 3",
        ["the first key is an at"],
    ),
    (PATH + "to 9999 0 0 65536 16384 0\n", "too many pictures", ["9,999"]),
    (PATH.replace("32", "4096"), "bad line 1", ["width is 4096", "from 1 to 2048"]),
    (PATH.replace("focal 16", "focal 0"), "bad line 2", ["focal number is 0", "from 1 to 4096"]),
    (PATH.replace("65536", "0"), "bad line 3", ["h is 0", "from 1 to 16777216"]),
    (PATH.replace(" 16384 0", " 16384"), "bad line 3", ["5 numbers", "has 4"]),
    ("", "bad line 1", ["empty file"]),
    ("size 32 20\n", "bad line 2", ["focal F", "ends before it"]),
    (PATH.replace("16384", "16385"), "bad line 3", ["c is 16385", "-16384 to 16384"]),
    (PATH.replace("at 0", "at +1"), "bad line 3", ["u is +1", "without +"]),
    (PATH.replace(" ", "\t"), "bad line 1", ["one blank"]),
    (PATH.replace("20\n", "20 \n"), "bad line 1", ["one blank"]),
    ("\ufeff" + PATH, "bad line 1", ["byte order mark"]),
    (PATH + "to 0 0 0 65536 16384 0\n", "bad line 4", ["n is 0", "from 1 to 9999"]),
    (PATH + "size 3 2\n", "bad line 4", ["begins with size"]),
]


# What succeeds, and looks as if it might not.
DONE = [
    "info photo.vts",
    "trial 7",
    "tile photo.ppm again.vts",
    "tile photo.ppm again.vts --tile=32",
    "walk --frames 64 photo.vts ok.path g",
    "walk photo.vts ok.path g --frames 1",
    "walk photo.vts ok.path g --frames 1 --settled",
    "walk photo.vts ok.path g --frames 2048",
    "replay photo.vts ok.path journal.txt g",
    "walk photo.vts ok.path g --table words --rows dealt --filter bilinear",
    "tile wide.ppm wide.vts",
    "info deep.vts",
    "walk deep.vts ok.path g",
    "tile crlf.ppm crlf.vts",
    "tile -- -photo.ppm again.vts",
    "tile 'my pictures/H\u00f6he \u00fcber.ppm' 'my pictures/H\u00f6he.vts'",
    "walk photo.vts ok.path 'my pictures/bild ' --journal 'my pictures/\u0436.txt'",
    "tile photo.ppm /dev/null",
]


def say(good, what):
    global passed, failed
    passed, failed = passed + bool(good), failed + (not good)
    if not good:
        print("failed: " + what)


def texture(name, width, height, most=255, head=None, body=None):
    with open(name, "wb") as file:
        file.write(head or b"P6\n%d %d\n%d\n" % (width, height, most))
        file.write(
            bytes(
                (7 * place) % 251 for place in range(3 * width * height * (1 if most < 256 else 2))
            )
            if body is None
            else body
        )


def chunk(kind, data):
    return struct.pack(">I", len(data)) + kind + data + struct.pack(">I", zlib.crc32(kind + data))


def write(name, data):
    with open(name, "wb") as file:
        file.write(data if isinstance(data, bytes) else data.encode())


def make_files(program):
    texture("photo.ppm", 200, 150)
    write("ok.path", PATH)
    # Two pixels, of the pages 0 and 1 of a texture of four columns and rows: the smallest walk.
    write("two.path", "size 2 1\nfocal 1\nat 0 0 256 16384 0\n")
    for words in (
        "tile photo.ppm photo.vts",
        "walk photo.vts ok.path w",
        "gen 1 2000 2000 large.ppm",
        "gen 0 4 4 four.ppm",
        "tile four.ppm four.vts --tile 2",
    ):
        subprocess.run([program, *words.split()], check=True, stdout=subprocess.DEVNULL)
    texture("deep.ppm", 64, 64, 65535)
    subprocess.run([program, "tile", "deep.ppm", "deep.vts"], check=True, stdout=subprocess.DEVNULL)
    png = (
        b"\x89PNG\r\n\x1a\n"
        + chunk(b"IHDR", struct.pack(">IIBBBBB", 4, 4, 8, 2, 0, 0, 0))
        + chunk(b"IDAT", zlib.compress(bytes(52)))
        + chunk(b"IEND", b"")
    )
    contents = {
        "photo.png": png,
        "renamed.ppm": png,
        "jpeg.jpg": b"\xff\xd8\xff\xe0" + bytes(100),
        "p3.ppm": "P3\n2 2\n255\n" + "1 2 3 " * 4 + "\n",
        "p5.pgm": b"P5\n4 4\n255\n" + bytes(16),
        "p7.pam": b"P7\nWIDTH 4\n" + bytes(64),
        "tif.tif": b"II*\0" + bytes(100),
        "other.bin": b"abcd" * 9,
        "empty.ppm": b"",
    }
    for name, data in contents.items():
        write(name, data)
    os.mkdir("folder.ppm")
    texture("crlf.ppm", 4, 4, head=b"P6\r\n4 4\r\n255\r\n")
    os.mkdir("my pictures")
    texture("my pictures/H\u00f6he \u00fcber.ppm", 20, 10)
    texture("-photo.ppm", 20, 10)
    texture("cut.ppm", 200, 150, body=bytes(1000))
    texture("big.ppm", 16385, 4, body=bytes(16385 * 12))
    texture("wide.ppm", 8193, 2, body=bytes(8193 * 6))
    texture("over.ppm", 4, 4, 100, body=bytes([200] * 48))
    texture("zero.ppm", 4, 4, head=b"P6\n4 4\n0\n")
    texture("minus.ppm", 4, 4, head=b"P6\n-4 4\n255\n")
    texture("float.ppm", 4, 4, head=b"P6\n4.0 4\n255\n")
    with open("photo.vts", "rb") as file:
        store = file.read()
    for name, data in (
        ("short", store[:-1]),
        ("long", store + b"x"),
        ("third", b"VTS3" + store[4:]),
        ("shape", store[:4] + bytes(4) + store[8:]),
    ):
        write(name + ".vts", data)
    with open("journal.txt", "rb") as file:
        journal = file.read()
    write("cut.txt", journal.splitlines(keepends=True)[0] + b"nothing\n")


def run(program, words, python=sys.executable, **more):
    ran = subprocess.run(
        [python, TOOL, program, *words], stdout=subprocess.PIPE, stderr=subprocess.PIPE, **more
    )
    return ran.returncode, ran.stdout, ran.stderr.decode("utf-8", "replace")


def outcome(program, words, status, line, named, **more):
    """Returns whether a refusal is as it has to be, and what is wrong with it."""
    had, out, error = run(program, words, **more)
    lines = error.splitlines()
    last = lines[-1] if lines else ""
    good = (
        (had, out, lines[:-1]) == (status, b"", [line])
        and last.startswith("explain: ")
        and all(it in last for it in named)
    )
    said = f"status {had}, {out} {error.strip()}"
    return good, f"{' '.join(map(repr, words))}: {said}; wanted {status}, {line}, {named}"


def case(*words, **more):
    say(*outcome(*words, **more))


def as_nobody():
    os.setgid(65534)
    os.setuid(65534)


def main(words):
    program = os.path.abspath(words[0]) if words else artefacts.program()
    if program is None:
        print("left out: there is no program")
        print("0 passed, 0 failed")
        return 0
    with tempfile.TemporaryDirectory() as room:
        os.chdir(room)
        os.chmod(room, 0o755)
        make_files(program)
        # These write nothing, so several may run at once.
        jobs = [(program, text.split(), 2, USAGE, named) for text, named in WORDS]
        jobs.append(
            (program, ["tile", "photo.ppm", "caf\udce9.vts"], 2, USAGE, ["UTF-8", "rename"])
        )
        for number, (text, flaw, named) in enumerate(PATHS):
            name = f"{number}.path"
            write(name, text)
            jobs.append(
                (program, ["walk", "photo.vts", name, "p"], 4, f"{BAD}{name}: {flaw}", named)
            )
        with ThreadPoolExecutor(3) as pool:
            for good, what in pool.map(lambda job: outcome(*job), jobs):
                say(good, what)
        for text, status, line, named in FILES:
            case(program, text.split(), status, line, named)
        os.mkdir("closed")
        os.chmod("closed", 0o555)
        python = "/usr/bin/python3"
        if os.getuid() == 0 and os.access(python, os.X_OK):
            # As a user who may not write there. The program is copied to where they may run it.
            copied = os.path.join(room, "vtex")
            write(copied, open(program, "rb").read())
            os.chmod(copied, 0o755)
            case(
                copied,
                ["tile", "photo.ppm", "closed/t.vts"],
                3,
                FAULT,
                ["the folder closed may not be written"],
                python=python,
                preexec_fn=as_nobody,
            )
            case(
                copied,
                "walk photo.vts ok.path closed/f --journal closed/j.txt".split(),
                3,
                FAULT,
                ["the folder closed may not be written"],
                python=python,
                preexec_fn=as_nobody,
            )
            os.chmod("photo.ppm", 0)
            case(
                copied,
                ["tile", "photo.ppm", "closed/t.vts"],
                3,
                FAULT,
                ["photo.ppm may not be read"],
                python=python,
                preexec_fn=as_nobody,
            )
            os.chmod("photo.ppm", 0o644)
        else:
            print("left out: files that may not be read or written, which root alone can try")
        with open("/dev/full", "wb") as full:
            ran = subprocess.run(
                [sys.executable, TOOL, program, "info", "photo.vts"],
                stdout=full,
                stderr=subprocess.PIPE,
                text=True,
            )
        say(
            ran.returncode == 3 and "output" in ran.stderr.splitlines()[-1],
            "a full output: " + ran.stderr,
        )
        # What succeeds is left as it is, byte for byte.
        for text in DONE:
            words = shlex.split(text)
            own = subprocess.run([program, *words], stdout=subprocess.PIPE, stderr=subprocess.PIPE)
            had = run(program, words)
            say(had == (0, own.stdout, "") and own.returncode == 0, f"{text}: {had}")
        with open("photo.ppm", "rb") as texture_file:
            had = run(program, ["tile", "/dev/stdin", "in.vts"], stdin=texture_file)
        say(had[0] == 0 and not had[2], f"a texture from the standard input: {had}")
        status, _, error = run(os.path.join(room, "none"), ["info"])
        say(
            status == 127 and "does not run" in error and "dist/install.sh" in error,
            f"no program: {status} {error}",
        )
        ran = subprocess.run(
            [sys.executable, TOOL], stdout=subprocess.PIPE, stderr=subprocess.PIPE, text=True
        )
        say(ran.returncode == 2 and "explain.py vtex" in ran.stderr, "no words: " + ran.stderr)
        os.chdir("/")
    print(f"{passed} passed, {failed} failed")
    return 1 if failed else 0


if __name__ == "__main__":
    sys.exit(main(sys.argv[1:]))
