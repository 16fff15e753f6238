#!/usr/bin/env python3
"""Tests examples/path.py: its paths by the rules of docs/FORMATS.md, where their cameras stand, and
that the program walks them; and what it says of words, lists and numbers that it refuses.

usage: path.py [PROGRAM]
"""
import math
import os
import subprocess
import sys
import tempfile

import artefacts
from stores import Flaw, Path

TOOL = os.path.join(artefacts.TOP, "examples", "path.py")
passed, failed = 0, 0
# Paths that were worked by hand. Of 16384, cosine and sine of 15 degrees are 15825.7 and 4240.5, of
# 22.5 degrees 15136.9 and 6269.9, and of 45 degrees 11585.2 both.
WHOLE = [
    ("320x200 0,0,256,0", "size 320 200\nfocal 160\nat 0 0 65536 16384 0\n"),
    ("9x7 1.5,-2,0.5,90", "size 9 7\nfocal 4\nat 384 -512 128 0 16384\n"),
    ("1x1 0,0,1,180", "size 1 1\nfocal 1\nat 0 0 256 -16384 0\n"),
    ("64x48 --focal 30 1,2,3,270", "size 64 48\nfocal 30\nat 256 512 768 0 -16384\n"),
    ("64x48 --angle 90 1,2,3,-90", "size 64 48\nfocal 32\nat 256 512 768 0 -16384\n"),
    # tan(26.565 degrees) is 1/2, so the focal length is the width.
    ("64x48 --angle=53.1301 1,2,3,0", "size 64 48\nfocal 64\nat 256 512 768 16384 0\n"),
    (
        "8x6 0,0,1,0 10 10,0,1,0",
        "size 8 6\nfocal 4\nat 0 0 256 16384 0\nto 10 2560 0 256 16384 0\n",
    ),
    (
        "8x6 0,0,1,0 2 0,0,1,45",
        (
            "size 8 6\nfocal 4\nat 0 0 256 16384 0\nto 1 0 0 256 15137 6270\nto 1 0 0 256 11585"
            " 11585\n"
        ),
    ),
    # The shorter way from 350 to 10 degrees is 20 degrees, through 0.
    (
        "8x6 0,0,1,350 4 8,4,2,15",
        "size 8 6\nfocal 4\nat 0 0 256 16135 -2845\nto 4 2048 1024 512 15826 4240\n",
    ),
    # The headings: 0 to the next place, 45 as it stands there, 90 to the next place, 90 again.
    # A turn by 45 degrees goes in two steps.
    (
        "8x6 --places list",
        "size 8 6\nfocal 4\nat 0 0 2560 16384 0\nto 15 1280 0 2560 15137 6270\n"
        "to 15 2560 0 2560 11585 11585\nto 15 3840 0 2560 6270 15137\nto 15 5120 0 2560 0 16384\n"
        "to 30 5120 5120 2560 0 16384\n",
    ),
    (
        "8x6 --places list --speed 5",
        "size 8 6\nfocal 4\nat 0 0 2560 16384 0\nto 1 1280 0 2560 15137 6270\n"
        "to 1 2560 0 2560 11585 11585\nto 1 3840 0 2560 6270 15137\nto 1 5120 0 2560 0 16384\n"
        "to 4 5120 5120 2560 0 16384\n",
    ),
    ("8x6 --places one --pictures 3", "size 8 6\nfocal 4\nat 256 512 768 16384 0\n"),
]
# Words, and what the refusal has to name.
REFUSED = [
    ("320 0,0,256,0", ["320x200", "'320'"]),
    ("0x200 0,0,256,0", ["width", "1 to 2048", "'0'"]),
    ("320x4096 0,0,256,0", ["height", "1 to 2048", "'4096'"]),
    ("320x-2 0,0,256,0", ["height", "'-2'"]),
    ("320x200", ["no key", "X,Y,HEIGHT,HEADING"]),
    ("320x200 0,0,256", ["key 1", "X,Y,HEIGHT,HEADING", "'0,0,256'"]),
    ("320x200 0,0,256,0,1", ["key 1", "'0,0,256,0,1'"]),
    ("320x200 0,zero,256,0", ["Y of key 1", "'zero'"]),
    ("320x200 nan,0,256,0", ["X of key 1", "'nan'"]),
    ("320x200 0,0,0,0", ["HEIGHT of key 1", "1/256 to 65536", "0"]),
    ("320x200 0,0,65537,0", ["HEIGHT of key 1", "65537"]),
    ("320x200 0,0,-1,0", ["HEIGHT of key 1", "-1"]),
    ("320x200 8388609,0,1,0", ["X of key 1", "-8388608 to 8388608", "8388609"]),
    ("320x200 0,0,1,inf", ["HEADING of key 1", "'inf'"]),
    ("320x200 0,0,1,0 48", ["'48'", "KEY PICTURES KEY"]),
    ("320x200 0,0,1,0 0 1,1,1,1", ["pictures to key 2", "1 to 9999", "'0'"]),
    ("320x200 0,0,1,0 4.5 1,1,1,1", ["pictures to key 2", "'4.5'"]),
    ("320x200 0,0,1,0 5 1,1,1", ["key 2", "'1,1,1'"]),
    ("320x200 0,0,1,0 9999 1,1,1,1", ["at most 9999 pictures"]),
    ("320x200 --focal 0 0,0,1,0", ["--focal", "1 to 4096", "'0'"]),
    ("320x200 --focal 5000 0,0,1,0", ["--focal", "'5000'"]),
    ("320x200 --angle 180 0,0,1,0", ["--angle", "1 to 179", "180"]),
    ("2048x200 --angle 1 0,0,1,0", ["--angle 1", "larger angle", "4096"]),
    ("320x200 --focal 9 --angle 9 0,0,1,0", ["--focal and --angle"]),
    ("320x200 --focal 9 --focal 9 0,0,1,0", ["--focal is given twice"]),
    ("320x200 --fps 9 0,0,1,0", ["no option --fps", "--focal"]),
    ("320x200 --pictures 9 0,0,1,0", ["--pictures", "--places and --around"]),
    ("320x200 --around 1,1,1,1 --speed 2", ["--speed is for --places"]),
    ("320x200 --around 1,1,1", ["--around", "X,Y,HEIGHT,RADIUS", "'1,1,1'"]),
    ("320x200 --around 1,1,1,-1", ["RADIUS", "0 or more", "-1"]),
    ("320x200 --around 1,1,1,1 --pictures 11", ["--pictures", "12 to 9999", "'11'"]),
    ("320x200 --around 1,1,1,1 --pictures 9999", ["at most 9999 pictures"]),
    ("320x200 --around 1,1,1,1 0,0,1,0", ["--around and keys"]),
    ("320x200 --around 1,1,1,1 --places list", ["--places and --around"]),
    ("320x200 --places none", ["none cannot be read", "No such file"]),
    ("320x200 --places .", [". cannot be read"]),
    ("320x200 --places empty", ["empty has no places"]),
    ("320x200 --places two", ["two, line 2", "'3,4'"]),
    ("320x200 --places high", ["HEIGHT of high, line 3", "-5"]),
    ("320x200 --places binary", ["binary cannot be read", "UTF-8"]),
    ("320x200 --places list --speed 0", ["--speed", "more than 0"]),
    ("320x200 --places list --speed 1 --pictures 2", ["--pictures and --speed"]),
]


def check(good, what):
    global passed, failed
    passed, failed = passed + bool(good), failed + (not good)
    if not good:
        print("failed: " + what)


def run(words, **more):
    ran = subprocess.run(
        [sys.executable, TOOL, *words], stdout=subprocess.PIPE, stderr=subprocess.PIPE, **more
    )
    return ran.returncode, ran.stdout, ran.stderr.decode()


def path_of(words):
    """Returns the path that the tool writes, as stores.py reads it."""
    status, out, error = run(words)
    try:
        path = Path(out)
    except Flaw as flaw:
        check(False, f"{words}: {flaw}: {error}")
        return None
    check(status == 0, f"{words}: status {status} {error}")
    return path


def try_cameras():
    # Each camera of a turn looks as far as one that does not turn, within what 30 degrees cost.
    for start, end in ((0, 170), (10, -160), (350, 80), (123.4, 300)):
        key = f"5,6,7,{end}"
        path = path_of(["64x48", f"1,2,3,{start}", "37", key])
        check(path and len(path.cameras) == 38, f"{start} to {end}: pictures")
        turn = (end - start + 180) % 360 - 180
        for number, (u, v, h, c, s) in enumerate(path.cameras if path else []):
            part = number / 37
            place = [256 * (a + (b - a) * part) for a, b in zip((1, 2, 3), (5, 6, 7))]
            check(
                all(abs(a - b) <= 1.5 for a, b in zip((u, v, h), place)),
                f"{start} to {end}, picture {number}: {u} {v} {h}, wanted {place}",
            )
            off = (math.degrees(math.atan2(s, c)) - start - turn * part + 180) % 360 - 180
            length = math.hypot(c, s) / 16384
            check(
                abs(off) < 1.5 and 0.96 < length < 1.0001,
                f"{start} to {end}, picture {number}: {off} degrees off, length {length}",
            )


def try_rounds():
    for x, y, height, radius, pictures in (
        (500, 400, 60, 200, 120),
        (0, 0, 1, 10, 12),
        (9, 9, 5, 0, 360),
    ):
        words = ["64x48", "--around", f"{x},{y},{height},{radius}", "--pictures", str(pictures)]
        path = path_of(words)
        cameras = path.cameras if path else []
        check(
            len(cameras) == pictures + 1 and cameras[0] == cameras[-1], f"{words}: a round closes"
        )
        for number, (u, v, h, c, s) in enumerate(cameras):
            angle = 2 * math.pi * number / pictures
            across, down = u / 256 - x, v / 256 - y
            # The camera is on the circle, but for the straight way of 30 or 10 degrees.
            least = radius * math.cos(math.pi / min(36, pictures)) - 0.01
            check(least <= math.hypot(across, down) <= radius + 0.01, f"{words}, {number}: radius")
            check(h == 256 * height, f"{words}, {number}: height")
            # It looks at the place, or with no radius round about.
            wanted = angle + (math.pi if radius else 0)
            off = (math.degrees(math.atan2(s, c) - wanted) + 180) % 360 - 180
            check(abs(off) < 0.6, f"{words}, {number}: looks {off} degrees past it")
    _, _, error = run(["64x48", "--around", "0,0,100,50"])
    # Row 100 * 32 / 50 = 64 is below the last one, 48; from a radius of 66.7 on it is not.
    check(
        "below the picture" in error and "RADIUS of 67" in error, f"a place out of sight: {error}"
    )


def try_program(program):
    subprocess.run([program, "gen", "7", "256", "256", "t.ppm"], check=True)
    subprocess.run([program, "tile", "t.ppm", "t.vts"], check=True, stdout=subprocess.DEVNULL)
    for words in (
        "32x20 0,0,64,0 6 128,64,32,45 6 0,0,64,200",
        "32x20 --places list --pictures 3",
        "32x20 --around 128,128,20,60 --pictures 12",
        "16x8 -8388608,-8388608,65536,77",
    ):
        status, _, error = run([*words.split(), "--output", "t.path"])
        check(status == 0, f"{words}: {error}")
        with open("t.path", "rb") as file:
            pictures = len(Path(file.read()).cameras)
        ran = subprocess.run(
            [program, "walk", "t.vts", "t.path", "t"],
            stdout=subprocess.PIPE,
            stderr=subprocess.PIPE,
        )
        last = ran.stdout.splitlines()[-1:] or [b""]
        good = ran.returncode == 0 and last[0].startswith(b"end pictures %d reads " % pictures)
        check(good, f"walk of {words}: {ran.returncode} {last} {ran.stderr}")


def main(words):
    program = os.path.abspath(words[0]) if words else artefacts.program()
    with tempfile.TemporaryDirectory() as room:
        os.chdir(room)
        files = {
            # The first two look to the next place, the last one as the one before it.
            "list": "# x y height\r\n0,0,10\r\n10 0 10 45\r\n\r\n20,0,10 # a corner\r\n20,20,10",
            "one": "\ufeff1 2 3\n",
            "empty": "# nothing\n",
            "two": "1,2,3\n3,4\n",
            "high": "1,2,3\n\n4,5,-5\n",
        }
        for name, text in files.items():
            with open(name, "w", encoding="utf-8", newline="") as file:
                file.write(text)
        with open("binary", "wb") as file:
            file.write(b"\xff\xfe1\x00")
        for text, wanted in WHOLE:
            status, out, error = run(text.split())
            check(
                (status, out.decode(), error) == (0, wanted, ""), f"{text}: {status} {out} {error}"
            )
        with open("list", "rb") as file:
            status, out, _ = run("8x6 --places -".split(), stdin=file)
        check(status == 0 and out.decode() == WHOLE[9][1], f"a list on the standard input: {out}")
        try_cameras()
        try_rounds()
        for text, named in REFUSED:
            with open("kept", "wb") as file:
                file.write(b"kept")
            status, out, error = run([*text.split(), "--output=kept"])
            good = (
                status == 2
                and out == b""
                and error.startswith("path.py: ")
                and error.count("\n") == 1
            )
            check(
                good and all(it in error for it in named),
                f"{text}: {status} {error.strip()}: {named}",
            )
            with open("kept", "rb") as file:
                check(file.read() == b"kept", f"{text}: a file that was there is lost")
        status, _, error = run("8x6 0,0,1,0 --output none/x".split())
        check(status == 3 and "none/x" in error, f"no folder: {status} {error}")
        status, _, error = run("8x6 0,0,1,0 --focal".split())
        check(status == 2 and "--focal has no value" in error, f"no value: {status} {error}")
        for words, status, place in (([], 2, 2), (["--help"], 0, 1)):
            found = run(words)
            check(found[0] == status and "KEY" in str(found[place]), f"{words}: {found}")
        if program:
            try_program(program)
        else:
            print("left out: walks, since there is no program")
        os.chdir("/")
    print(f"{passed} passed, {failed} failed")
    return 1 if failed else 0


if __name__ == "__main__":
    sys.exit(main(sys.argv[1:]))
