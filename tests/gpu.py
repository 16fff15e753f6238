#!/usr/bin/env python3
"""Builds the engine on the graphics card (examples/engine/gpu.cpp) without a window, flies it over
stores by Mesa's llvmpipe or another driver, and compares each ground pixel with the store.

usage: gpu.py [PROGRAM]

PROGRAM is the built vtex, which makes the stores; without it, that of VTEX_PROGRAM, of dist/ or of
crates/vtex/out. Needs g++ and, on Debian, libegl-dev, libgl-dev and libgl1-mesa-dri; clang++ and
libsdl2-dev besides where they are installed, for a second build and for the build with a window.

Beside each picture the engine writes what its shader chose for each pixel: the place in the found
level in 1/256 texel, the found page and the wanted page. This script reads the texels there from
the store by docs/FORMATS.md alone. By the nearest filter a pixel is that texel, exactly. By the
linear filter it is the blend of four texels to within one step of 255: the engine cuts places to
1/256 texel, so the weights are exact on each card that has eight bits for them, and what is left is
the card's rounding, at most half a step for the blend along each side.
"""
import array
import os
import random
import re
import shutil
import subprocess
import sys
import tempfile

import artefacts

SOURCE = os.path.join(artefacts.TOP, "examples", "engine", "gpu.cpp")
WARNINGS = ["-std=c++17", "-O2", "-Wall", "-Wextra", "-Wpedantic", "-Werror"]
PACKAGES = "Debian: g++ libegl-dev libgl-dev libgl1-mesa-dri"
NO_PAGE = 0xFFFFFFFF
LINE = re.compile(r"picture (\d+) ground (\d+) coarser (\d+) bias ([\d.]+) loads (\d+)")

# Width, height, depth and tile of a store; the options of a flight; what its last picture is.
# "settled": each pixel has the wanted level, without a bias. "biased": so too, by a bias above 0.
FLIGHTS = [
    (300, 200, 1, 16, ["--frames", "256"], "settled"),
    (257, 131, 1, 8, ["--frames", "900", "--loaders", "3", "--slow", "2"], "settled"),
    (300, 201, 2, 16, ["--frames", "300"], "settled"),
    (64, 64, 1, 64, ["--frames", "1"], "settled"),
    (1, 1, 2, 2, ["--frames", "1"], "settled"),
    (700, 500, 1, 16, ["--frames", "40"], "biased"),
    (333, 512, 2, 8, ["--frames", "90", "--batch", "16"], "biased"),
]

passed, failed = 0, 0


def check(good, what):
    global passed, failed
    passed, failed = passed + bool(good), failed + (not good)
    if not good:
        print("failed: " + what)
    return good


def run(*words):
    return subprocess.run(words, stdout=subprocess.PIPE, stderr=subprocess.PIPE, text=True)


def finish(left_out=None):
    if left_out:
        print("left out: " + left_out)
    print("%d passed, %d failed" % (passed, failed))
    sys.exit(failed > 0)


def build(compiler, name, *flags):
    libraries = artefacts.library_words(os.getcwd())
    include = "-I" + os.path.join(artefacts.TOP, "include")
    made = run(compiler, *WARNINGS, include, SOURCE, *libraries, *flags, "-pthread", "-o", name)
    what = "%s builds %s without a warning: %s" % (compiler, name, made.stderr)
    return check(made.returncode == 0 and not made.stderr, what)


def build_all():
    if not build("g++", "gpu", "-lEGL", "-lGL"):
        return
    if shutil.which("clang++"):
        build("clang++", "gpu_clang", "-lEGL", "-lGL")
    config = shutil.which("sdl2-config")
    if config:
        flags = run(config, "--cflags", "--libs").stdout.split()
        build("g++", "gpu_window", "-DVTEX_WINDOW", *flags, "-lGL")
    else:
        print("left out: the build with a window, as SDL2 is not installed (Debian: libsdl2-dev)")


class Store:
    """The texels of a store, by docs/FORMATS.md."""

    def __init__(self, name):
        with open(name, "rb") as file:
            self.data = file.read()
        self.depth = {b"VTS1": 1, b"VTS2": 2}[self.data[:4]]
        width, height, self.tile = (
            int.from_bytes(self.data[at : at + 4], "big") for at in (4, 8, 12)
        )
        self.levels, first = [], 0  # width, height, columns, first page
        while True:
            columns, rows = -(-width // self.tile), -(-height // self.tile)
            self.levels.append((width, height, columns, first))
            first += columns * rows
            if columns * rows == 1:
                break
            width, height = (width + 1) // 2, (height + 1) // 2
        self.pages = first

    def level_of(self, page):
        return max(k for k, level in enumerate(self.levels) if level[3] <= page)

    def page(self, level, x, y):
        _, _, columns, first = self.levels[level]
        return first + y // self.tile * columns + x // self.tile

    def texel(self, level, x, y):
        tile = self.tile
        place = (self.page(level, x, y) * tile + y % tile) * tile + x % tile
        at = 16 + 3 * self.depth * place
        if self.depth == 1:
            return tuple(self.data[at : at + 3])
        data = self.data
        return tuple(data[at + 2 * c] << 8 | data[at + 2 * c + 1] for c in range(3))

    def blend(self, level, x, y):
        """The blend of four texels at a place in 1/256 texel, times 65536; centres are at 128."""
        width, height, _, _ = self.levels[level]
        left, top = (x - 128) >> 8, (y - 128) >> 8
        e, f = (x - 128) & 255, (y - 128) & 255
        a, b = left % width, (left + 1) % width
        c, d = top % height, (top + 1) % height
        corners = zip(
            self.texel(level, a, c),
            self.texel(level, b, c),
            self.texel(level, a, d),
            self.texel(level, b, d),
        )
        return [
            ((256 - e) * p + e * q) * (256 - f) + ((256 - e) * r + e * s) * f
            for p, q, r, s in corners
        ]


def write_texture(name, width, height, depth, seed):
    """A texture of noise over slopes, in which neighbours differ by anything from 0 to the most."""
    bits = random.Random(seed)
    samples = bytes(bits.getrandbits(8) for _ in range(width * height * 3 * depth))
    with open(name, "wb") as file:
        file.write(b"P6\n%d %d\n%d\n" % (width, height, 255 if depth == 1 else 65535))
        file.write(samples)


def compare(store, prefix, linear):
    """How many ground pixels of a picture there are, and what is wrong with the first wrong one."""
    with open(prefix + ".ppm", "rb") as file:
        picture = file.read()
    head = re.match(rb"P6\n(\d+) (\d+)\n(\d+)\n", picture)
    pixels = picture[head.end() :]
    told = array.array("I")
    with open(prefix + ".told", "rb") as file:
        told.frombytes(file.read())
    if len(told) * 3 * store.depth != len(pixels) * 4:
        return 0, "sizes"
    step = 1 if store.depth == 1 else 257
    count = 0
    for at in range(len(told) // 4):
        x, y, page, wanted = told[4 * at : 4 * at + 4]
        if page == NO_PAGE:
            continue
        count += 1
        here = "pixel %d, page %d, place %d %d: " % (at, page, x, y)
        if page >= store.pages or wanted >= store.pages:
            return count, here + "no page"
        level, fine = store.level_of(page), store.level_of(wanted)
        width, height, _, _ = store.levels[level]
        if x >> 8 >= width or y >> 8 >= height or store.page(level, x >> 8, y >> 8) != page:
            return count, here + "not the page of the place"
        if fine > level:
            return count, here + "finer than wanted"
        low = at * 3 * store.depth
        got = [
            int.from_bytes(pixels[low + store.depth * c : low + store.depth * (c + 1)], "big")
            for c in range(3)
        ]
        if linear:
            want = store.blend(level, x, y)
            if any(abs(g * 65536 - w) > step * 65536 for g, w in zip(got, want)):
                return count, here + "%s, wanted %s" % (got, [w / 65536 for w in want])
        elif tuple(got) != store.texel(level, x >> 8, y >> 8):
            return count, here + "%s, wanted %s" % (got, store.texel(level, x >> 8, y >> 8))
    return count, ""


def fly(number, row, program):
    width, height, depth, tile, options, end = row
    name = "store%d" % number
    write_texture("texture.ppm", width, height, depth, number)
    made = run(program, "tile", "texture.ppm", name, "--tile", str(tile))
    if not check(made.returncode == 0, "vtex tile: " + made.stderr):
        return
    store = Store(name)
    for kind in ("nearest", "linear"):
        what = "%dx%d of depth %d, tile %d, %s, %s: " % (
            width, height, depth, tile, " ".join(options), kind,
        )  # fmt: skip
        prefix = "%s.%s." % (name, kind)
        path = ["--size", "96", "67", "--pictures", "30", "--still", "90", "--every", "20"]
        # However slow the machine is, the last picture is drawn when all has been read.
        words = ["--wait", "60", "--filter", kind, "--out", prefix, *options]
        ran = run("./gpu", name, *path, *words)
        lines = [tuple(map(float, found)) for found in LINE.findall(ran.stdout)]
        if not check(ran.returncode == 0 and lines, what + ran.stdout + ran.stderr):
            continue
        total = 0
        for picture, ground, _, _, _ in lines:
            count, wrong = compare(store, "%s%04d" % (prefix, int(picture)), kind == "linear")
            check(not wrong and count == ground, what + "picture %d: %s" % (picture, wrong))
            total += count
        check(total > 0, what + "no pixel was compared")
        _, _, coarser, bias, loads = lines[-1]
        check(coarser == 0 and loads == 0, what + "the end is not settled: %s" % (lines[-1],))
        check(bias > 0 if end == "biased" else bias == 0, what + "its bias is %s" % bias)
        check(lines[-2][3] == bias, what + "the bias still changes: %s" % (lines[-2:],))


def refuse(program):
    """Bad words and files end with status 1 and a line that names them."""
    with open("short", "wb") as file:
        file.write(b"VTS1" + bytes(5))
    for words, said in (
        (["there is none"], "there is none: cannot be opened"),
        (["short"], "short: is no tile store, or not a whole one"),
        (["store0", "--frames", "0"], "--frames 0: wanted a number from 1 to 65535"),
        (["store0", "--frames", "9x"], "--frames 9x: wanted a number from 1 to 65535"),
        (["store0", "--filter", "best"], "--filter best: wanted nearest or linear"),
        (["store0", "--sizes"], "unknown option --sizes"),
        (["store0", "--out"], "--out: needs a value"),
    ):
        ran = run("./gpu", *words)
        what = " ".join(words) + ": " + ran.stderr
        check(ran.returncode == 1 and ran.stderr == "gpu: %s\n" % said, what)


def main():
    program = sys.argv[1] if len(sys.argv) > 1 else os.environ.get("VTEX_PROGRAM")
    program = os.path.abspath(program) if program else artefacts.program()
    if program is None or not os.access(program, os.X_OK):
        sys.exit("no program at %s: it comes with a release, and `bash build` makes it" % program)
    if not shutil.which("g++") or not os.path.exists("/usr/include/EGL/egl.h"):
        finish("g++ or EGL is not installed (%s)" % PACKAGES)
    with tempfile.TemporaryDirectory() as work:
        os.chdir(work)
        build_all()
        if failed:
            finish()
        write_texture("texture.ppm", 4, 4, 1, 0)
        run(program, "tile", "texture.ppm", "small", "--tile", "2")
        ran = run("./gpu", "small", "--size", "8", "8", "--pictures", "1", "--still", "0")
        if "EGL has no" in ran.stderr:
            os.chdir(artefacts.TOP)
            finish("the flights: %s (%s)" % (ran.stderr.strip(), PACKAGES))
        for number, row in enumerate(FLIGHTS):
            fly(number, row, program)
        refuse(program)
        os.chdir(artefacts.TOP)
    finish()


if __name__ == "__main__":
    main()
