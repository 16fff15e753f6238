#!/usr/bin/env python3
"""Makes the picture strip of README.md, by hand: pictures of a live walk that go from coarse to fine beside the settled one, and below them
the same with the level of what each pixel shows in a colour.

usage: strip.py strip NAME.png [PROGRAM [PICTURES]]   (crates/vtex/out/vtex and 0,1,2,6 where they are not given)
       strip.py filters NAME.png [PROGRAM]            makes the two pictures near the ground, by the nearest texel and by bilinear filtering
       strip.py terrain NAME.ppm                      writes the texture that it looks at, a map of 2,048x2,048 texels that wraps around
       strip.py path NAME                             writes the path: twelve pictures from one camera

The walks load 12 pages a pass, so that a picture shows pages of several levels. The colours are found from store, path and journal alone; the
finest level is the lightest. It takes about a minute.
"""
import os
import random
import struct
import subprocess
import sys
import tempfile
import zlib

from journals import Journal, pass_rows
from stores import Path, Store, contents, row_shown

TOP = os.path.dirname(os.path.dirname(os.path.abspath(__file__)))
SIDE, REACH, GAP = 2048, 192, 4
PATH = b"size 320 200\nfocal 100\n" + b"at 131072 131072 51200 11585 11585\n" * 12
NEAR = b"size 320 200\nfocal 100\nat 131072 131072 8192 11585 11585\n"
OPTIONS = ["--frames", "256", "--samplers", "1", "--loaders", "1", "--batch", "12"]
COLOURS = [(255, 255, 204), (255, 217, 118), (254, 178, 76), (252, 78, 42), (177, 0, 38), (84, 39, 136)]
GROUNDS = [(70, 30, 60, 110), (84, 44, 92, 150), (90, 214, 200, 150), (140, 80, 140, 60), (175, 60, 100, 50), (205, 130, 115, 100), (256, 240, 240, 245)]


def heights(seed):
    """A field of heights from 0 to 255 that wraps around, by halving squares and moving their middles up or down."""
    chance, step, reach = random.Random(seed), SIDE // 4, REACH
    field = [[128] * SIDE for _ in range(SIDE)]
    for y in range(0, SIDE, step):
        for x in range(0, SIDE, step):
            field[y][x] = chance.randint(30, 225)
    while step > 1:
        half = step // 2
        corners, sides = [(-half, -half), (half, -half), (-half, half), (half, half)], [(-half, 0), (half, 0), (0, -half), (0, half)]
        squares = [(x, y) for y in range(half, SIDE, step) for x in range(half, SIDE, step)]
        diamonds = [(x, y) for y in range(0, SIDE, half) for x in range((y + half) % step, SIDE, step)]
        for places, around in ((squares, corners), (diamonds, sides)):
            for x, y in places:
                field[y][x] = middle(field, x, y, around) + chance.randint(-reach, reach) // 2
        step, reach = half, reach * 9 // 16
    return [[min(max(height, 0), 255) for height in row] for row in field]


def middle(field, x, y, around):
    """The mean height of four places around one."""
    return sum(field[(y + down) % SIDE][(x + right) % SIDE] for right, down in around) // 4


def ground(height, slope):
    """The colour of a place by its height, lighter where it rises to the right."""
    ceiling, *colour = next(kind for kind in GROUNDS if height < kind[0])
    shade = 0 if ceiling <= 84 else max(min(6 * slope, 50), -50)
    return [min(max(sample + shade + height // 8 - 16, 0), 255) for sample in colour]


def terrain(name):
    samples = bytearray()
    for row in heights(1):
        for x, height in enumerate(row):
            samples += bytes(ground(height, height - row[x - 1]))
    with open(name, "wb") as file:
        file.write(b"P6\n%d %d\n255\n" % (SIDE, SIDE) + samples)


def write_path(name):
    with open(name, "wb") as file:
        file.write(PATH)


def png(width, rows):
    """The bytes of a picture of these rows, each of three bytes a pixel."""
    header = struct.pack(">IIBBBBB", width, len(rows), 8, 2, 0, 0, 0)
    parts = [(b"IHDR", header), (b"IDAT", zlib.compress(b"".join(b"\0" + row for row in rows), 9)), (b"IEND", b"")]
    return b"\x89PNG\r\n\x1a\n" + b"".join(struct.pack(">I", len(d)) + k + d + struct.pack(">I", zlib.crc32(k + d)) for k, d in parts)


def level_row(store, path, picture, y, table):
    return b"".join(bytes(COLOURS[level]) for _, level, _, _ in row_shown(store.geometry, path, picture, y, table))


def walked(program, prefix, numbers, *options):
    """Of the program's walk the rows of these pictures, and of each the rows of the levels that its journal tells."""
    journal_name = prefix + ".txt"
    subprocess.run([program, "walk", "t.vts", "flight.path", prefix, "--journal", journal_name, *OPTIONS, *options], check=True)
    store, path = Store(contents("t.vts")), Path(PATH)
    journal = Journal(store.geometry, path.height, contents(journal_name), len(path.cameras))
    begin, step, pictures = len(b"P6\n%d %d\n255\n" % (path.width, path.height)), 3 * path.width, []
    for number in numbers:
        drawn = contents("%s%04d.ppm" % (prefix, number))
        rows = [drawn[at : at + step] for at in range(begin, len(drawn), step)]
        pictures.append((rows, pass_rows(store, path, journal, *journal.last_passes()[number], level_row)))
    return pictures


def beside(pictures):
    white = b"\xff" * (3 * GAP)
    return [white.join(rows) for rows in zip(*pictures)]


def strip(name, program=os.path.join(TOP, "crates/vtex/out/vtex"), numbers="0,1,2,6"):
    name, program = os.path.abspath(name), os.path.abspath(program)
    with tempfile.TemporaryDirectory() as folder:
        os.chdir(folder)
        terrain("terrain.ppm")
        write_path("flight.path")
        subprocess.run([program, "tile", "terrain.ppm", "t.vts"], check=True)
        pictures = walked(program, "f", [int(number) for number in numbers.split(",")]) + walked(program, "s", [0], "--settled")
        os.chdir(TOP)
    rows = beside([drawn for drawn, _ in pictures])
    width = len(rows[0]) // 3
    rows += [b"\xff" * len(rows[0])] * GAP + beside([levels for _, levels in pictures])
    with open(name, "wb") as file:
        file.write(png(width, rows))


def filters(name, program=os.path.join(TOP, "crates/vtex/out/vtex")):
    name, program = os.path.abspath(name), os.path.abspath(program)
    with tempfile.TemporaryDirectory() as folder:
        os.chdir(folder)
        terrain("terrain.ppm")
        with open("near.path", "wb") as file:
            file.write(NEAR)
        pictures, begin = [], len(b"P6\n320 200\n255\n")
        for filtering in ("nearest", "bilinear"):
            subprocess.run([program, "plain", "terrain.ppm", "near.path", filtering, "--filter", filtering], check=True)
            drawn = contents(filtering + "0000.ppm")
            pictures.append([drawn[at : at + 960] for at in range(begin, len(drawn), 960)])
        os.chdir(TOP)
    rows = beside(pictures)
    with open(name, "wb") as file:
        file.write(png(len(rows[0]) // 3, rows))


if __name__ == "__main__":
    {"strip": strip, "filters": filters, "terrain": terrain, "path": write_path}[sys.argv[1]](*sys.argv[2:])
