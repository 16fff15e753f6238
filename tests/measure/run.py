#!/usr/bin/env python3
"""Measures the program's commands over growing inputs and prints the tables of history.md; by hand, on a machine that does nothing else.

usage: run.py [PROGRAM] [--sweeps tile,walk-batch,..] [--rounds 5] [--most 8192] [--beside OTHER] [--words 'tile: --threads 1']..
       run.py [PROGRAM] --summary [--rounds 9] [--beside OTHER]
       run.py [PROGRAM] --foreign [walk,tile,arrangement] [--rounds 9] [--beside OTHER]

Each row is a run of a command: the medians of its seconds and of the processors' seconds, and the most memory that it held. With --beside
another program is run in turn with it on the same words, and with those that --words gives it for a command; its seconds and how many times
as long the first one takes stand behind, and OTHER BYTES where both do not leave the same pictures or store. A program that answers another
status than 0 has a dash. Textures have sides of up to --most. All files stand in memory, in /dev/shm where there is one. It wants gcc.

--summary prints the first two tables of history.md: what each command costs over textures of two sides, and walks by several crews. There both
programs choose their own numbers of threads for all that is no walk, and bytes are compared once, where a walk is settled.

--foreign measures libraries of others in turn with both programs: settled walks beside OpenImageIO's ImageCache (image_cache.cpp, which wants g++,
maketx and libopenimageio-dev), from its `main` on, and `tile` beside libvips (`vips`). The first rows, with next to nothing to do, are what a start
takes. `arrangement` measures `plain` and `tile` in turn with a program in C that arranges them in the same way (arrangement.c).
"""
import argparse
import glob
import hashlib
import os
import shlex
import shutil
import statistics
import subprocess
import sys
import tempfile
from itertools import product

HERE = os.path.dirname(os.path.abspath(__file__))
TOP = os.path.dirname(os.path.dirname(HERE))
sys.path.insert(0, os.path.join(TOP, "tests"))

from stores import Store, contents

COMPARED = ["w.vts", "w.tif", "w.ppm", "f????.ppm"]
WRITTEN = COMPARED + ["w.txt", "w.own"]
MOST_GENERATED_SIDE = 8192


def path_of(width, height, pictures):
    """Flies over one texture of 1,024 texels in so many pictures, with levels as far apart at any size."""
    text = "size %d %d\nfocal %d\nat 1792 0 204800 16384 0\n" % (width, height, min(height // 2, 4096))
    return text + ("to %d 263936 0 204800 16384 0\n" % (pictures - 1) if pictures > 1 else "")


def levels_of(store):
    """The levels of a store of one byte a sample, each as the bytes of a picture."""
    line = 3 * store.geometry.tile
    for width, height, columns, rows, first in store.geometry.levels:
        lines = []
        for row in range(rows):
            begin = 16 + store.tile_bytes * (first + row * columns)
            tiles = [store.data[at : at + store.tile_bytes] for at in range(begin, begin + columns * store.tile_bytes, store.tile_bytes)]
            lines += [b"".join(tile[at : at + line] for tile in tiles)[: 3 * width] for at in range(0, store.tile_bytes, line)]
        yield b"P6\n%d %d\n255\n" % (width, height) + b"".join(lines[:height])


class Inputs:
    """Makes each input when it is first asked for, under a name that tells it."""

    def __init__(self, program):
        self.program = program

    def make(self, name, *words):
        if not os.path.exists(name):
            subprocess.run([self.program, *words], check=True, stdout=subprocess.DEVNULL)
        return name

    def texture(self, side):
        name = "t%d.ppm" % side
        return self.make(name, "gen", "7", str(side), str(side), name) if side <= MOST_GENERATED_SIDE else self.fourfold(side, name)

    def fourfold(self, side, name):
        """A texture of four times one of half its side."""
        if not os.path.exists(name):
            with open(self.texture(side // 2), "rb") as file, open(name, "wb") as large:
                raster = file.read()[-3 * (side // 2) ** 2 :]
                large.write(b"P6\n%d %d\n255\n" % (side, side))
                for _ in range(2):
                    large.writelines(2 * raster[at : at + 3 * side // 2] for at in range(0, len(raster), 3 * side // 2))
        return name

    def wide_texture(self, side):
        """The same with two bytes a sample, each its byte twice."""
        name = "d%d.ppm" % side
        if not os.path.exists(name):
            with open(self.texture(side), "rb") as file, open(name, "wb") as wide:
                raster = file.read()[-3 * side * side :]
                samples = bytearray(2 * len(raster))
                samples[::2], samples[1::2] = raster, raster
                wide.write(b"P6\n%d %d\n65535\n" % (side, side) + samples)
        return name

    def store(self, side):
        return self.make("s%d.vts" % side, "tile", self.texture(side), "s%d.vts" % side)

    def wide_store(self, side):
        return self.make("d%d.vts" % side, "upgrade", self.store(side), "d%d.vts" % side)

    def mip_mapped(self, side):
        """A tiled TIFF of the levels of a store. They are given to maketx, since its own box filter does not round each level to bytes."""
        name, levels = "m%d.tif" % side, []
        if not os.path.exists(name):
            for number, picture in enumerate(levels_of(Store(contents(self.store(side))))):
                levels.append("level%d.ppm" % number)
                with open(levels[-1], "wb") as file:
                    file.write(picture)
            words = "maketx --format tiff --compression none --tile 64 64 -o".split() + [name, levels[0]]
            subprocess.run(words + [word for level in levels[1:] for word in ("--mipimage", level)], check=True, stdout=subprocess.DEVNULL)
            for level in levels:
                os.remove(level)
        return name

    def path(self, width=320, height=200, pictures=60):
        name = "p%dx%dx%d.path" % (width, height, pictures)
        with open(name, "w") as file:
            file.write(path_of(width, height, pictures))
        return name

    def journal(self, store, path):
        name = "j-%s-%s.txt" % (store, path)
        words = ["walk", store, path, "j", "--journal", name, "--frames", "256", "--settled"]
        self.make(name, *words)
        for picture in glob.glob("j????.ppm"):
            os.remove(picture)
        return name


def walk_words(inputs, *options, store=None, path=None):
    crew = {"--frames": "256", "--samplers": "4", "--loaders": "3", "--batch": "64"}
    crew.update(zip(options[::2], map(str, options[1::2])))
    words = ["walk", store or inputs.store(2048), path or inputs.path(), "f", "--journal", "w.txt", "--settled"]
    return words + [word for option in crew.items() for word in option]


def tables_of(inputs, side):
    """Walks over words and over the swapped table, a title and the words of each."""
    rows = []
    for kind, (samplers, loaders), table in product(("live", "settled"), ((1, 1), (4, 3)), ("words", "swap")):
        options = ("--samplers", samplers, "--loaders", loaders, "--table", table)
        words = lambda options=options: walk_words(inputs, *options, store=inputs.store(side))
        live = lambda words=words: [word for word in words() if word != "--settled"]
        rows.append(("%s, %d/%d, %s" % (kind, samplers, loaders, table), words if kind == "settled" else live))
    return rows


def sweeps_of(inputs, sides):
    """The rows of each sweep: a title, and the words, which are made when the row is run."""
    sizes = [(160, 100), (320, 200), (640, 400), (1280, 800), (2048, 2048)]
    side = min(2048, sides[-1])
    by = lambda title, values, option: [("%d %s" % (n, title), lambda n=n: walk_words(inputs, option, n, store=inputs.store(side))) for n in values]
    sized = lambda make: [("picture of %dx%d" % size, lambda size=size: make(inputs.path(*size, 10))) for size in sizes]
    return {
        "gen": [("side %d" % n, lambda n=n: ["gen", "7", str(n), str(n), "w.ppm"]) for n in sides],
        "tile": [("side %d" % n, lambda n=n: ["tile", inputs.texture(n), "w.vts"]) for n in sides],
        "tile-wide": [("side %d, two bytes" % n, lambda n=n: ["tile", inputs.wide_texture(n), "w.vts"]) for n in sides],
        "info": [("side %d" % n, lambda n=n: ["info", inputs.store(n)]) for n in sides],
        "upgrade": [("side %d" % n, lambda n=n: ["upgrade", inputs.store(n), "w.vts"]) for n in sides],
        "plain-side": [("side %d, 1 picture" % n, lambda n=n: ["plain", inputs.texture(n), inputs.path(320, 200, 1), "f"]) for n in sides],
        "plain-size": sized(lambda path: ["plain", inputs.texture(side), path, "f"]),
        "plain-pictures": [("%d pictures" % n, lambda n=n: ["plain", inputs.texture(side), inputs.path(320, 200, n), "f"]) for n in (1, 60, 240)],
        "walk-side": [("side %d" % n, lambda n=n: walk_words(inputs, store=inputs.store(n))) for n in sides],
        "walk-size": sized(lambda path: walk_words(inputs, "--frames", 1024, store=inputs.store(side), path=path)),
        "walk-samplers": by("samplers", (1, 2, 4, 8, 16, 64), "--samplers"),
        "walk-loaders": by("loaders", (1, 2, 3, 8, 16), "--loaders"),
        "walk-frames": by("frames", (64, 128, 256, 512, 1024), "--frames"),
        "walk-batch": by("pages a batch", (1, 4, 16, 64, 256), "--batch"),
        "walk-wide": [("two bytes a sample", lambda: walk_words(inputs, store=inputs.wide_store(side)))],
        "walk-table": tables_of(inputs, side),
        "replay": [("%d pictures" % n, lambda n=n: replay_words(inputs, side, n)) for n in (15, 60, 240)],
        "trial": [("trial 7", lambda: ["trial", "7"])],
    }


def replay_words(inputs, side, pictures):
    store, path = inputs.store(side), inputs.path(320, 200, pictures)
    return ["replay", store, path, inputs.journal(store, path), "f"]


def remove_written():
    for name in sum(map(glob.glob, WRITTEN), []):
        os.remove(name)


def run(program, words, is_compared=True):
    """The seconds, the processors' seconds, the mebibytes and a digest of the pictures or the store of a run, or None where its status is not 0.
    The digest is None where nothing is to be compared. A program that writes its own seconds to w.own is taken at its word."""
    remove_written()
    subprocess.run(["./timed", "figures", program, *words], check=True, stdout=subprocess.DEVNULL, stderr=subprocess.DEVNULL)
    with open("figures") as file:
        *figures, status = file.read().split()
    if status == "0" and os.path.exists("w.own"):
        with open("w.own") as file:
            figures[:2] = file.read().split()
    seconds, busy, kibibytes = map(float, figures)
    return (seconds, busy, kibibytes / 1024, digest() if is_compared else None) if status == "0" else None


def digest():
    """What stands in the names that are compared."""
    found = hashlib.sha256()
    for name in sorted(name for pattern in COMPARED for name in glob.glob(pattern)):
        with open(name, "rb") as file:
            found.update(name.encode() + hashlib.sha256(file.read()).digest())
    return found.hexdigest()


def measured(programs, rounds, compared):
    """The medians of the figures of each program, or None where its status is not 0, from so many runs of each in turn; and whether all that was
    compared, in the first so many rounds, is the same."""
    runs = [[] for _ in programs]
    for number in range(rounds):
        for found, (program, words) in zip(runs, programs):
            found.append(run(program, words, number < compared))
    middles = [None if None in found else [statistics.median(column) for column in list(zip(*found))[:3]] for found in runs]
    return middles, len({figures[3] for found in runs for figures in found if figures and figures[3]}) < 2


def row(title, programs, rounds):
    """A row of a table, from so many runs of each program in turn. What a live walk shows depends on when pages come, so it is not compared."""
    is_live = any(words[0] == "walk" and "--settled" not in words for _, words in programs)
    middles, is_same = measured(programs, rounds, 0 if is_live else rounds)
    cells = ["%.3f | %.3f | %.0f" % tuple(middle) if middle else "- | - | -" for middle in middles[:1]]
    cells += ["%.3f" % middle[0] if middle else "-" for middle in middles[1:]]
    if len(middles) == 2:
        cells.append("%.2f" % (middles[0][0] / middles[1][0]) if None not in middles else "-")
    print("| %s%s | %s |" % (title, "" if is_same else ", OTHER BYTES", " | ".join(cells)), flush=True)


SIDES, CREWS = (2048, 8192), ((1, 1), (2, 1), (4, 3), (8, 4))
# The sides of the pictures, how many there are, and the frames over each side of a texture: for the largest as many as settled pictures want.
SIZES = ((64, 48, 60, (256, 256)), (320, 200, 60, (256, 256)), (1920, 1080, 20, (1024, 2048)))


def summary_of(inputs):
    """The rows of the first table: a command, its words over a texture of a side, and what it grows with."""
    plain = lambda path, *more: lambda n: ["plain", inputs.texture(n), path, "f", *more]
    live = lambda n: [word for word in walk_words(inputs, store=inputs.store(n)) if word != "--settled"]
    settled = lambda *more: lambda n: walk_words(inputs, store=inputs.store(n)) + list(more)
    both = "the texture's texels, and the pictures' pixels"
    return [
        ("`gen`", lambda n: ["gen", "7", str(n), str(n), "w.ppm"], "texels"),
        ("`tile`", lambda n: ["tile", inputs.texture(n), "w.vts"], "texels"),
        ("`tile`, two bytes a sample", lambda n: ["tile", inputs.wide_texture(n), "w.vts"], "texels"),
        ("`info`", lambda n: ["info", inputs.store(n)], "nothing"),
        ("`upgrade`", lambda n: ["upgrade", inputs.store(n), "w.vts"], "the store's bytes"),
        ("`plain`, a picture of 2048x2048", plain(inputs.path(2048, 2048, 1)), both),
        ("`plain`, 60 pictures of 320x200", plain(inputs.path()), both),
        ("the same, `--filter bilinear`", plain(inputs.path(), "--filter", "bilinear"), both),
        ("`walk`, live, the same pictures", live, "frames, and the pixels of all passes"),
        ("`walk --settled`", settled(), "frames, and the pixels of all passes"),
        ("the same, `--filter bilinear`", settled("--filter", "bilinear"), "frames, and the pixels of all passes"),
        ("`walk --settled --table swap`", settled("--table", "swap"), "frames, and the pixels of all passes"),
        ("`replay` of a settled walk", lambda n: replay_words(inputs, n, 60), "pixels, and the journal's lines"),
        ("`trial 7`", lambda n: ["trial", "7"] if n == 2048 else None, "nothing"),
    ]


def ratios(middles):
    """How many times as long the first of two programs takes, by seconds and by processor seconds."""
    if len(middles) < 2 or None in middles:
        return "-"
    return "%.2f (%.2f)" % tuple(a / b if b else float("nan") for a, b in zip(middles[0][:2], middles[1][:2]))


def print_commands(inputs, programs, rounds):
    head = ["command"] + ["side %s: ms | processor ms | MiB" % format(side, ",") for side in SIDES]
    head += ["times plain Rust at %s" % format(side, ",") for side in SIDES] + ["grows with"]
    print("| %s |\n|%s" % (" | ".join(head), "---|" * (len(head) + 2 * len(SIDES))))
    for title, words_of, grows in summary_of(inputs):
        cells, beside = [], []
        for side in SIDES:
            words = words_of(side)
            if words is None:
                cells.append("| |")
                beside.append("")
                continue
            beside_it = programs[:1] if "--filter" in words or "--table" in words else programs
            middles, is_same = measured([(program, words) for program in beside_it], rounds, int(words[0] != "walk" or "--settled" in words))
            first = middles[0]
            cells.append("%.1f | %.1f | %.0f" % (1000 * first[0], 1000 * first[1], first[2]) if first else "- | - | -")
            beside.append(ratios(middles) + ("" if is_same else " OTHER BYTES"))
        print("| %s | %s | %s |" % (title, " | ".join(cells + beside), grows), flush=True)


def crew_words(inputs, kind, side, frames, size, samplers, loaders):
    """A walk, live or settled, by a crew: over a texture of a side, of pictures of a size and number."""
    crew = "--frames", frames, "--samplers", samplers, "--loaders", loaders
    words = walk_words(inputs, *crew, store=inputs.store(side), path=inputs.path(*size))
    return [word for word in words if kind == "settled" or word != "--settled"]


def print_walks(inputs, programs, rounds):
    print("\n| side | pictures | walk | %s |\n|%s" % (" | ".join("%d/%d" % crew for crew in CREWS), "---|" * (3 + len(CREWS))))
    for at, side in enumerate(SIDES):
        for width, height, pictures, frames in SIZES:
            for kind in ("live", "settled"):
                cells = []
                for samplers, loaders in CREWS:
                    words = crew_words(inputs, kind, side, frames[at], (width, height, pictures), samplers, loaders)
                    middles, is_same = measured([(program, words) for program in programs], rounds, int(kind == "settled"))
                    cell = "%.1f ms" % (1000 * middles[0][0]) if middles[0] else "-"
                    cells.append(cell + (": " + ratios(middles) if len(programs) > 1 else "") + ("" if is_same else " OTHER BYTES"))
                print("| %s | %d of %dx%d | %s | %s |" % (format(side, ","), pictures, width, height, kind, " | ".join(cells)), flush=True)


def cells_of(middles):
    """The figures of each program, and how many times as long the first one takes as each other one."""
    cells = ["%.1f (%.1f), %.0f MiB" % (1000 * middle[0], 1000 * middle[1], middle[2]) if middle else "-" for middle in middles]
    return " | ".join(cells + [ratios([middles[0], other]) for other in middles[1:]])


def print_foreign(words, names):
    columns = [*words, *("%s: ms (processor ms), MiB" % name for name in names), *("times %s" % name for name in names[1:])]
    print("\n| %s |\n|%s" % (" | ".join(columns), "---|" * len(columns)))


def print_image_cache(inputs, programs, names, rounds):
    """Settled walks beside ImageCache, which has a thread for each sampler, and as much memory for tiles as their texels take in all frames."""
    libraries = ["-lOpenImageIO", "-lOpenImageIO_Util", "-pthread"]
    subprocess.run(["g++", "-std=c++20", "-O2", os.path.join(HERE, "image_cache.cpp"), "-o", "image_cache", *libraries], check=True)
    print_foreign(["side", "pictures", "crew"], names + ["ImageCache"])
    for at, side in enumerate(SIDES):
        for width, height, pictures, frames in ((2, 2, 1, (256, 256)), *SIZES[1:]):
            for samplers, loaders in ((1, 1), (4, 3)):
                words = crew_words(inputs, "settled", side, frames[at], (width, height, pictures), samplers, loaders)
                foreign = [inputs.mip_mapped(side), inputs.path(width, height, pictures), "f", str(samplers), str(frames[at] * 3 * 64 * 64 / 2**20), "w.own"]
                middles, is_same = measured([(program, words) for program in programs] + [("./image_cache", foreign)], rounds, 1)
                title = "%s | %d of %dx%d | %d/%d" % (format(side, ","), pictures, width, height, samplers, loaders)
                print("| %s | %s%s |" % (title, cells_of(middles), "" if is_same else " OTHER BYTES"), flush=True)


def print_vips(inputs, programs, names, rounds):
    """`tile` beside libvips, on all processors and on one."""
    print_foreign(["side", "processors"], names + ["libvips"])
    every = len(os.sched_getaffinity(0))
    for side in (64, 2048, 8192, 16384):
        for processors in (every, 1):
            tile = ["tile", inputs.texture(side), "w.vts"]
            save = ["tiffsave", inputs.texture(side), "w.tif", *"--tile --pyramid --tile-width 64 --tile-height 64".split()]
            runs = [(program, tile + number * ["--threads", str(processors)]) for number, program in enumerate(programs)]
            runs.append((shutil.which("vips"), save + ["--vips-concurrency=%d" % processors]))
            if processors < every:
                runs = [(shutil.which("taskset"), ["-c", "0", program, *words]) for program, words in runs]
            middles, _ = measured(runs, rounds, 0)
            print("| %s | %d | %s |" % (format(side, ","), processors, cells_of(middles)), flush=True)
        print_other_levels(inputs.store(side))


def print_arrangement(inputs, programs, names, rounds):
    """`plain` and `tile` beside the same arrangement of threads in C."""
    subprocess.run(["gcc", "-O3", "-pthread", os.path.join(HERE, "arrangement.c"), "-o", "arrangement"], check=True)
    print_foreign(["side", "command"], names + ["arrangement in C"])
    flights = [("60 of 320x200", (320, 200, 60), []), ("240 of 320x200", (320, 200, 240), []), ("1 of 2048x2048", (2048, 2048, 1), ["keep"])]
    for side in SIDES:
        texture = inputs.texture(side)
        jobs = [("`tile`", ["tile", texture, "w.vts"], [])]
        jobs += [("`plain`, %s" % title, ["plain", texture, inputs.path(*size), "f"], more) for title, size, more in flights]
        for title, words, more in jobs:
            runs = [(program, words) for program in programs] + [("./arrangement", words + more)]
            middles, is_same = measured(runs, rounds, 1)
            print("| %s | %s | %s%s |" % (format(side, ","), title, cells_of(middles), "" if is_same else " OTHER BYTES"), flush=True)


def print_other_levels(store):
    """Says which levels of the image that libvips wrote last are not those of a store."""
    for number, picture in enumerate(levels_of(Store(contents(store)))):
        subprocess.run(["vips", "copy", "w.tif[page=%d]" % number, "level.ppm"], check=True)
        raster = contents("level.ppm")[-(len(picture) - picture.index(b"\n255\n") - 5) :]
        if not picture.endswith(raster):
            print("OTHER TEXELS in level %d of %s" % (number, store), flush=True)
    os.remove("level.ppm")


def main():
    parser = argparse.ArgumentParser()
    parser.add_argument("program", nargs="?", default=os.path.join(TOP, "crates/vtex/out/vtex"))
    parser.add_argument("--sweeps")
    parser.add_argument("--summary", action="store_true")
    parser.add_argument("--foreign", nargs="?", const="walk,tile")
    parser.add_argument("--rounds", type=int)
    parser.add_argument("--most", type=int, default=8192)
    parser.add_argument("--beside")
    parser.add_argument("--words", action="append", default=[])
    asked = parser.parse_args()
    program, beside = os.path.abspath(asked.program), asked.beside and os.path.abspath(asked.beside)
    more = {command.strip(): shlex.split(words) for command, words in (text.split(":", 1) for text in asked.words)}
    rounds = asked.rounds or (9 if asked.summary or asked.foreign else 5)
    with tempfile.TemporaryDirectory(dir="/dev/shm" if os.path.isdir("/dev/shm") else None) as folder:
        os.chdir(folder)
        os.environ["TMPDIR"] = folder
        subprocess.run(["gcc", "-O1", os.path.join(HERE, "timed.c"), "-o", "timed"], check=True)
        inputs = Inputs(program)
        programs, names = ([program, beside], ["vtex", "plain Rust"]) if beside else ([program], ["vtex"])
        if asked.summary:
            print_commands(inputs, programs, rounds)
            print_walks(inputs, programs, rounds)
        if asked.foreign and "walk" in asked.foreign:
            print_image_cache(inputs, programs, names, rounds)
        if asked.foreign and "tile" in asked.foreign:
            print_vips(inputs, programs, names, rounds)
        if asked.foreign and "arrangement" in asked.foreign:
            print_arrangement(inputs, programs, names, rounds)
        sweeps = {} if asked.summary or asked.foreign else sweeps_of(inputs, [side for side in (1024, 2048, 4096, 8192) if side <= asked.most])
        for sweep in asked.sweeps.split(",") if asked.sweeps and sweeps else sweeps:
            head = ["seconds", "processor seconds", "MiB"] + (["the other's seconds", "times"] if beside else [])
            print("\n| %s | %s |\n|%s" % (sweep, " | ".join(head), "---|" * (len(head) + 1)))
            for title, words_of in sweeps[sweep]:
                words = words_of()
                row(title, [(program, words)] + ([(beside, words + more.get(words[0], []))] if beside else []), rounds)
        os.chdir(TOP)


if __name__ == "__main__":
    main()
