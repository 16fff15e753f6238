#!/usr/bin/env python3
"""Tests examples/study: its reference stream beside stores.py, its passes beside the log of the
walk by walks.py, and its policies beside searches without a rule.

usage: study.py [PROGRAM]     (that of dist/, or crates/vtex/out/vtex if that is newer)
"""
import csv
import functools
import io
import os
import random
import subprocess
import sys
import tempfile
import xml.dom.minidom
from collections import Counter

import artefacts
from stores import BILINEAR, NEAREST, Path, Store
from textures import chain_of, made, read_image, store_of
from walks import Settings, Still, Walk, walked

STUDY = os.path.join(artefacts.TOP, "examples", "study", "study.py")
sys.path.insert(0, os.path.dirname(STUDY))
# The texture's sides, the tile's side, and a path.
SHAPES = [
    (4, 4, 2, "size 2 1\nfocal 1\nat 0 0 256 16384 0\nat 0 0 256 16384 0\nat 512 0 256 16384 0\n"),
    (
        300,
        200,
        16,
        (
            "size 30 20\nfocal 15\nat 1792 0 20480 16384 0\nto 9 60000 9000 30480 14000 6000\nat"
            " -5000 77 4096 0 -16384\n"
        ),
    ),
    (
        257,
        130,
        8,
        (
            "size 40 30\nfocal 20\nat 300 -5000 20480 -3000 16000\nto 7 9000 5000 2048 -3000"
            " 16000\nto 7 300 -5000 20480 -3000 16000\n"
        ),
    ),
]
passed, failed = 0, 0


def say(good, what):
    global passed, failed
    passed, failed = passed + bool(good), failed + (not good)
    if not good:
        print("failed: " + what)


def run(*words):
    ran = subprocess.run(
        [sys.executable, STUDY, *words], stdout=subprocess.PIPE, stderr=subprocess.PIPE, text=True
    )
    return ran.returncode, ran.stdout, ran.stderr


def rows_of(text):
    return list(csv.DictReader(io.StringIO(text)))


def fewest(stream, frames):
    """The fewest reads of any policy, found by trying each victim."""

    @functools.lru_cache(None)
    def rest(place, held):
        if place == len(stream):
            return 0
        page = stream[place]
        if page in held:
            return rest(place + 1, held)
        if len(held) < frames:
            return 1 + rest(place + 1, held | {page})
        return 1 + min(rest(place + 1, held - {victim} | {page}) for victim in held)

    return rest(0, frozenset())


def by_ages(stream, frames, is_renewed):
    """The reads of LRU and FIFO, by a search for the oldest use or the oldest read."""
    ages, reads = {}, 0
    for now, page in enumerate(stream):
        if page not in ages:
            reads += 1
            if len(ages) == frames:
                del ages[min(ages, key=ages.get)]
            ages[page] = now
        elif is_renewed:
            ages[page] = now
    return reads


def try_policies():
    import study

    chance = random.Random(11)
    for _ in range(150):
        frames, pages = chance.randint(1, 4), chance.randint(1, 7)
        stream = tuple(chance.randrange(pages) for _ in range(chance.randint(0, 18)))
        say(
            study.opt(stream, frames) == fewest(stream, frames),
            f"OPT of {stream} with {frames}: {study.opt(stream, frames)}",
        )
        say(
            study.lru(stream, frames) == by_ages(stream, frames, True),
            f"LRU of {stream} with {frames}",
        )
        say(
            study.fifo(stream, frames) == by_ages(stream, frames, False),
            f"FIFO of {stream} with {frames}",
        )
        say(
            fewest(stream, frames) <= study.clock(stream, frames) <= len(stream),
            f"CLOCK of {stream} with {frames}",
        )
    # Belady's anomaly (1969): FIFO reads more by four frames than by three. The others were worked
    # by hand; a page's bit is clear when CLOCK reads it.
    stream = (1, 2, 3, 4, 1, 2, 5, 1, 2, 3, 4, 5)
    say([study.fifo(stream, 3), study.fifo(stream, 4)] == [9, 10], "Belady's stream by FIFO")
    say(
        [study.lru(stream, 3), study.opt(stream, 3), study.clock(stream, 3)] == [10, 7, 10],
        "Belady's stream by LRU, OPT and CLOCK",
    )


def try_stream(name, store, text, filtering):
    path = Path(text.encode(), filtering)
    status, out, error = run("stream", name + ".vts", name + ".path", "--filter", filtering)
    geometry, rows = store.geometry, rows_of(out)
    say(status == 0 and not error, f"{name}: {error}")
    for picture in range(len(path.cameras)):
        own = [row for row in rows if row["picture"] == str(picture)]
        say(
            [int(row["page"]) for row in own] == path.wants(geometry, picture),
            f"{name}, {filtering}: the wanted list of picture {picture}",
        )
        say(
            sum(int(row["pixels"]) for row in own)
            == path.width * path.height * (4 if filtering == BILINEAR else 1),
            f"{name}: each pixel is counted",
        )
    say(
        all(
            geometry.name_of(int(row["page"]))
            == tuple(int(row[it]) for it in ("level", "column", "row"))
            for row in rows
        ),
        f"{name}: names",
    )


def try_passes(name, store, text, settings):
    """The passes of a walk of walks.py, summed by picture, are what its log says."""
    walk = Walk(store.geometry, Path(text.encode(), settings.filtering), settings)
    journal, done = walked(walk, Still())
    log = done.log + done.end_line()
    with open("j.txt", "wb") as file:
        file.write(journal)
    status, out, error = run(
        "passes", name + ".vts", name + ".path", "j.txt", "--filter", settings.filtering
    )
    rows, sums = rows_of(out), {}
    for row in rows:
        sums.setdefault(int(row["picture"]), Counter(passes=0)).update(
            passes=1, loaded=int(row["loaded"]), lost=int(row["lost"]), evicted=int(row["evicted"])
        )
    for line in log.decode().splitlines():
        fields = line.split()
        if fields[0] == "picture":
            told = dict(zip(fields[2::2], map(int, fields[3::2])))
            own = sums.get(int(fields[1]), Counter())
            say(
                {it: own[it] for it in ("passes", "loaded", "lost", "evicted")}
                == {it: told[it] for it in ("passes", "loaded", "lost", "evicted")},
                f"{name}: {line} and {dict(own)}",
            )
            wanted = {int(row["wanted"]) for row in rows if row["picture"] == fields[1]}
            say(wanted == {told["wanted"]}, f"{name}: {line} and {wanted} wanted")
        elif fields[0] == "end":
            say(f"{fields[4]} tiles read" in error, f"{name}: {line} and {error}")
    mapped = len([line for line in journal.splitlines() if line.startswith(b"map")]) - len(
        [line for line in journal.splitlines() if line.startswith(b"unmap")]
    )
    say(
        status == 0 and rows and int(rows[-1]["mapped"]) == mapped,
        f"{name}: the pages that are mapped at the end",
    )
    say(
        all(int(row["bytes"]) == int(row["loaded"]) * store.tile_bytes for row in rows),
        f"{name}: bytes",
    )


# Six passes of one row over a texture of 4x4 with a tile side of 2, whose pages are 0 to 3 of level
# 0 and the root, 4.
JOURNAL = """map 1 1 0 0 0
pass 1 picture 0 start 1
row 0 0 1
pass 2 picture 0 start 1
map 2 0 0 0 1
lost 0 1 0
row 0 0 2
pass 3 picture 1 start 2
map 3 0 1 0 2
row 0 0 3
pass 4 picture 2 start 3
row 0 0 3
pass 5 picture 2 start 3
unmap 4 0 0 0 1
map 5 0 0 1 1
unmap 6 0 1 0 2
map 7 0 1 1 2
row 0 0 7
pass 6 picture 2 start 7
unmap 8 0 1 1 2
map 9 0 0 0 2
row 0 0 9
"""
# Of each pass: loaded, again, lost, evicted, bytes, mapped, stayed. A tile has 2 * 2 * 3 bytes.
# Page 0 stayed from pass 2 to 5, page 1 from 3 to 5, page 3 from 5 to 6; page 0 is read again.
WORKED = [
    "0,0,0,0,0,1,",
    "1,0,1,0,12,2,",
    "1,0,0,0,12,3,",
    "0,0,0,0,0,3,",
    "2,0,0,2,24,3,2.50",
    "1,1,0,1,12,3,1.00",
]


def try_journal():
    with open("worked.txt", "w", encoding="utf-8") as file:
        file.write(JOURNAL)
    status, out, error = run("passes", "s4.vts", "s4.path", "worked.txt")
    rows = [",".join(line.split(",")[6:]) for line in out.splitlines()]
    say(status == 0 and rows[1:] == WORKED, f"the worked journal: {rows} {error}")
    say(rows[:1] == ["loaded,again,lost,evicted,bytes,mapped,stayed"], f"the columns: {rows[:1]}")
    # The root and five more; 3, 2 and 1 passes are 2.0 in the mean.
    named = ("6 passes", "6 tiles read, 1 of them again, 1 lost, 3 given up", "stayed 2.0 passes")
    say(all(it in error for it in named), f"the worked summary: {error}")


def try_figures(program):
    """A flight there and back: a settled walk reads little more than OPT where pictures fit."""
    path = (
        "size 96 60\nfocal 48\nat 0 0 65536 16384 0\nto 30 262144 131072 32768 11585 11585\nto 30 0"
        " 0 65536 16384 0\n"
    )
    with open("there.path", "w", encoding="utf-8") as file:
        file.write(path)
    subprocess.run([program, "gen", "7", "2048", "2048", "there.ppm"], check=True)
    words = [program, "tile", "there.ppm", "there.vts"]
    subprocess.run(words, check=True, stdout=subprocess.DEVNULL)
    words = ["misses", "there.vts", "there.path", "--program", program, "--frames", "24,28,48"]
    status, out, error = run(*words)
    small, *fits = rows_of(out)
    say(status == 0 and not small["settled"], f"24 frames do not fit: {out} {error}")
    for row in fits:
        say(
            int(row["opt"]) <= int(row["settled"]) <= 1.034 * int(row["opt"]),
            f"within 3.4 % of OPT: {row}",
        )


def try_frames(name, store, text, filtering, program):
    """The frames of each picture by stores.py. A settled walk draws with them, not with fewer."""
    path, geometry = Path(text.encode(), filtering), store.geometry
    files = [name + ".vts", name + ".path"]
    status, out, error = run("frames", *files, "--filter", filtering)
    rows, needed = rows_of(out), []
    for picture in range(len(path.cameras)):
        wants = path.wants(geometry, picture)
        held = {above for page in wants for above in geometry.ancestors_of(page)} | {geometry.root}
        needed.append((picture, len(wants), len(held)))
    found = [tuple(int(row[it]) for it in ("picture", "wanted", "frames")) for row in rows]
    say(status == 0 and found == needed, f"{name}, {filtering}: {found} and {needed}")
    most = max(it[2] for it in needed)
    say(error.endswith(f"needs --frames {most}\n"), f"{name}, {filtering}: {error}")
    for frames, wanted in ((most, 0), (most - 1, 5)) if program else ():
        words = [program, "walk", *files, "f", "--settled", "--filter", filtering]
        ran = subprocess.run(
            [*words, "--frames", str(frames)], stdout=subprocess.PIPE, stderr=subprocess.PIPE
        )
        what = f"{name}, {filtering}: {frames} frames: {ran.returncode} {ran.stderr}"
        say(ran.returncode == wanted, what)


def try_misses(name, program):
    words = ["--program", program] if program else []
    status, out, error = run(
        "misses",
        name + ".vts",
        name + ".path",
        "--frames",
        "4,12,60,400",
        "--figure",
        "f.svg",
        *words,
    )
    rows = rows_of(out)
    say(
        status == 0 and [row["frames"] for row in rows] == ["4", "12", "60", "400"],
        f"{name}: {error}",
    )
    pages = {row["page"] for row in rows_of(run("stream", name + ".vts", name + ".path")[1])}
    for row in rows:
        others = [int(row[it]) for it in ("lru", "clock", "fifo")]
        say(int(row["opt"]) <= min(others), f"{name}: none reads fewer than OPT: {row}")
        if program and row["settled"]:
            say(int(row["settled"]) >= int(row["opt"]), f"{name}: nor does a settled walk: {row}")
    last = {int(rows[-1][it]) for it in ("opt", "lru", "clock", "fifo")}
    with open(name + ".vts", "rb") as file:
        geometry = Store(file.read()).geometry
    say(
        last == {len(pages | {str(geometry.root)})},
        f"{name}: with frames for all each page is read once: {rows[-1]}",
    )
    if program:
        # A walk reads the coarser pages above a wanted page before the page itself.
        lines = {above for page in pages for above in geometry.ancestors_of(int(page))} | {
            geometry.root
        }
        say(
            int(rows[-1]["settled"]) == len(lines),
            (
                f"{name}: a settled walk reads each page of the wanted pages' lines once:"
                f" {rows[-1]}, {len(lines)}"
            ),
        )
    lines = xml.dom.minidom.parse("f.svg").getElementsByTagName("polyline")
    say(len(lines) == (6 if program else 4), f"{name}: a line for each policy")


def main(words):
    program = os.path.abspath(words[0]) if words else artefacts.program()
    with tempfile.TemporaryDirectory() as room:
        os.chdir(room)
        try_policies()
        for width, height, tile, text in SHAPES:
            name = f"s{width}"
            depth, texture = read_image(made(width, height, 5, 255))
            data = store_of(depth, chain_of(texture, tile), tile)
            with open(name + ".vts", "wb") as file:
                file.write(data)
            with open(name + ".path", "w", encoding="utf-8") as file:
                file.write(text)
            for filtering in (NEAREST, BILINEAR):
                try_stream(name, Store(data), text, filtering)
                try_frames(name, Store(data), text, filtering, program)
            for settings in (
                Settings(frames=12, batch=3),
                Settings(frames=60, settled=True),
                Settings(frames=60, filtering=BILINEAR, pinned=2),
            ):
                try_passes(name, Store(data), text, settings)
            try_misses(name, program)
        try_journal()
        if program:
            try_figures(program)
        else:
            print("left out: walks of the program, for there is none")
        with open("bad.vts", "wb") as file:
            file.write(b"P6")
        with open("sides.vts", "wb") as file:
            file.write(b"VTS1" + bytes(12))
        with open("none.path", "w", encoding="utf-8") as file:
            file.write("size 3 2\nfocal 1\n")
        with open("other.txt", "w", encoding="utf-8") as file:
            file.write("map 1 1 0 0 0\npass 1 picture 0 start 1\nunmap 2 0 0 0 1\n")
        with open("page.txt", "w", encoding="utf-8") as file:
            file.write("map 1 5 0 0 0\n")
        with open("bad.path", "w", encoding="utf-8") as file:
            file.write("size 3\n")
        with open("bad.txt", "w", encoding="utf-8") as file:
            file.write("map 1 0 0 0 0\nnothing\n")
        for bad, named in (
            (["stream", "bad.vts", "s4.path"], "no tile store"),
            (["stream", "s4.vts", "bad.path"], "no camera path"),
            (["stream", "none", "s4.path"], "none"),
            (["passes", "s4.vts", "s4.path", "bad.txt"], "line 2 of bad.txt"),
            (["passes", "s4.vts", "s4.path"], "STORE PATH JOURNAL"),
            (["misses", "s4.vts", "s4.path", "--frames", "a"], "list of numbers"),
            (["misses", "s4.vts", "s4.path", "--frames", "1"], "at least 2"),
            (["misses", "s4.vts", "s4.path", "--figure", "a.gif"], ".svg, .png or .pdf"),
            (["misses", "s4.vts", "s4.path", "--figure", "none/a.svg"], "none of --figure"),
            (["misses", "s4.vts", "none.path"], "no pictures"),
            (["misses", "s4.vts", "s4.path", "--program", "./none"], "none"),
            (["stream", "sides.vts", "s4.path"], "a tile side of 0"),
            (["passes", "s4.vts", "s4.path", "other.txt"], "is not mapped"),
            (["passes", "s4.vts", "s4.path", "page.txt"], "no page 0 0 of level 5"),
        ):
            status, out, error = run(*bad)
            say(
                status == 1 and error.startswith("study.py: ") and named in error,
                f"{bad}: {status} {error}",
            )
        os.chdir("/")
    print(f"{passed} passed, {failed} failed")
    return 1 if failed else 0


if __name__ == "__main__":
    sys.exit(main(sys.argv[1:]))
