#!/usr/bin/env python3
"""Tests examples/bindings: the texels that Python and Rust read through the library, beside those
that stores.py finds in the store's bytes.

usage: bindings.py

The library is that of dist/, or of crates/vtex_c/out if that is newer; gcc makes the shared library
of it. Needs gcc, and rustc for the second binding. Without the library or gcc all is left out.
"""
import importlib.util
import os
import random
import shutil
import subprocess
import sys
import tempfile

import artefacts
from stores import Store
from textures import chain_of, made, read_image, store_of

BINDINGS = os.path.join(artefacts.TOP, "examples", "bindings")
# The texture's number, its sides, the tile's side, and whether the store has two bytes a sample.
STORES = [
    (7, 300, 200, 16, False),
    (3, 257, 130, 8, True),
    (1, 5, 3, 2, False),
    (2, 1, 1, 2, True),
    (9, 640, 40, 64, False),
]
passed, failed = 0, 0


def say(good, what):
    global passed, failed
    passed, failed = passed + bool(good), failed + (not good)
    if not good:
        print("failed: " + what)


def make_stores():
    for place, (number, width, height, tile, wide) in enumerate(STORES):
        depth, texture = read_image(made(width, height, number, 65535 if wide else 255))
        with open(f"{place}.vts", "wb") as file:
            file.write(store_of(depth, chain_of(texture, tile), tile))


def texel(store, level, x, y, page):
    """The bytes of the texel of this level at this place, out of a page that covers it."""
    side, size = store.geometry.tile, 3 * store.depth
    up = store.geometry.name_of(page)[0] - level
    at = 16 + store.tile_bytes * page + size * (((y >> up) % side) * side + (x >> up) % side)
    return store.data[at : at + size]


def part_of(store, level, x, y, width, height, table=None):
    """A part of a level as it stands in the store; with a table, by the pages that it maps."""
    found = []
    for row in range(y, y + height):
        for column in range(x, x + width):
            page = store.geometry.index_of(
                level, column // store.geometry.tile, row // store.geometry.tile
            )
            found.append(
                texel(
                    store,
                    level,
                    column,
                    row,
                    page if table is None else store.geometry.look_up(table, page),
                )
            )
    return b"".join(found)


def refused(vtex, status, what, call):
    try:
        call()
    except vtex.VtexError as error:
        say(error.status == status, f"{what}: {error}")
        return
    say(False, f"{what} is refused")


def try_python(vtex):
    chance = random.Random(5)
    for place, row in enumerate(STORES):
        with open(f"{place}.vts", "rb") as file:
            own = Store(file.read())
        for frames in (2, 3, 40):
            with vtex.Store(f"{place}.vts", frames) as store:
                geometry = own.geometry
                numbers = (
                    store.width,
                    store.height,
                    store.tile,
                    store.depth,
                    store.levels,
                    store.pages,
                )
                say(
                    numbers
                    == (
                        geometry.width,
                        geometry.height,
                        geometry.tile,
                        own.depth,
                        len(geometry.levels),
                        geometry.pages,
                    ),
                    f"{row}: {numbers}",
                )
                last, column, line = geometry.name_of(geometry.root)
                say(
                    store.residency() == [(last, column, line, 0)],
                    f"{row}: the root alone is in memory at first: {store.residency()}",
                )
                for _ in range(25):
                    level = chance.randrange(store.levels)
                    wide, high = store.level_size(level)
                    say((wide, high) == geometry.levels[level][:2], f"{row}: level {level}")
                    x, y = chance.randrange(wide), chance.randrange(high)
                    part = (
                        level,
                        x,
                        y,
                        chance.randint(1, min(wide - x, 40)),
                        chance.randint(1, min(high - y, 40)),
                    )
                    table = {geometry.index_of(*it[:3]): it[3] for it in store.residency()}
                    say(
                        store.region(*part, load=False) == part_of(own, *part, table),
                        f"{row}, {frames} frames: {part} by what is there",
                    )
                    say(
                        {geometry.index_of(*it[:3]): it[3] for it in store.residency()} == table,
                        f"{row}: a look-up loads nothing",
                    )
                    what = f"{row}, {frames} frames: {part}"
                    # A page needs a frame for itself and for each page above it.
                    if store.levels - level > frames:
                        refused(vtex, 2, what, lambda: store.region(*part))
                    else:
                        say(store.region(*part) == part_of(own, *part), what)
                    held = [it[3] for it in store.residency()]
                    say(
                        len(held) == len(set(held)) <= frames and max(held) < frames,
                        f"{row}: each page has a frame of its own: {held}",
                    )
                say(store.region(0, 0, 0, 0, 1) == b"", "an empty part")
                for part in (
                    (0, 0, 0, store.width + 1, 1),
                    (0, store.width, 0, 1, 1),
                    (0, 0, store.height, 1, 1),
                    (0, -1, 0, 1, 1),
                    (store.levels, 0, 0, 1, 1),
                    (-1, 0, 0, 1, 1),
                ):
                    refused(vtex, 2, f"{row}: {part}", lambda: store.region(*part))
            refused(vtex, 4, "a closed store", lambda: store.region(0, 0, 0, 1, 1))
            store.close()
    # A whole level through few frames: 300x200 at a tile side of 16 has six levels.
    with open("0.vts", "rb") as file:
        own = Store(file.read())
    for frames in (6, 7, 25):
        with vtex.Store("0.vts", frames) as store:
            whole = store.region(0, 0, 0, 300, 200)
            say(whole == part_of(own, 0, 0, 0, 300, 200), f"a level by {frames} frames")
            say(len(store.residency()) <= frames, f"a level by {frames} frames: {frames} at most")
    for frames in (0, 65536, -1):
        refused(vtex, 2, f"{frames} frames", lambda: vtex.Store("0.vts", frames))
    with vtex.Store("0.vts", 1) as store:
        refused(vtex, 2, "one frame, which is the root's", lambda: store.region(0, 0, 0, 1, 1))
        say(
            len(store.region(0, 0, 0, 300, 200, load=False)) == 3 * 300 * 200,
            "one frame, by the root",
        )
    with open("0.vts", "rb") as file:
        data = file.read()
    for name, flaw in (
        ("short", data[:-1]),
        ("long", data + b"x"),
        ("other", b"P6" + data[2:]),
        ("empty", b""),
    ):
        with open(name, "wb") as file:
            file.write(flaw)
        refused(vtex, 5, f"a file that is {name}", lambda: vtex.Store(name))
    try:
        vtex.Store("none")
        say(False, "no file")
    except OSError as error:
        say("none" in str(error), "no file")
    # A store that loses its tiles while it is open.
    shutil.copy("0.vts", "lost.vts")
    with vtex.Store("lost.vts", 40) as store:
        os.truncate("lost.vts", 1000)
        try:
            store.region(0, 200, 100, 50, 50)
            say(False, "tiles that are gone")
        except OSError as error:
            say("lost.vts" in str(error), "tiles that are gone")
        shutil.copy("0.vts", "lost.vts")
        say(
            store.region(0, 200, 100, 50, 50) == part_of(Store(data), 0, 200, 100, 50, 50),
            "tiles that are back",
        )
    if importlib.util.find_spec("numpy"):
        with vtex.Store("1.vts") as store:
            array, flat = store.array(0, 3, 2, 5, 4), store.region(0, 3, 2, 5, 4)
            say(
                array.shape == (4, 5, 3)
                and [int(it) for it in array.reshape(-1)]
                == [int.from_bytes(flat[at : at + 2], "big") for at in range(0, len(flat), 2)],
                "as an array",
            )
    else:
        print("left out: arrays, for numpy is not installed")


def try_command(command, name):
    for place in (0, 1):
        with open(f"{place}.vts", "rb") as file:
            own = Store(file.read())
        for part in ((0, 3, 5, 200, 100), (1, 0, 0, 100, 60), (2, 64, 31, 1, 1)):
            head = b"P6\n%d %d\n%d\n" % (part[3], part[4], 256**own.depth - 1)
            status, out, _ = command(f"{place}.vts", *map(str, part))
            say(
                status == 0 and out == head + part_of(own, *part),
                f"{name}: {place}.vts {part}: status {status}",
            )
    status, _, error = command("0.vts", "0", "0", "0", "301", "1")
    say(
        status == 1 and (b"2" in error or b"outside" in error),
        f"{name}: a part outside: {status} {error}",
    )
    status, _, error = command("none", "0", "0", "0", "1", "1")
    say(status == 1 and error, f"{name}: no file: {status} {error}")
    status, _, error = command("0.vts")
    say(status == 2 and b"usage" in error, f"{name}: too few words: {status} {error}")


def by_python(*words):
    ran = subprocess.run(
        [sys.executable, os.path.join(BINDINGS, "vtex.py"), *words]
        + ["part.ppm"] * (len(words) == 6),
        stdout=subprocess.PIPE,
        stderr=subprocess.PIPE,
    )
    with open("part.ppm" if ran.returncode == 0 else os.devnull, "rb") as file:
        return ran.returncode, file.read(), ran.stderr


def by_rust(*words):
    ran = subprocess.run(["./vtex_rs", *words], stdout=subprocess.PIPE, stderr=subprocess.PIPE)
    return ran.returncode, ran.stdout, ran.stderr


def main():
    missing = "gcc" if not shutil.which("gcc") else None if artefacts.library() else "libvtex_c.a"
    if missing:
        print(f"left out: everything, since {missing} is not here")
        print("0 passed, 0 failed")
        return 0
    with tempfile.TemporaryDirectory() as room:
        os.chdir(room)
        words = artefacts.library_words(room)
        made = [
            "gcc",
            "-shared",
            "-o",
            "libvtex.so.1",
            "-Wl,--whole-archive",
            words[0],
            "-Wl,--no-whole-archive",
            *words[1:],
        ]
        subprocess.run(made, check=True)
        os.environ["VTEX_LIBRARY"] = os.path.join(room, "libvtex.so.1")
        sys.path.insert(0, BINDINGS)
        import vtex

        make_stores()
        try_python(vtex)
        try_command(by_python, "vtex.py")
        if shutil.which("rustc"):
            shutil.copy(words[0], "libvtex_c.a")
            flags = ["-L", room, "-l", "static=vtex_c", *(f"-Clink-arg={it}" for it in words[1:])]
            made = subprocess.run(
                [
                    "rustc",
                    "-O",
                    "-Dwarnings",
                    os.path.join(BINDINGS, "vtex.rs"),
                    "-o",
                    "vtex_rs",
                    *flags,
                ],
                stdout=subprocess.PIPE,
                stderr=subprocess.STDOUT,
                text=True,
            )
            say(made.returncode == 0, "vtex.rs is compiled: " + made.stdout)
            if made.returncode == 0:
                try_command(by_rust, "vtex.rs")
        else:
            print("left out: vtex.rs, for rustc is not installed")
        os.environ["VTEX_LIBRARY"] = "none.so"
        ran = subprocess.run(
            [sys.executable, os.path.join(BINDINGS, "vtex.py"), "0.vts", *"01111", "x.ppm"],
            stderr=subprocess.PIPE,
            text=True,
        )
        say(ran.returncode == 1 and "dist/install.sh" in ran.stderr, "no library: " + ran.stderr)
        os.chdir("/")
    print(f"{passed} passed, {failed} failed")
    return 1 if failed else 0


if __name__ == "__main__":
    sys.exit(main())
