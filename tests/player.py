#!/usr/bin/env python3
"""Compares the pictures that the player in examples/viewer draws from stores, paths and journals with those of the independent programs here and, where it
is built, of the program; and opens the player in headless Chromium.

usage: player.py [--node | --short] [--program PROGRAM] [--cases N] [--seed N] [--shots FOLDER]

(crates/vtex/out/vtex, 400 cases of another seed each time, and no screenshot where they are not given; the screenshot wants the program)

In node: worked paths, stores and journals with their flaws; random ones, of which most have parts of their grammar changed (hostile/mutations.py); and walks
of the reference, live and settled, of both depths, with lost pages and with rows at any versions that a journal allows, each drawn by both filters. The
pictures have to be those of journals.py and of client.py, byte for byte, and so do walks and replays of the program. In Chromium: player_page.py.

`--node`: without Chromium. `--short`: 40 random cases, and in Chromium some of the checks, in half a minute. The numbers of cases are those without `--cases`.

What needs node, Chromium or the program is skipped, and said to be, where they are not there. It prints a line for each check that failed or was skipped,
and at last how many passed and failed. The status is 0 where none failed.
"""
import argparse
import json
import os
import random
import shutil
import subprocess
import sys
import tempfile

here = os.path.dirname(os.path.abspath(__file__))
top = os.path.dirname(here)
sys.path[:0] = [here, os.path.join(here, "soak"), os.path.join(here, "hostile")]

from cases import replay_case
from client import pictures_of
from journals import Journal, replay
from mutations import Mutations, is_small
from real_rows import JOURNALS, PATHS, STORE_FLAWS, WALK_PATH
from rows import FOUR_STORE
from stores import BILINEAR, NEAREST, Flaw, Path, Store, contents
from textures import chain_of, made, read_image, store_of
from walks import SHARED, Settings, Shuffled, Walk, walked

NAMES = {"store": "s.vts", "path": "p.path", "journal": "j.txt"}
FOUR_PATH = b"size 2 1\nfocal 1\nat 0 0 256 16384 0\n"
# Journals of pictures of three rows over the store of four texels a side, and how many pictures they give or why they are refused.
THREE_PATH = b"size 2 3\nfocal 1\nat 0 0 256 16384 0\n"
THREE = "map 1 1 0 0 0\npass 1 picture 0 start 1\nrow 0 0 1\nrow 1 63 1\nrow 2 7 1\npass 2 picture 0 start 1\n"
THREE_ROWS = "row 0 0 2\nrow 1 0 2\nrow 2 0 2\n"
EDGES = [
    (THREE + "map 2 0 0 0 65534\n" + THREE_ROWS, 1),
    (THREE + "map 2 0 0 0 65535\n" + THREE_ROWS, "bad line 7"),
    (THREE + "map 2 0 1 1 1\nrow 0 0 2\nrow 1 1 1\nrow 2 0 2\n", 1),
    (THREE + "map 2 0 1 1 1\nrow 0 0 2\nrow 1 1 1\nrow 2 0 1\n", "bad line 10"),
    (THREE + "map 2 0 1 1 1\nrow 0 0 3\n", "bad line 8"),
    (THREE + "map 2 0 0 0 1\nmap 3 0 1 1 1\n", "bad line 8"),
    (THREE + "map 2 0 0 0 1\nmap 3 0 0 0 2\n", "bad line 8"),
    (THREE + "map 2 0 0 0 1\nlost 0 0 0\n", "bad line 8"),
    (THREE + "unmap 2 0 0 0 1\n", "bad line 7"),
    (THREE + "unmap 2 1 0 0 0\n", "bad line 7"),
    (THREE + "lost 0 1 1\nrow 0 0 1\nrow 1 0 1\nrow 2 0 1\n", 1),
    (THREE + "row 0 0 1\nlost 0 1 1\n", "bad line 8"),
    (THREE + "row 0 0 1\nmap 2 0 1 1 1\n", "bad line 8"),
    (THREE + "row 0 0 1:\n", "bad line 7"),
    (THREE + "row 0 0 1/\n", "bad line 7"),
    (THREE + "row 0 0 01\n", "bad line 7"),
    ("map 1 0 1 1 0\nmap 2 1 0 0 1\npass 1 picture 0 start 2\nunmap 3 0 1 1 0\n", "bad line 4"),
    ("map 1 0 1 1 0\nmap 2 1 0 0 1\nmap 3 0 0 0 2\n", "bad line 3"),
    ("map 1 0 0 1 0\nmap 2 1 0 0 1\n", "bad line 2"),
    ("lost 0 0 0\n", "bad line 1"),
]
TURNS = "size 9 12\nfocal 7\nat -300 -300 2000 -16384 3\nto 6 9000 -9000 60000 0 -16384\nat 2147483648 -2147483648 16777216 16384 -16384\n"

# What a walk is over: the sides, the seed and the maximum of its texture, the tile side, the path, the settings, and the numbers of the reads that fail.
WALKS = [
    ("live", (200, 119, 4, 255), 16, WALK_PATH, Settings(frames=60, batch=8), ()),
    ("live, lost pages", (200, 119, 4, 255), 16, WALK_PATH, Settings(frames=60, samplers=7, batch=5), (3, 4, 11, 30)),
    ("live, rows shared", (200, 119, 4, 255), 8, WALK_PATH, Settings(frames=99, samplers=5, batch=30, scheduling=SHARED), (7,)),
    ("settled", (200, 119, 4, 255), 16, WALK_PATH, Settings(frames=130, batch=16, pinned=2, settled=True), ()),
    ("settled by blends", (130, 257, 5, 255), 8, WALK_PATH, Settings(frames=500, batch=64, settled=True, filtering=BILINEAR), ()),
    ("live, two bytes a sample", (130, 257, 5, 65535), 32, WALK_PATH, Settings(frames=30, batch=3), (2,)),
    ("settled by blends, two bytes a sample", (65, 63, 6, 65535), 4, TURNS, Settings(frames=900, batch=200, settled=True, filtering=BILINEAR), ()),
    ("one texel", (1, 1, 7, 65535), 2, TURNS, Settings(frames=1), ()),
    ("a row of texels", (300, 1, 8, 255), 2, TURNS, Settings(frames=40, batch=9), (1, 2)),
]


class Checks:
    """What was found."""

    def __init__(self):
        self.passed = self.failed = 0

    def say(self, good, what):
        self.passed, self.failed = self.passed + bool(good), self.failed + (not good)
        if not good:
            print("failed: " + what, flush=True)

    def skip(self, what):
        print("skipped: " + what, flush=True)


class Node:
    """Draws the pictures of walks by the player's modules; the process of player.mjs."""

    def __init__(self, folder):
        self.folder = folder
        words = ["node", os.path.join(here, "player.mjs")]
        self.process = subprocess.Popen(words, stdin=subprocess.PIPE, stdout=subprocess.PIPE, text=True)

    def draw(self, filtering, names=NAMES):
        """The pictures, or the line of a refusal as the program has it behind `vtex: bad input: `."""
        names = {kind: os.path.join(self.folder, name) for kind, name in names.items()}
        prefix = os.path.join(self.folder, "n")
        self.process.stdin.write(json.dumps(dict(names, prefix=prefix, filter=filtering)) + "\n")
        self.process.stdin.flush()
        answer = json.loads(self.process.stdout.readline())
        if "flaw" in answer:
            return "%s: %s" % (os.path.basename(names[answer["file"]]), answer["flaw"])
        if answer.get("wrong") != 0:
            return "pixels explained otherwise: %s" % answer
        return [contents("%s%04d.ppm" % (prefix, number)) for number in range(answer["written"])]

    def close(self):
        self.process.stdin.close()
        self.process.wait()


def write(name, data):
    with open(name, "wb") as file:
        file.write(data)


def write_walk(store, path, journal):
    for kind, data in (("store", store), ("path", path), ("journal", journal)):
        write(NAMES[kind], data)


def due_of(filtering):
    """The pictures that the reference draws of the walk in the folder, or the line by which it refuses it."""
    kind = "path"
    try:
        path = Path(contents(NAMES[kind]), filtering)
        kind = "store"
        store = Store(contents(NAMES[kind]))
        kind = "journal"
        return replay(store, path, Journal(store.geometry, path.height, contents(NAMES[kind]), len(path.cameras)))
    except Flaw as flaw:
        return "%s: %s" % (NAMES[kind], flaw)


def try_tables(check, node):
    """The worked paths, stores and journals with the flaws that they have."""
    head = b"map 1 1 0 0 0\n"
    for text, answer in PATHS:
        write_walk(FOUR_STORE, text.encode(), head)
        check.say(node.draw(NEAREST) == ([] if isinstance(answer, int) else "p.path: " + answer), "path %r" % text)
    for what, magic, length, flaw in STORE_FLAWS:
        write_walk((magic + FOUR_STORE[4:] + b"x")[:length], FOUR_PATH, head)
        check.say(node.draw(NEAREST) == "s.vts: " + flaw, what)
    write_walk(FOUR_STORE, FOUR_PATH + b"to 9998 0 0 256 16384 0\n", head)
    check.say(node.draw(NEAREST) == [], "a path of 9,999 pictures")
    for route, text, answer in [(FOUR_PATH, *row) for row in JOURNALS] + [(THREE_PATH, *row) for row in EDGES]:
        write_walk(FOUR_STORE, route, text.encode())
        found, due = node.draw(NEAREST), due_of(NEAREST)
        check.say(found == due, "journal %r: %s is due" % (text, due))
        check.say(len(found) == answer if isinstance(answer, int) else found == "j.txt: " + answer, "journal %r" % text)


def try_case(check, node, program, seed):
    """A replay of small inputs, of which one is mutated mostly."""
    make, case = Mutations(seed), None
    while case is None or not is_small(case):
        make.damages = []
        case = replay_case(make)
        make.mutate(case)
    if sorted(case.inputs) != sorted(NAMES.values()) or None in case.inputs.values():
        return
    write_walk(*(case.inputs[NAMES[kind]] for kind in ("store", "path", "journal")))
    filtering = BILINEAR if BILINEAR in case.words else NEAREST
    due, found = due_of(filtering), node.draw(filtering)
    check.say(found == due, "case of seed %d: %s" % (seed, found if isinstance(found, str) else due if isinstance(due, str) else "pictures"))
    if not isinstance(due, str):
        check.say(list(pictures_of(*NAMES.values(), filtering)) == due, "case of seed %d: client.py" % seed)
    if program:
        check.say(program_draws(program, filtering) == found, "case of seed %d: the program" % seed)


def make_walk(sides, tile, route, settings, lost, seed=1):
    """The bytes of the store, the path and the journal of a walk, whose rows have any versions that they may have."""
    depth, rows = read_image(made(*sides))
    store, path = store_of(depth, chain_of(rows, tile), tile), route.encode()
    walk = Walk(Store(store).geometry, Path(path, settings.filtering), settings)
    return store, path, walked(walk, Shuffled(seed), lost)[0]


def try_walk(check, node, program, what, *walk):
    write_walk(*make_walk(*walk))
    for filtering in (NEAREST, BILINEAR):
        due, found, title = due_of(filtering), node.draw(filtering), "%s, drawn by %s" % (what, filtering)
        check.say(bool(due) and not isinstance(due, str) and found == due, title)
        check.say(list(pictures_of(*NAMES.values(), filtering)) == due, title + ": client.py")
        if program:
            check.say(program_draws(program, filtering) == due, title + ": the program")


def program_draws(program, filtering):
    """The pictures of `vtex replay`, or the line of its refusal behind `vtex: bad input: `."""
    words = [program, "replay", *NAMES.values(), "v", "--filter", filtering]
    ran = subprocess.run(words, stdin=subprocess.DEVNULL, stdout=subprocess.PIPE, stderr=subprocess.PIPE, text=True)
    if ran.returncode != 0:
        return ran.stderr.removeprefix("vtex: bad input: ").removesuffix("\n")
    return [contents("v%04d.ppm" % k) for k in range(int(ran.stdout.split()[-1]))]


def try_program(check, node, program):
    """Walks of the program, live and settled, of both depths and by each machine: the player's pictures are the walk's, and those of `vtex replay`."""
    run = lambda words: subprocess.run([program, *words.split()], stdin=subprocess.DEVNULL, stdout=subprocess.DEVNULL).returncode
    write("p.path", b"size 160 100\nfocal 80\nat 0 0 65536 16384 0\nto 7 131072 65536 16384 11585 11585\n")
    check.say(run("gen 7 700 500 t.ppm") == run("tile t.ppm narrow.vts --tile 16") == run("upgrade narrow.vts wide.vts") == 0, "gen, tile, upgrade")
    for store in ("narrow.vts", "wide.vts"):
        shutil.copyfile(store, "s.vts")
        for options in ("", "--rows shared --samplers 9", "--table swap", "--filter bilinear", "--settled", "--settled --filter bilinear"):
            filtering, title = BILINEAR if BILINEAR in options else NEAREST, "program: walk over %s %s" % (store, options)
            good = run("walk s.vts p.path w --journal j.txt --frames 700 --batch 24 " + options) == 0
            found = node.draw(filtering)
            check.say(good and found == [contents("w%04d.ppm" % k) for k in range(8)], title)
            check.say(found == program_draws(program, filtering), title + ": replay")


def main():
    parser = argparse.ArgumentParser(usage=__doc__.split("\n")[3].removeprefix("usage: "))
    parser.add_argument("--program", default=os.path.join(top, "crates", "vtex", "out", "vtex"))
    parser.add_argument("--node", action="store_true")
    parser.add_argument("--short", action="store_true")
    parser.add_argument("--cases", type=int)
    parser.add_argument("--seed", type=int, default=random.randrange(10**9))
    parser.add_argument("--shots")
    options = parser.parse_args()
    shots = options.shots and os.path.abspath(options.shots)
    if options.cases is None:
        options.cases = 40 if options.short else 400
    check, program = Checks(), os.path.abspath(options.program)
    if not os.access(program, os.X_OK):
        program = check.skip("what compares with the program, which is not built: " + program)
    with tempfile.TemporaryDirectory(prefix="vtex-player-") as folder:
        os.chdir(folder)
        try_node(check, program, options, folder) if shutil.which("node") else check.skip("the player in node, which is not installed")
        if not options.node:
            try_page(check, program, shots, options.short)
        os.chdir(top)
    print("player: %d passed, %d failed" % (check.passed, check.failed))
    return 1 if check.failed else 0


def try_node(check, program, options, folder):
    node = Node(folder)
    try_tables(check, node)
    for seed in range(options.seed, options.seed + options.cases):
        try_case(check, node, program, seed)
    for walk in WALKS:
        try_walk(check, node, program, *walk)
    if program:
        try_program(check, node, program)
    node.close()


def try_page(check, program, shots, is_short):
    try:
        import browser
    except ImportError as error:
        return check.skip("the player in Chromium: %s" % error)
    if not browser.find():
        return check.skip("the player in Chromium, which is not installed")
    import player_page

    return player_page.try_page(check, make_walk, program, shots, is_short)


if __name__ == "__main__":
    sys.exit(main())
