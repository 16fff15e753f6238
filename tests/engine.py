#!/usr/bin/env python3
"""Builds and runs the tests of the cache for engines, and the example engine, whose pictures, changes and counts it compares.

usage: engine.py [PROGRAM]

The static library is the one of dist/, or of crates/vtex_c/out, where `rt lib` puts it, if that is newer. Everything is built by gcc and g++, and a
second time with -fsanitize=address,undefined; the readers of a shared table a third time with -fsanitize=thread. PROGRAM is the built vtex,
that of dist/ or crates/vtex/out/vtex where it is left out.

The engine draws each row at the start of its pass and has one sampler and one loader. So has the walk of reference.py, and all of both is compared byte
for byte: pictures, journal and log. A live walk of the program may draw a row at any version of its pass. Of that walk the journal without the versions
of its rows and the log are the engine's, and so are the pictures that the program's journal shows once its rows stand at their passes' starts; these are
drawn by `vtex replay`. A path whose last camera stands still long enough is settled at its end: the last picture is that of a settled walk.
"""
import os
import re
import subprocess
import sys
import tempfile

import artefacts

TOP = artefacts.TOP
REFERENCE = [sys.executable, os.path.join(TOP, "tests", "reference.py")]
WARNINGS = ["-O2", "-g", "-Wall", "-Wextra", "-Werror", "-I" + os.path.join(TOP, "include")]
SANITIZERS = ["-fsanitize=address,undefined", "-fno-sanitize-recover=all"]
RACES = ["-fsanitize=thread"]
REFUSING = ["-Wl,--wrap=malloc,--wrap=realloc,--wrap=free"]
STILL = "size 2 1\nfocal 1\nat 0 0 256 16384 0\nat 0 0 256 16384 0\nat 512 0 256 16384 0\nat 512 0 256 16384 0\n"
SLANTED = "size 60 40\nfocal 30\nat 1792 0 20480 16384 0\nto 9 60000 9000 30480 14000 6000\nat -5000 77 4096 0 -16384\nto 5 9000 -9000 70000 -11585 11585\n"
ENDING = "size 40 30\nfocal 20\nat 300 -5000 20480 -3000 16000\nto 20 300 -5000 20480 -3000 16000\nto 30 9000 5000 20480 -3000 16000\n" + 40 * "at 9000 5000 20480 -3000 16000\n"

# The store's number, sides and tile; the path; and the options of a walk.
WALKS = [
    (0, 4, 4, 2, STILL, ["--frames", "3", "--batch", "2"]),
    (0, 4, 4, 2, STILL, ["--frames", "2", "--batch", "64"]),
    (7, 300, 200, 16, SLANTED, ["--frames", "20", "--batch", "6"]),
    (7, 300, 200, 16, SLANTED, ["--frames", "64", "--batch", "64", "--pinned", "3"]),
    (3, 257, 130, 8, SLANTED, ["--frames", "12", "--batch", "3", "--pinned", "2"]),
    (1, 65, 33, 4, ENDING, ["--frames", "300", "--batch", "16"]),
    (1, 65, 33, 4, ENDING, ["--frames", "40", "--batch", "5", "--lost", "4"]),
]

# What the smallest program of the cache prints.
CACHE_SAYS = "map page 4, frame 0\nload page 0\nload page 1\nmap page 0, frame 1\nmap page 1, frame 2\n"

# Readers, milliseconds, the texture's sides, the tile's, the frames and the depth of a shared table.
SHARED = [
    ("3", "400", "1000", "700", "16", "60", "1"),
    ("5", "200", "300", "257", "8", "24", "2"),
    ("1", "100", "64", "64", "4", "5", "1"),
]

passed, failed = 0, 0
# What is linked for the library; main() finds it.
LIBRARIES = []


def say(good, what):
    global passed, failed
    passed, failed = passed + bool(good), failed + (not good)
    if not good:
        print("failed: " + what)


def run(*words):
    return subprocess.run(words, stdout=subprocess.PIPE, stderr=subprocess.PIPE)


def contents(name):
    with open(name, "rb") as file:
        return file.read()


def build(compiler, source, name, *flags):
    made = run(*compiler, *WARNINGS, os.path.join(TOP, source), *LIBRARIES, *flags, "-o", name)
    say(made.returncode == 0 and not made.stderr, "building %s: %s" % (name, made.stderr.decode()))
    return made.returncode == 0


def build_all():
    for name in ("geometry", "cache", "table", "promises", "own_heap"):
        source = "tests/engine/%s.c" % name
        build(["gcc"], source, name)
        build(["gcc"], source, name + "_checked", *SANITIZERS)
    build(["gcc"], "tests/engine/refused.c", "refused", *REFUSING)
    for name, flags in (("shared", []), ("shared_checked", SANITIZERS), ("shared_raced", RACES)):
        build(["g++", "-std=c++17"], "tests/engine/shared.cpp", name, "-pthread", *flags)
    build(["g++", "-std=c++17"], "examples/engine/engine.cpp", "engine", "-pthread")
    build(["g++", "-std=c++17"], "examples/engine/engine.cpp", "engine_checked", "-pthread", *SANITIZERS)
    for name, flags in (("streaming", []), ("streaming_checked", SANITIZERS), ("streaming_raced", RACES)):
        build(["g++", "-std=c++17"], "examples/engine/streaming.cpp", name, "-pthread", *flags)


def try_calls():
    for name in ("geometry", "geometry_checked", "cache", "cache_checked", "table", "table_checked", "promises", "promises_checked", "own_heap", "own_heap_checked", "refused"):
        try_call("./" + name)
    for name in ("shared", "shared_checked", "shared_raced"):
        for words in SHARED:
            try_call("./" + name, *words)


def try_call(*words):
    ran = run(*words)
    say(ran.returncode == 0 and not ran.stderr, "%s: %s" % (" ".join(words), (ran.stdout + ran.stderr).decode()))


def smallest():
    """The two programs of docs/ENGINES.md."""
    with open(os.path.join(TOP, "docs", "ENGINES.md"), encoding="utf-8") as file:
        programs = re.findall(r"^```(c|cpp)\n(.*?)^```", file.read(), re.DOTALL | re.MULTILINE)
    said = {"c": CACHE_SAYS, "cpp": "version 2: 9 8, of pages 0 and 1\n"}
    say(sorted(kind for kind, _ in programs) == sorted(said), "two smallest programs")
    for kind, source in programs:
        name = "smallest_" + kind
        with open(name + "." + kind, "w") as file:
            file.write(source)
        build(["gcc"] if kind == "c" else ["g++", "-std=c++17"], os.path.abspath(name + "." + kind), name, "-pthread", *SANITIZERS)
        ran = run("./" + name)
        say(ran.returncode == 0 and ran.stdout.decode() == said[kind] and not ran.stderr, name + ": " + (ran.stdout + ran.stderr).decode())


def pictures(prefix, count):
    return [contents("%s%04d.ppm" % (prefix, k)) for k in range(count)]


def at_starts(journal):
    """A journal whose rows are drawn at the starts of their passes."""
    lines, start = [], b"0"
    for line in journal.splitlines():
        fields = line.split(b" ")
        start = fields[5] if fields[0] == b"pass" else start
        lines.append(b" ".join(fields[:3] + [start]) if fields[0] == b"row" else line)
    return b"".join(line + b"\n" for line in lines)


def walk(number, row, program):
    """Compares the engine's walk with that of reference.py and, where it has no lost read, with the program's."""
    seed, width, height, tile, text, options = row
    store, path, count = "store%d" % number, "path%d" % number, 0
    run(*REFERENCE, "gen", str(seed), str(width), str(height), "texture.ppm")
    run(*REFERENCE, "tile", "texture.ppm", store, str(tile))
    with open(path, "w") as file:
        file.write(text)
    crew = ["--samplers", "1", "--loaders", "1"]
    wanted = run(*REFERENCE, "walk", store, path, "want.", "want.txt", *options, *crew)
    count = wanted.stdout.count(b"picture ")
    own = [word.replace("--lost", "--lose") for word in options]
    for form, engine in (("counts", "./engine"), ("wanted", "./engine"), ("pages", "./engine"), ("pages", "./engine_checked")):
        ran = run(engine, store, path, "got.", "--journal", "got.txt", "--feedback", form, *own)
        what = "walk %d by %s, %s: " % (number, engine, form)
        say(ran.returncode == 0 and not ran.stderr, what + ran.stderr.decode())
        say(ran.stdout == wanted.stdout, what + "counts")
        say(contents("got.txt") == contents("want.txt"), what + "changes")
        say(pictures("got.", count) == pictures("want.", count), what + "pictures")
    if program and "--lost" not in options:
        for table in ("words", "swap"):
            walk_of_program(number, program, store, path, options + crew + ["--table", table], count, wanted.stdout)


def walk_of_program(number, program, store, path, options, count, log):
    what = "walk %d by vtex, %s: " % (number, options[-1])
    ran = run(program, "walk", store, path, "prog.", "--journal", "prog.txt", *options)
    say(ran.returncode == 0 and ran.stdout == log, what + "counts")
    journal = at_starts(contents("prog.txt"))
    say(journal == contents("got.txt"), what + "changes")
    with open("starts.txt", "wb") as file:
        file.write(journal)
    run(program, "replay", store, path, "starts.txt", "starts.")
    say(pictures("starts.", count) == pictures("got.", count), what + "pictures at the starts of passes")


def stream(number, row, program):
    """The pictures of an engine that streams while it draws are those that replay makes of its journal."""
    store, path = "store%d" % number, "path%d" % number
    options = [word for word in row[5] if word not in ("--lost", "4")]
    for engine in ("./streaming", "./streaming_checked", "./streaming_raced"):
        for crew in (["--drawing", "1", "--loading", "1", "--spare", "0"], ["--drawing", "4", "--loading", "3"]):
            ran = run(engine, store, path, "live.", "--journal", "live.txt", *options, *crew)
            what = "streaming %d by %s, %s: " % (number, engine, crew)
            say(ran.returncode == 0 and not ran.stderr, what + ran.stderr.decode())
            count = int(ran.stdout.split()[2]) if ran.returncode == 0 else 0
            again = run(*REFERENCE, "replay", store, path, "live.txt", "again.")
            say(again.returncode == 0 and pictures("live.", count) == pictures("again.", count), what + "the replay of reference.py")
            if program:
                again = run(program, "replay", store, path, "live.txt", "once.")
                say(again.returncode == 0 and pictures("live.", count) == pictures("once.", count), what + "the replay of vtex")


def settle(number, row):
    """The engine's last picture, where loads stay under way for some passes, is that of a settled walk."""
    seed, width, height, tile, text, options = row
    store, path = "store%d" % number, "path%d" % number
    settled = run(*REFERENCE, "walk", store, path, "set.", "set.txt", "--settled", *options)
    last = settled.stdout.count(b"picture ") - 1
    for slow in ("0", "1", "3"):
        ran = run("./engine_checked", store, path, "slow.", "--journal", "slow.txt", "--slow", slow, *options)
        say(ran.returncode == 0 and not ran.stderr, "slow %s: %s" % (slow, ran.stderr.decode()))
        say(contents("slow.%04d.ppm" % last) == contents("set.%04d.ppm" % last), "slow %s: the last picture" % slow)


def main():
    program = os.path.abspath(sys.argv[1]) if len(sys.argv) > 1 else artefacts.program()
    if program is None or not os.access(program, os.X_OK):
        print("no program at %s: the walks are compared with reference.py alone" % program)
        program = None
    with tempfile.TemporaryDirectory() as work:
        os.chdir(work)
        LIBRARIES[:] = artefacts.library_words(work)
        build_all()
        try_calls()
        smallest()
        for number, row in enumerate(WALKS):
            walk(number, row, program)
            stream(number, row, program)
        settle(5, WALKS[5])
    print("%d passed, %d failed" % (passed, failed))
    sys.exit(failed > 0)


if __name__ == "__main__":
    main()
