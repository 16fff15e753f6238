#!/usr/bin/env python3
"""Runs the built program on real files and compares its pictures, stores and journals byte for byte with those of independent programs.

usage: real_files.py [--without-engine] [PROGRAM]     (that of dist/, or crates/vtex/out/vtex if that is newer, where it is left out)

Part of the gate. Each row of the tables of real_rows.py and real_runs.py is tried in a folder of its own, several at once; `Checks` says what that
folder holds before. The results are compared with those of the modules behind reference.py, which are called here, with those of client.py, with what
was worked by hand, and for large textures with those of tiles.c, which wants gcc. Where g++ is installed engine.py is run, and where netpbm,
ImageMagick or ffmpeg are, textures of theirs are read. It prints a line for each check that failed and for each that was skipped, and at last how
many passed and failed. The status is 0 where none failed.
"""
import contextlib
import filecmp
import glob
import io
import os
import resource
import shutil
import subprocess
import sys
import tempfile
from concurrent.futures import ProcessPoolExecutor

import artefacts
import client
from journals import Journal, replay
from judge import FAULT, LINES, Doubt, Left, flaws_of_walk
from real_rows import BLANKS, DEFAULTS, GENERATED, HEAD, JOURNALS, KEYS, LARGE_OTHERS, LARGE_PATH, LARGE_STORES, LONG_SIDES, NO_STORES, ODD, OPTIONS
from real_rows import OTHERS, PATHS, PICTURES, READ_WORDS, REFUSALS, REFUSED_TEXTURES, REFUSED_WORDS, STORE_FLAWS, STORES, TEXTURES, WALKS, bad_input
from real_runs import ALONE, FLIGHTS, LEAST, MANY, RUNS, SHOWN, TOUR, WALKED
from reference import walk_words, write
from rows import FOUR_STORE, wrong_rows
from stores import Path, Store, contents
from textures import MOST_TILED_SIDE, chain_of, generated, has_texels, made, noise, picture_of, read_image, store_of, upgraded
from walks import Still, Walk, trial, walked

HERE = os.path.dirname(os.path.abspath(__file__))
TOP = os.path.dirname(HERE)
CRATE = os.path.join(TOP, "crates", "vtex")


def held():
    """What stands in the folder."""
    return {name: contents(name) for name in os.listdir()}


class Checks:
    """What was found by one row, in a folder that holds g4.ppm, a.path, and two stores of 4x4 texels: g4.vts, which is that of g4.ppm in tiles of 2x2
    texels, and g64.vts in one of 64x64."""

    def __init__(self, program, tiler):
        self.program, self.tiler, self.passed, self.failed, self.lines = program, tiler, 0, 0, []
        for name in ("g4.ppm", "a.path"):
            shutil.copyfile(os.path.join(CRATE, "data", name), name)
        write("g4.vts", FOUR_STORE)
        write("g64.vts", FOUR_STORE[:15] + bytes([64]) + bytes(3 * 64 * 64))

    def say(self, good, what):
        self.passed, self.failed = self.passed + bool(good), self.failed + (not good)
        if not good:
            self.lines.append("failed: " + what)

    def skip(self, what):
        self.lines.append("skipped: " + what)

    def run(self, words, kibibytes=None, out=subprocess.PIPE):
        """A run of the program by these words, a list or a line that blanks cut, with no more memory than so many KiB."""
        limit = kibibytes and (lambda: resource.setrlimit(resource.RLIMIT_AS, (1024 * kibibytes,) * 2))
        words = words.split() if isinstance(words, str) else words
        return subprocess.run([self.program, *words], stdin=subprocess.DEVNULL, stdout=out, stderr=subprocess.PIPE, preexec_fn=limit)

    def refuses(self, words, status, line):
        """The program ends with this status and line, prints nothing else, and leaves the folder as it was."""
        before, ran = held(), self.run(words)
        return (ran.returncode, ran.stdout, ran.stderr) == (status, b"", line) and held() == before


def is_done(ran, out=b""):
    return (ran.returncode, ran.stdout, ran.stderr) == (0, out, b"")


def pictures(prefix):
    return [contents(name) for name in sorted(glob.glob(prefix + "[0-9]" * 4 + ".ppm"))]


def are_pictures(prefix, wanted):
    """The pictures of a prefix are these, and there is one."""
    return bool(wanted) and pictures(prefix) == wanted


def plain_pictures(texture, text, tile):
    path, (depth, rows) = Path(text.encode()), read_image(texture)
    levels = chain_of(rows, tile)
    return [picture_of(depth, levels, path, picture) for picture in range(len(path.cameras))]


def first_picture(check):
    """The first picture, with its bytes as they are written here by hand."""
    check.say(is_done(check.run("plain g4.ppm a.path f --tile 2"), b"end pictures 1\n"), "first picture: status, line or errors")
    check.say(are_pictures("f", [b"P6\n2 1\n255\n\015\015\015\001\001\001"]), "first picture: bytes")


def try_picture(check, number, width, height, tile, size, focal, camera, most):
    texture, text = made(width, height, number, most), "size %s\nfocal %d\nat %s\n" % (size, focal, camera)
    write("t.ppm", texture)
    write("t.path", text.encode())
    ran = check.run("plain t.ppm t.path got. --tile %d" % tile)
    good = is_done(ran, b"end pictures 1\n") and are_pictures("got.", plain_pictures(texture, text, tile))
    check.say(good, "picture %d: %s" % (number, (width, height, tile, size, focal, camera, most)))


def several_keys(check):
    texture = made(53, 40, 9, 255)
    write("way.ppm", texture)
    write("way.path", KEYS.encode())
    ran, wanted = check.run("plain way.ppm way.path got. --tile 4"), plain_pictures(texture, KEYS, 4)
    found = pictures("got.")
    check.say(is_done(ran, b"end pictures 13\n"), "several keys: the end line")
    check.say(found[:13] == wanted, "several keys: bytes")
    check.say(len(found) == 13, "several keys: no further picture")


def try_text(check, name, words, content, answer):
    """A path or a journal, whose pictures are counted or which is refused."""
    write(name, content.encode())
    if isinstance(answer, int):
        good = is_done(check.run(words), b"end pictures %d\n" % answer) and len(pictures("row")) == answer
    else:
        good = check.refuses(words, 4, bad_input(name, answer))
    check.say(good, "%s of %r: %s" % (name, content, answer))


def most_pictures(check):
    """As many pictures as a path may have, of one pixel, over one texel."""
    dot = made(1, 1, 5, 255)
    write("dot.ppm", dot)
    write("most.path", b"size 1 1\nfocal 1\nat 0 0 256 16384 0\nto 9998 9 9 256 16384 0\n")
    os.mkdir("most")
    ran = check.run("plain dot.ppm most.path most/p --tile 2")
    check.say(is_done(ran, b"end pictures 9999\n") and len(os.listdir("most")) == 9999, "9,999 pictures: the end line and their number")
    check.say(are_pictures("most/p", [dot] * 9999), "9,999 pictures: bytes")


PLAIN, TILE = "plain row.ppm pixel.path row --tile 2", "tile row.ppm row.vts --tile 2"
# The same from so high that no texel of level 0 is wanted: then the texture is read by strips.
HIGHER = "plain row.ppm higher.path row --tile 2"


def write_texture(data):
    """Writes the texture, a path whose one pixel shows the texture's first texel, and one of a pixel from higher."""
    write("row.ppm", data)
    write("pixel.path", b"size 1 1\nfocal 1\nat 0 0 256 0 0\n")
    write("higher.path", b"size 1 1\nfocal 1\nat 0 0 512 16384 0\n")


def try_refused_texture(check, data, by_plain, by_tile):
    write_texture(data)
    for words in (PLAIN, HIGHER):
        check.say(check.refuses(words, 4, bad_input("row.ppm", by_plain)), "texture %.40r by %s: %s" % (data, words, by_plain))
    if by_tile is not None:
        check.say(check.refuses(TILE, 4, bad_input("row.ppm", by_tile)), "the same by tile: %.40r: %s" % (data, by_tile))


def try_texture(check, data, texel):
    write_texture(data)
    ran = check.run(PLAIN)
    check.say(ran.returncode == 0 and (contents("row0000.ppm") or b"")[-len(texel) :] == texel, "texture %r" % data)
    ran = check.run(TILE)
    check.say(ran.returncode == 0 and (contents("row.vts") or b"")[16 : 16 + len(texel)] == texel, "the same by tile: %r" % data)


def from_other(command):
    """The texture that another program writes, or None where it is not here."""
    places = "/usr/bin:/bin:" + os.environ.get("PATH", "")
    magick = next(filter(None, (shutil.which(name, path=places) for name in ("magick", "convert-im6.q16", "convert"))), "none")
    quiet = {"stdin": subprocess.DEVNULL, "stdout": subprocess.DEVNULL, "stderr": subprocess.DEVNULL}
    subprocess.run(["bash", "-c", command], env=dict(os.environ, magick=magick), **quiet)
    return contents("other.ppm") or None


def texture_by(check, who, data):
    depth, rows = read_image(data)
    store = store_of(depth, chain_of(rows, 8), 8)
    write("other.ppm", data)
    write("way.path", KEYS.encode())
    ran = check.run("plain other.ppm way.path got. --tile 8")
    check.say(is_done(ran, b"end pictures 13\n") and are_pictures("got.", plain_pictures(data, KEYS, 8)), "plain of a texture by " + who)
    ran = check.run("tile other.ppm got.vts --tile 8")
    check.say(is_done(ran, Store(store).line()) and contents("got.vts") == store, "tile of a texture by " + who)


def try_other(check, who, command):
    data = from_other(command)
    if data is None:
        check.skip("a texture by %s, which is not here" % who)
    else:
        texture_by(check, who, data)


def texture_by_gimp(check):
    """A texture of the form that GIMP writes."""
    texture_by(check, "GIMP's writer (its form)", b"P6\n# Created by GIMP version 2.10.34 PNM plug-in\n21 13\n255\n" + made(21, 13, 77, 255)[-819:])


def large_texture_by(check, who, data, is_first):
    """A large texture of two bytes a sample: tiled, told, drawn and, the first of them, read back."""
    write("large.ppm", data)
    write("large.path", b"size 640 400\nfocal 300\nat -1000 77 204800 11585 -11585\n")
    check.say(data[:18].replace(b"\n", b" ") == b"P6 2048 2048 65535" and len(data) == 25165843, "a large texture by " + who)
    depth, rows = read_image(data)
    levels = chain_of(rows, 64)
    store = store_of(depth, levels, 64)
    line = Store(store).line()
    check.say(is_done(check.run("tile large.ppm got.vts --tile 64"), line) and contents("got.vts") == store, "its store, by " + who)
    check.say(is_done(check.run("info got.vts"), line), "info of its store, by " + who)
    if is_first:
        check.say(has_texels(Store(contents("got.vts")), depth, levels), "its store read back, by " + who)
    ran, wanted = check.run("plain large.ppm large.path got --tile 64"), picture_of(depth, levels, Path(contents("large.path")), 0)
    check.say(is_done(ran, b"end pictures 1\n") and are_pictures("got", [wanted]), "its picture, by " + who)


def large_textures(check):
    """Large textures by other programs, or else one by the independent program."""
    is_first = True
    for who, command in LARGE_OTHERS:
        data = from_other(command)
        if data is None:
            check.skip("a large texture by %s, which is not here" % who)
            continue
        large_texture_by(check, who, data, is_first)
        is_first = False
        os.remove("other.ppm")
    if is_first:
        large_texture_by(check, "the independent program", made(2048, 2048, 11, 65535), True)


def try_store(check, number, width, height, tile, most, is_for_c):
    """A store that is tiled, told and read back; where it has one byte a sample it is also upgraded."""
    texture = made(width, height, number, most)
    depth, rows = read_image(texture, MOST_TILED_SIDE)
    levels = chain_of(rows, tile)
    wanted = store_of(depth, levels, tile)
    line = Store(wanted).line()
    write("s.ppm", texture)
    ran = check.run("tile s.ppm s.vts --tile %d" % tile)
    check.say(is_done(ran, line) and contents("s.vts") == wanted, "store %d: %d %d %d %d" % (number, width, height, tile, most))
    check.say(is_done(check.run("info s.vts"), line), "info of store %d" % number)
    check.say(has_texels(Store(contents("s.vts")), depth, levels), "store %d read back" % number)
    if is_for_c and check.tiler:
        subprocess.run([check.tiler, "s.ppm", "c.vts", str(tile)])
        check.say(contents("c.vts") == wanted, "store %d by the program in C" % number)
        write("s.ppm", texture.replace(b"P6", b"P6\n# a comment, as vips writes one", 1))
        subprocess.run([check.tiler, "s.ppm", "d.vts", str(tile)])
        check.say(contents("d.vts") == wanted, "store %d by the program in C, with a comment" % number)
    if depth == 1:
        upgrade_of(check, "s.vts", "store %d" % number)


def widest(check):
    """The widest texture: all samples are 7, and so is every byte behind the store's header."""
    write("large.ppm", b"P6\n16384 2\n255\n" + b"\7" * 98304)
    ran, line = check.run("tile large.ppm got.vts --tile 2"), b"store 16384 2 tile 2 levels 14 pages 16383 bytes 196612\n"
    check.say(is_done(ran, line), "16384x2: the line")
    check.say(contents("got.vts")[16:] == b"\7" * 196596, "16384x2: bytes")


def try_large_store(check, what, width, height, depth, tile, kibibytes):
    if not check.tiler:
        check.skip("the store of a large texture, %s, since gcc is not here" % what)
        return
    with open("large.ppm", "wb") as file:
        file.writelines(noise(width, height, width, depth))
    ran = check.run("tile large.ppm got.vts --tile %d" % tile, kibibytes)
    other = subprocess.run([check.tiler, "large.ppm", "want.vts", str(tile)])
    check.say(ran.returncode == other.returncode == 0 and filecmp.cmp("want.vts", "got.vts", shallow=False), what)


def upgrade_of(check, name, what):
    """A store of one byte a sample, upgraded and told, and once more, which is refused."""
    wanted = upgraded(Store(contents(name)))
    line = Store(wanted).line()
    check.say(is_done(check.run("upgrade %s new.vts" % name), line) and contents("new.vts") == wanted, "upgrade of " + what)
    check.say(is_done(check.run("info new.vts"), line), "info of the upgraded " + what)
    good = check.refuses("upgrade new.vts again.vts", 4, bad_input("new.vts", "already wide"))
    check.say(good, "upgrade of the upgraded " + what)


def odd_upgrade(check):
    """A store whose texels are no chain, and whose tiles have other texels past the edges."""
    header, samples = store_of(1, chain_of(read_image(made(65, 63, 6, 255))[1], 8), 8), made(65, 63, 3, 255)[13:]
    write("noise.vts", (header[:16] + 3 * samples)[: len(header)])
    upgrade_of(check, "noise.vts", "a store that is no chain")


def large_upgrade(check):
    write("large.ppm", generated(9, 2048, 1024))
    check.run("tile large.ppm large.vts")
    upgrade_of(check, "large.vts", "a large store")


def try_store_flaw(check, what, magic, length, flaw):
    try_no_store(check, what, (magic + FOUR_STORE[4:] + b"x")[:length], flaw)


def try_no_store(check, what, data, flaw):
    write("cut.vts", data)
    for words in ("info cut.vts", "upgrade cut.vts new.vts", "walk cut.vts a.path no"):
        check.say(check.refuses(words, 4, bad_input("cut.vts", flaw)), "%s: %s" % (words, what))


def too_many_pages(check):
    """One page more than a store may have, and many more. The samples are looked over before the pages are counted."""
    for header, sample, flaw in [
        (b"P6\n1024 768\n255\n", b"\0", "too many pages 262145"),
        (b"P6\n1024 768\n254\n", b"\377", "sample over maximum at byte 16"),
        (b"P6\n8192 128\n255\n", b"\1", "too many pages 349567"),
    ]:
        write("wide.ppm", header + sample * (3 * 1048576 if b"8192" in header else 3 * 786432))
        check.say(check.refuses("tile wide.ppm wide.vts --tile 2", 4, bad_input("wide.ppm", flaw)), flaw)


def other_geometry(check):
    """A journal beside a store of another geometry, whose pages have other names."""
    write("j.txt", HEAD.encode())
    check.say(check.refuses("replay g64.vts a.path j.txt row", 4, bad_input("j.txt", "bad line 1")), "a journal beside another store")


def first_generated(check):
    """A texture of a number, with its bytes as they are written here by hand."""
    good = is_done(check.run("gen 1 2 1 got.ppm")) and contents("got.ppm") == b"P6\n2 1\n255\n\001\003\007\002\003\007"
    check.say(good, "gen 1 2 1")


def try_gen(check, number, width, height):
    words = "gen %d %d %d" % (number, width, height)
    check.say(is_done(check.run(words + " got.ppm")) and contents("got.ppm") == generated(number, width, height), words)


def largest_generated(check):
    """The largest texture of a number, made in less memory than it has bytes."""
    ran, found = check.run("gen 65535 8192 8192 got.ppm", 100000), contents("got.ppm")
    check.say(is_done(ran) and len(found) == 201326609 and found[-3:] == b"\xfe\xfc\xfa", "gen of the largest sides")


def try_option(check, what, words, other, name):
    """What is written and printed is the same by two lists of words."""
    long, short = check.run(words.replace("NAME", "long")), check.run(other.replace("NAME", "short"))
    found = [contents(name.replace("NAME", it)) for it in ("long", "short")]
    check.say(is_done(long, short.stdout) and is_done(short, long.stdout) and None not in found and found[0] == found[1], what)


def try_refusal(check, words, status, line):
    check.say(check.refuses(words, status, line), words)


def try_words(check, line, status):
    check.say(check.refuses(line.split(" "), status, LINES[status]), "the words %r" % line)


def full_output(check):
    """An output that takes nothing: the picture is there and the line is not."""
    with open("/dev/full", "wb") as full:
        ran = check.run("plain g4.ppm a.path h --tile 2", out=full)
    good = ran.returncode == 3 and ran.stderr == FAULT and are_pictures("h", [b"P6\n2 1\n255\n\015\015\015\001\001\001"])
    check.say(good, "an output that takes nothing")


def worked_rows(check):
    """The rows that were worked by hand, by the independent program alone."""
    found = wrong_rows()
    check.say(not found, "worked rows: " + "; ".join(found))


def walk_of(check, what, store_name, path_name, prefix, options):
    """A walk of the program that ends with status 0, and leaves nothing that the judge finds wrong; answers what it printed."""
    ran = check.run("walk %s %s %s --journal %s.txt %s" % (store_name, path_name, prefix, prefix, options))
    check.say(ran.returncode == 0 and not ran.stderr, what + ": status and errors")
    left = Left(ran.returncode, ran.stdout, ran.stderr).with_walk(contents(prefix + ".txt"), prefix)
    flaws = flaws_of_walk(store_name, path_name, walk_words(options.split())[1], left, Doubt())
    check.say(not flaws, "%s: %s" % (what, "; ".join(flaws)))
    return ran.stdout


def replays(check, what, store_name, path_name, prefix):
    """The replay of a walk's journal gives the walk's pictures, and so does a client that was written from the formats' page alone."""
    wanted = pictures(prefix)
    ran = check.run("replay %s %s %s.txt again" % (store_name, path_name, prefix))
    check.say(is_done(ran, b"end pictures %d\n" % len(wanted)) and are_pictures("again", wanted), "replay of the " + what)
    with contextlib.redirect_stdout(io.StringIO()) as printed:
        client.main(store_name, path_name, prefix + ".txt", "client")
    check.say(printed.getvalue() == "end pictures %d\n" % len(wanted) and are_pictures("client", wanted), "pictures of a client for the " + what)
    for name in glob.glob("again????.ppm") + glob.glob("client????.ppm"):
        os.remove(name)


def reference_walk(store_name, path_name, options):
    """The journal, the log and the pictures of the reference's walk, which has one loader that reads when all rows are drawn."""
    found, flight, settings = Store(contents(store_name)), Path(contents(path_name)), walk_words(options.split())[1]
    text, run = walked(Walk(found.geometry, flight, settings), Still())
    shown = replay(found, flight, Journal(found.geometry, flight.height, text))[: run.picture] if settings.settled else []
    return text, run.log + (run.end_line() if run.is_whole() else b""), shown


def without_rows(journal):
    return [line for line in journal.splitlines() if not line.startswith(b"row ")]


def try_walks(check, what, sides, tile, route, options):
    """The live and the settled walk over a texture that the program tiles: the settled pictures are the plain ones, and pictures and log are those of
    the reference, whatever the crew."""
    if sides is None:
        check.run("gen 7 2048 2048 t.ppm")
    else:
        write("t.ppm", made(*sides))
    write("t.path", route.encode())
    check.run("tile t.ppm t.vts --tile %d" % tile)
    whole = "%s, %s" % (what, options)
    live_log = walk_of(check, "live walk of " + whole, "t.vts", "t.path", "live", options)
    settled_log = walk_of(check, "settled walk of " + whole, "t.vts", "t.path", "settled", options + " --settled")
    ran = check.run("plain t.ppm t.path plain --tile %d" % tile)
    check.say(ran.returncode == 0 and are_pictures("plain", pictures("settled")), whole + ": settled pictures are plain")
    settled, log, shown = reference_walk("t.vts", "t.path", options + " --settled")
    check.say(settled_log == log and are_pictures("settled", shown), whole + ": settled pictures and log")
    live, log, _ = reference_walk("t.vts", "t.path", options)
    check.say(live_log == log, whole + ": live log")
    if "--loaders 1 " in options:
        # One loader leaves no choice but the versions at which rows are drawn.
        pairs = [(settled, contents("settled.txt")), (live, contents("live.txt"))]
        check.say(all(without_rows(wanted) == without_rows(found) for wanted, found in pairs), whole + ": journals")
    replays(check, "live walk of " + whole, "t.vts", "t.path", "live")
    replays(check, "settled walk of " + whole, "t.vts", "t.path", "settled")


def large_walks(check):
    """A walk over a store that was upgraded, and one with no option."""
    write("large.path", LARGE_PATH.encode())
    for words in ("gen 7 2048 2048 large.ppm", "tile large.ppm large.vts", "upgrade large.vts wide.vts"):
        check.run(words)
    walk_of(check, "walk of an upgraded store", "wide.vts", "large.path", "wide", "--settled")
    replays(check, "walk of an upgraded store", "wide.vts", "large.path", "wide")
    short, long = (check.run("walk large.vts large.path %s --settled" % words) for words in ("short", "long " + DEFAULTS))
    good = is_done(short, long.stdout) and is_done(long, short.stdout) and contents("journal.txt") and are_pictures("short", pictures("long"))
    check.say(good, "walk with no option")


def unfit_picture(check):
    """A picture that does not fit leaves the journal of its first pass."""
    ran = check.run("walk g4.vts a.path no --journal no.txt --settled --frames 2 --samplers 1")
    is_told = (ran.returncode, ran.stdout, ran.stderr) == (5, b"", b"vtex: picture 0 wants 2 pages, room for 1\n")
    check.say(is_told and not pictures("no") and contents("no.txt") == HEAD.encode(), "walk of a picture that does not fit")


def tables_by_memory(check):
    """Only the swapped table walks with 2,048 frames of 64x64 texels in 64 MiB.

    Over shared words a machine makes the words of all its frames before the first pass, of eight bytes a texel: here 64 MiB, so that much memory is
    too little with whatever else the program needs. The swapped table makes a frame when it is first filled, which is one here."""
    for option, machine in [("", "the standard machine"), ("--rows shared", "shared rows"), ("--filter bilinear", "blends")]:
        ran = check.run("walk g64.vts a.path no --frames 2048 --samplers 1 --loaders 1 " + option, 65536)
        check.say((ran.returncode, ran.stdout, ran.stderr) == (1, b"", LINES[1]) and not pictures("no"), machine + " in 64 MiB")
    ran = check.run("walk g64.vts a.path swap --frames 2048 --samplers 1 --loaders 1 --table swap", 65536)
    check.say(ran.returncode == 0 and not ran.stderr and len(pictures("swap")) == 1, "the swapped table in 64 MiB")


def are_dealt(journal, samplers):
    """Row y of each pass was drawn by sampler y modulo their number."""
    rows = [line.split() for line in journal.splitlines() if line.startswith(b"row ")]
    return len(rows) >= 2048 and all(int(sampler) == int(row) % samplers for _, row, sampler, _ in rows)


def rows_by_sampler(check):
    """Rows that are dealt stand beside their samplers in the journal, and rows that are shared do not.

    A sampler of shared rows takes the next row when its last one is drawn. So the rows look dealt only where two threads take 2,048 rows in turn, which
    nothing makes them do; and where one of them takes all, because the other began late or was not made, they do not."""
    write("tall.path", b"size 1 2048\nfocal 1\nat 0 0 256 16384 0\n")
    for option, wanted in [("", True), ("--rows dealt", True), ("--table swap", True), ("--filter bilinear", True), ("--rows shared", False)]:
        ran = check.run("walk g4.vts tall.path rows --samplers 2 " + option)
        check.say(ran.returncode == 0 and are_dealt(contents("journal.txt"), 2) == wanted, "rows by their samplers: " + option)


def pixels_by_filter(check):
    """A settled walk by blends is the plain picture by blends, and not that by the nearest texel."""
    write("t.ppm", made(*ODD[1]))
    write("t.path", KEYS.encode())
    check.run("tile t.ppm t.vts --tile 16")
    for name in ("nearest", "bilinear"):
        check.run("plain t.ppm t.path %s --tile 16 --filter %s" % (name, name))
        ran = check.run("walk t.vts t.path %s.w --settled --frames 200 --filter %s" % (name, name))
        check.say(ran.returncode == 0 and are_pictures(name + ".w", pictures(name)), "settled walk by the filter " + name)
    check.say(pictures("nearest") != pictures("bilinear"), "pictures by the two filters")


def lay(files):
    """Makes these all that the folder holds."""
    for name in os.listdir():
        os.remove(name)
    for name, data in files.items():
        write(name, data)


def ends(check, run):
    """A run over its files alone prints what it is to, and has its status."""
    lay(run.files)
    ran = check.run(run.words)
    return (ran.returncode, ran.stdout, ran.stderr) == (run.status, run.out, run.err)


def leaves(run, shown):
    """The folder holds the files of a run, what it leaves, the pictures that it is to show, and nothing else."""
    wanted = {**run.files, **run.left, **{"f%04d.ppm" % number: data for number, data in enumerate(shown)}}
    found = held()
    is_like = lambda data, it: data == it if isinstance(it, bytes) else it.fullmatch(data)
    return found.keys() == wanted.keys() and all(is_like(found[name], it) for name, it in wanted.items())


def is_replayed(check, run, shown):
    """The journal that a walk left is replayed to the pictures that it showed."""
    text = contents("j.txt")
    lay({**run.files, "j.txt": text})
    ran = check.run("replay s.vts a.path j.txt f")
    return is_done(ran, b"end pictures %d\n" % len(shown)) and leaves(run, shown) and contents("j.txt") == text


def try_run(check, what, run):
    check.say(ends(check, run) and leaves(run, run.pictures), "%s: %s" % (run.words, what))


def try_walked(check, what, run):
    good = ends(check, run) and leaves(run, run.pictures) and is_replayed(check, run, run.pictures)
    check.say(good, "%s, and its replay: %s" % (run.words, what))


def try_flight(check, run):
    is_ended, found = ends(check, run), run.left["j.txt"].fullmatch(contents("j.txt") or b"")
    shown = [by_version[int(version) - least] for by_version, version, least in zip(SHOWN, found.groups(), LEAST)] if found else []
    check.say(is_ended and found and leaves(run, shown) and is_replayed(check, run, shown), "%s, and its replay" % run.words)


def walks_alike(check):
    """A hundred settled walks by many workers leave and print what that by one of each does."""
    write("a.path", TOUR)
    good = is_done(check.run("gen 7 512 512 t.ppm")) and check.run("tile t.ppm s.vts --tile 16").returncode == 0
    alone, wanted = check.run(ALONE), pictures("f")
    check.say(good and is_done(alone, alone.stdout) and len(wanted) == 3, ALONE)
    for number in range(100):
        for name in glob.glob("f????.ppm"):
            os.remove(name)
        check.say(is_done(check.run(MANY), alone.stdout) and pictures("f") == wanted, "%s: walk %d" % (MANY, number))


def most_frames(check):
    """The frames of a walk have 8,388,608 texels at most: 32,768 of them where each has 16x16."""
    check.say(is_done(check.run("tile g4.ppm s.vts --tile 16"), b"store 4 4 tile 16 levels 1 pages 1 bytes 784\n"), "a store of large tiles")
    check.say(check.refuses("walk s.vts a.path f --frames 32769", 2, LINES[2]), "a frame too many")
    check.say(check.run("walk s.vts a.path f --frames 32768").returncode == 0, "as many frames as may be")


def try_trial(check):
    first, second = check.run("trial 7"), check.run("trial 7")
    check.say(is_done(first, trial(7)[0]), "trial 7")
    check.say(is_done(second, first.stdout), "trial 7 again")


def try_engine(check):
    """The cache for engines."""
    if not shutil.which("g++"):
        check.skip("the cache for engines, for g++ is not here")
        return
    words = [sys.executable, os.path.join(HERE, "engine.py"), check.program]
    ran = subprocess.run(words, stdout=subprocess.PIPE, stderr=subprocess.STDOUT, text=True)
    check.lines += ["the cache for engines: " + line for line in ran.stdout.splitlines()]
    check.say(ran.returncode == 0, "the cache for engines")


def numbered(rows):
    return [(number, *row) for number, row in enumerate(rows, 1)]


# Each job with the rows that it is called with, those that take long first.
TABLES = [
    (try_engine, [()]),
    (large_textures, [()]),
    (try_walks, WALKS),
    (large_walks, [()]),
    (large_upgrade, [()]),
    (try_large_store, LARGE_STORES),
    (try_store, numbered(STORES)),
    (try_picture, numbered(PICTURES)),
    (first_picture, [()]),
    (several_keys, [()]),
    (most_pictures, [()]),
    (try_text, [("row.path", "plain g4.ppm row.path row --tile 2", *row) for row in PATHS]),
    (try_texture, TEXTURES),
    (try_refused_texture, [(data, flaw, flaw) for data, flaw in REFUSED_TEXTURES]),
    (try_refused_texture, [(data, "bad size", flaw) for data, flaw in LONG_SIDES]),
    (try_refused_texture, [(b"P6" + b" " * count, "bad header at byte %d" % place, None) for count, place in BLANKS]),
    (try_other, OTHERS),
    (texture_by_gimp, [()]),
    (widest, [()]),
    (odd_upgrade, [()]),
    (try_store_flaw, STORE_FLAWS),
    (try_no_store, NO_STORES),
    (too_many_pages, [()]),
    (first_generated, [()]),
    (try_gen, GENERATED),
    (largest_generated, [()]),
    (try_option, OPTIONS),
    (try_refusal, REFUSALS),
    (try_words, [(line, 2) for line in REFUSED_WORDS]),
    (try_words, [(line, 3) for line in READ_WORDS]),
    (full_output, [()]),
    (worked_rows, [()]),
    (unfit_picture, [()]),
    (other_geometry, [()]),
    (tables_by_memory, [()]),
    (rows_by_sampler, [()]),
    (pixels_by_filter, [()]),
    (try_text, [("row.txt", "replay g4.vts a.path row.txt row", *row) for row in JOURNALS]),
    (try_run, RUNS),
    (try_walked, WALKED),
    (try_flight, [(run,) for run in FLIGHTS]),
    (walks_alike, [()]),
    (most_frames, [()]),
    (try_trial, [()]),
]
JOBS = [(job, row) for job, rows in TABLES for row in rows]


def do(place, program, tiler):
    """Does the job of this place in a folder of its own; answers how many of its checks passed and failed, and its lines."""
    job, row = JOBS[place]
    with tempfile.TemporaryDirectory() as folder:
        os.chdir(folder)
        check = Checks(program, tiler)
        try:
            job(check, *row)
        except Exception as error:
            check.say(False, "%s %.100r: %s: %s" % (job.__name__, row, type(error).__name__, " ".join(str(error).split())))
        os.chdir(TOP)
    return check.passed, check.failed, check.lines


def main(words):
    jobs = range(len(JOBS))
    if words[:1] == ["--without-engine"]:
        words, jobs = words[1:], [number for number in jobs if JOBS[number][0] != try_engine]
    program = os.path.abspath(words[0]) if words else artefacts.program()
    if program is None or not os.access(program, os.X_OK):
        print("no program at %s" % (program or "dist/vtex"))
        return 1
    passed = failed = 0
    with tempfile.TemporaryDirectory() as folder, ProcessPoolExecutor(len(os.sched_getaffinity(0))) as pool:
        tiler = os.path.join(folder, "tiles")
        if not shutil.which("gcc") or subprocess.run(["gcc", "-O2", "-o", tiler, os.path.join(HERE, "tiles.c")]).returncode != 0:
            tiler = None
        for good, bad, lines in pool.map(do, jobs, [program] * len(jobs), [tiler] * len(jobs)):
            passed, failed = passed + good, failed + bad
            for line in lines:
                print(line, flush=True)
    print("%d passed, %d failed" % (passed, failed))
    return 1 if failed else 0


if __name__ == "__main__":
    sys.exit(main(sys.argv[1:]))
