#!/usr/bin/env python3
"""Draws plain pictures, writes and upgrades tile stores, makes textures, walks, replays journals and judges walks by the rules of
docs/FORMATS.md, texel by texel and page by page, apart from the program.

usage: reference.py TEXTURE PATH PREFIX TILE [FILTER] writes PREFIX0000.ppm and so on
       reference.py tile TEXTURE STORE TILE           writes the store, and prints its line
       reference.py texels TEXTURE STORE              reads each texel of each level back from the store, by its place
       reference.py upgrade STORE NEW                 writes the store of two bytes a sample that one of one byte makes, and prints its line
       reference.py gen NUMBER WIDTH HEIGHT NAME      writes the texture of a number
       reference.py walk STORE PATH PREFIX JOURNAL [OPTIONS]       walks with one loader that reads when all rows are drawn; prints the log, ends as vtex
       reference.py replay STORE PATH JOURNAL PREFIX [FILTER]      draws the pictures of a journal, and prints the last line
       reference.py judge STORE PATH PREFIX JOURNAL LOG [OPTIONS]  says what is wrong with what a walk left, if anything is
       reference.py trial NUMBER                      prints the line of a trial, by its pages alone
       reference.py rows                              works the rows of rows.py, and says which come out otherwise
       reference.py make WIDTH HEIGHT SEED NAME MOST  writes a P6 texture of pseudo-random samples up to MOST, which is 255 where it is left out
       reference.py noise WIDTH HEIGHT SEED NAME DEPTH  writes a P6 texture of random samples of one byte or two, for large ones; one where it is left out

FILTER is nearest or bilinear, and nearest where it is left out. OPTIONS are those of `vtex walk` but --journal, of which --loaders changes nothing here, and --lost N. For `walk` the read of that number fails, among
the reads of batches, counted from 0; for `judge` as many pages may have been lost. `judge` has besides --status N, with which the walk ended, and
--error FILE, what it printed on the error output. A file that is outside its format is told with its flaw and status 4.
"""
import argparse
import sys

from journals import Journal, replay
from judge import Doubt, Left, ending_of, flaws_of_walk, refusal_of
from rows import wrong_rows
from stores import BILINEAR, NEAREST, Flaw, Path, Store, contents
from textures import MOST_TILED_SIDE, chain_of, generated, has_texels, made, noise, picture_of, read_image, store_of, upgraded
from walks import DEALT, SHARED, SWAP, WORDS, Settings, Still, Walk, trial, walked

DEFAULTS = {"frames": 64, "samplers": 4, "loaders": 3, "batch": 64, "pinned": 1, "status": 0, "lost": None}


def write(name, data):
    with open(name, "wb") as file:
        file.write(data)


def write_pictures(prefix, pictures):
    for number, picture in enumerate(pictures):
        write("%s%04d.ppm" % (prefix, number), picture)


def say(data):
    sys.stdout.buffer.write(data)


def end(status, line):
    sys.stderr.buffer.write(line)
    sys.exit(status)


def draw(texture, path_name, prefix, tile, filtering=NEAREST):
    path, (depth, rows) = Path(contents(path_name), filtering), read_image(contents(texture))
    levels = chain_of(rows, int(tile))
    write_pictures(prefix, (picture_of(depth, levels, path, picture) for picture in range(len(path.cameras))))


def tile_texture(texture, store, tile):
    depth, rows = read_image(contents(texture), MOST_TILED_SIDE)
    write_store(store, store_of(depth, chain_of(rows, int(tile)), int(tile)))


def write_store(name, data):
    write(name, data)
    say(Store(data).line())


def read_back(texture, store_name):
    store, (depth, rows) = Store(contents(store_name)), read_image(contents(texture), MOST_TILED_SIDE)
    sys.exit(0 if has_texels(store, depth, chain_of(rows, store.geometry.tile)) else "a texel is another one")


def upgrade(store, new):
    write_store(new, upgraded(Store(contents(store))))


def generate(number, width, height, name):
    write(name, generated(int(number), int(width), int(height)))


def make(width, height, seed, name, most=255):
    write(name, made(int(width), int(height), int(seed), int(most)))


def make_noise(width, height, seed, name, depth=1):
    with open(name, "wb") as file:
        file.writelines(noise(int(width), int(height), int(seed), int(depth)))


def walk_words(words):
    """The names of a walk and its settings, with --status, --lost and --error."""
    parser = argparse.ArgumentParser()
    parser.add_argument("names", nargs="*")
    for option, value in DEFAULTS.items():
        parser.add_argument("--" + option, type=int, default=value)
    parser.add_argument("--settled", action="store_true")
    parser.add_argument("--live", action="store_false", dest="settled")
    parser.add_argument("--filter", choices=[NEAREST, BILINEAR], default=NEAREST)
    parser.add_argument("--rows", choices=[DEALT, SHARED], default=DEALT)
    parser.add_argument("--table", choices=[WORDS, SWAP], default=WORDS)
    parser.add_argument("--error")
    found = parser.parse_intermixed_args(words)
    return found, Settings(found.frames, found.samplers, found.batch, found.pinned, found.settled, found.filter, found.rows, found.table)


def walk(*words):
    found, settings = walk_words(words)
    store_name, path_name, prefix, journal_name = found.names
    status, line, store, path = refusal_of(store_name, path_name, settings)
    if status is not None:
        end(status, line)
    text, run = walked(Walk(store.geometry, path, settings), Still(), () if found.lost is None else (found.lost,))
    write(journal_name, text)
    write_pictures(prefix, replay(store, path, Journal(store.geometry, path.height, text))[: run.picture])
    say(run.log + (run.end_line() if run.is_whole() else b""))
    end(*ending_of(run))


def draw_journal(store_name, path_name, journal_name, prefix, filtering=NEAREST):
    store, path = Store(contents(store_name)), Path(contents(path_name), filtering)
    pictures = replay(store, path, Journal(store.geometry, path.height, contents(journal_name), len(path.cameras)))
    write_pictures(prefix, pictures)
    say(b"end pictures %d\n" % len(pictures))


def judge(*words):
    found, settings = walk_words(words)
    store, path, prefix, journal, log = found.names
    left = Left(found.status, contents(log), contents(found.error) if found.error else None).with_walk(contents(journal), prefix)
    doubt = Doubt([found.status] if found.status in (1, 3) else [], found.lost or 0)
    sys.exit("\n".join(flaws_of_walk(store, path, settings, left, doubt)) or 0)


def say_trial(number):
    say(trial(int(number))[0])


def work_rows():
    sys.exit("\n".join(wrong_rows()) or 0)


JOBS = {
    "tile": tile_texture,
    "texels": read_back,
    "upgrade": upgrade,
    "gen": generate,
    "walk": walk,
    "replay": draw_journal,
    "judge": judge,
    "trial": say_trial,
    "rows": work_rows,
    "make": make,
    "noise": make_noise,
}


def main():
    try:
        JOBS[sys.argv[1]](*sys.argv[2:]) if sys.argv[1] in JOBS else draw(*sys.argv[1:])
    except Flaw as flaw:
        print(flaw, file=sys.stderr)
        return 4
    return 0


if __name__ == "__main__":
    sys.exit(main())
