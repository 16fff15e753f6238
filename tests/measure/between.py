#!/usr/bin/env python3
"""What stands between a walk and another program's, by crews; by hand, on a machine that does nothing else.

    python3 tests/measure/between.py PROGRAM OTHER [--rounds 9] [--sizes 320x200,1920x1080] [--sides 2048,8192]

Both programs walk in turn over the textures, paths and crews of `run.py --summary`. Then each walks as often with threads.c loaded, which notes when
its threads are asked for, begin and end. All figures are medians, in milliseconds:

    time (busy)   of the program as it is, by the clock and by the processors
    start         until the first thread is asked for: files, memory, the table of frames
    threads       how many are made, and the mean time from when one is asked for until it begins
    alone         when no thread but the first runs, after the start
    crew (busy)   when a thread of its own runs, by the clock, and what those threads take by the processors
    first, busy   the processor time of the first thread from start to end; it draws, too, where the program is PROGRAM
    draws         the processor time of the drawing function, by one run under `perf record`, where there is perf

It wants gcc.
"""
import argparse
import os
import shutil
import statistics
import subprocess
import tempfile

from run import CREWS, HERE, SIDES, SIZES, Inputs, crew_words, measured, remove_written

# What the functions that draw are called.
DRAWING = "draw_pixels", "sampler"


def timeline(program, words):
    """Start, threads, mean wait of a thread, time alone, time with a crew, processor time of the crew and of the first thread; milliseconds."""
    remove_written()
    subprocess.run([program, *words], check=True, stdout=subprocess.DEVNULL, env={**os.environ, "LD_PRELOAD": "./threads.so", "THREADS": "threads"})
    with open("threads") as file:
        *notes, (end, first) = [tuple(map(float, line.split())) for line in file]
    start, crew, until = notes[0][0] if notes else end, 0.0, 0.0
    for asked, _, ended, _ in notes:
        ended = ended or end
        crew += max(ended - max(asked, until), 0)
        until = max(until, ended)
    waits = [began - asked for asked, began, _, _ in notes]
    figures = start, end - start - crew, crew, sum(busy for _, _, _, busy in notes), first
    return [1000 * it for it in figures] + [len(notes), 1000 * statistics.mean(waits) if waits else 0.0]


def drawing(program, words):
    """The processor milliseconds of the drawing function."""
    if not shutil.which("perf"):
        return float("nan")
    remove_written()
    record = ["perf", "record", "-q", "-F", "4000", "-e", "cpu-clock:u", "-o", "perf.data", program, *words]
    subprocess.run(record, check=True, stdout=subprocess.DEVNULL, stderr=subprocess.DEVNULL)
    report = ["perf", "report", "-i", "perf.data", "--stdio", "--no-children", "-F", "sample,symbol"]
    text = subprocess.run(report, check=True, capture_output=True, text=True).stdout
    rows = [line.split(None, 1) for line in text.splitlines() if line.strip() and not line.startswith("#")]
    return sum(int(row[0]) for row in rows if len(row) == 2 and row[0].isdigit() and any(name in row[1] for name in DRAWING)) / 4


def cells_of(program, words, middle, rounds):
    runs = [timeline(program, words) for _ in range(rounds)]
    start, alone, crew, busy, first, count, wait = [statistics.median(column) for column in zip(*runs)]
    figures = 1000 * middle[0], 1000 * middle[1], start, count, wait, alone, crew, busy, first, drawing(program, words)
    return "%.1f (%.1f) | %.1f | %.0f, %.3f | %.1f | %.1f (%.1f) | %.1f | %.0f" % figures


def main():
    parser = argparse.ArgumentParser()
    parser.add_argument("program")
    parser.add_argument("other")
    parser.add_argument("--rounds", type=int, default=9)
    parser.add_argument("--sizes", default="320x200,1920x1080")
    parser.add_argument("--sides", default=",".join(map(str, SIDES)))
    asked = parser.parse_args()
    programs = [os.path.abspath(asked.program), os.path.abspath(asked.other)]
    with tempfile.TemporaryDirectory(dir="/dev/shm" if os.path.isdir("/dev/shm") else None) as folder:
        os.chdir(folder)
        subprocess.run(["gcc", "-O1", os.path.join(HERE, "timed.c"), "-o", "timed"], check=True)
        subprocess.run(["gcc", "-O2", "-shared", "-fPIC", os.path.join(HERE, "threads.c"), "-o", "threads.so", "-ldl"], check=True)
        inputs = Inputs(programs[0])
        head = "side, pictures, walk, crew | program | time (busy) | start | threads | alone | crew (busy) | first, busy | draws"
        print("| %s |\n|%s" % (head, "---|" * 9), flush=True)
        for at, side in enumerate(SIDES):
            for width, height, pictures, frames in SIZES:
                if str(side) not in asked.sides.split(",") or "%dx%d" % (width, height) not in asked.sizes.split(","):
                    continue
                for kind in ("live", "settled"):
                    for samplers, loaders in CREWS:
                        words = crew_words(inputs, kind, side, frames[at], (width, height, pictures), samplers, loaders)
                        middles, _ = measured([(program, words) for program in programs], asked.rounds, 0)
                        title = "%s, %d of %dx%d, %s, %d/%d" % (format(side, ","), pictures, width, height, kind, samplers, loaders)
                        for name, program, middle in zip(("vtex", "plain Rust"), programs, middles):
                            print("| %s | %s | %s |" % (title, name, cells_of(program, words, middle, asked.rounds)), flush=True)
        os.chdir(HERE)


if __name__ == "__main__":
    main()
