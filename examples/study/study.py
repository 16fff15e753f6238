#!/usr/bin/env python3
"""Studies page replacement: what a camera path asks of a page cache, what a walk's cache did, and
what other policies would have done.

    study.py stream STORE PATH             the reference stream: a CSV line for each page that each
                                           picture wants
    study.py frames STORE PATH             the frames that a settled walk needs: a CSV line for each
                                           picture; the most go to the error output
    study.py passes STORE PATH JOURNAL     a CSV line for each pass of a walk; a summary goes to the
                                           error output
    study.py misses STORE PATH [--frames LIST] [--program VTEX] [--figure NAME]
                                           tiles read over the frames by OPT, LRU, CLOCK and FIFO,
                                           beside `vtex walk`

--filter bilinear counts what a walk with that filter wants. LIST is as 16,32,64. VTEX is the
program; where it is not given it is dist/vtex, or the vtex that is installed. The figure is an SVG
where NAME ends in .svg, and by matplotlib where it ends in .png or .pdf.

It reads the 16 bytes of a store's header, a path and a journal, by docs/FORMATS.md alone, and
shares no code with vtex. Needs Python 3.9, and matplotlib for .png and .pdf alone.
"""
import argparse
import heapq
import importlib.util
import math
import os
import shutil
import subprocess
import sys
import tempfile
from collections import Counter, OrderedDict

TOP = os.path.dirname(os.path.dirname(os.path.dirname(os.path.abspath(__file__))))
# The most texels that the frames of a walk may have together.
MOST_TEXELS = 8388608
TILES = (2, 4, 8, 16, 32, 64, 128)
FRAMES = "8,12,16,24,32,48,64,96,128,192,256"


class Flaw(Exception):
    """A file or a word that cannot be taken; the text says why."""


class Store:
    """The shape of a store's pages: sides, tile side, and the first page of each level."""

    def __init__(self, name):
        with open(name, "rb") as file:
            head = file.read(16)
        if len(head) < 16 or head[:4] not in (b"VTS1", b"VTS2"):
            raise Flaw(f"{name} is no tile store")
        self.depth = head[3] - ord("0")
        self.width, self.height, self.tile = (
            int.from_bytes(head[at : at + 4], "big") for at in (4, 8, 12)
        )
        sides = (self.width, self.height)
        if not all(1 <= side <= 16384 for side in sides) or self.tile not in TILES:
            raise Flaw(f"the header of {name} names {sides} and a tile side of {self.tile}")
        self.tile_bytes = 3 * self.depth * self.tile**2
        # Of each level: sides in texels, columns and rows of pages, first page.
        self.levels, self.pages, width, height = [], 0, self.width, self.height
        while True:
            columns, rows = -(-width // self.tile), -(-height // self.tile)
            self.levels.append((width, height, columns, rows, self.pages))
            self.pages += columns * rows
            if width <= self.tile and height <= self.tile:
                break
            width, height = (width + 1) // 2, (height + 1) // 2
        self.root = self.pages - 1

    def index(self, level, column, row):
        """Returns the index of a page. Raises Flaw where the store has no such page."""
        if (
            level >= len(self.levels)
            or column >= self.levels[level][2]
            or row >= self.levels[level][3]
        ):
            raise Flaw(f"the store has no page {column} {row} of level {level}")
        return self.levels[level][4] + row * self.levels[level][2] + column

    def parent(self, page):
        """Returns the page one level up over the same ground. The root has none."""
        level, column, row = self.name(page)
        return self.index(level + 1, column // 2, row // 2)

    def name(self, page):
        """Returns the level, the column and the row of a page."""
        level = max(k for k, numbers in enumerate(self.levels) if numbers[4] <= page)
        row, column = divmod(page - self.levels[level][4], self.levels[level][2])
        return level, column, row


class Path:
    """The pictures' sides, the focal number, and a camera for each picture."""

    def __init__(self, name):
        try:
            with open(name, encoding="ascii") as file:
                lines = [line.split(" ") for line in file.read().splitlines()]
            (_, self.width, self.height), (_, self.focal) = (
                [lines[0][0], *map(int, lines[0][1:])],
                [lines[1][0], int(lines[1][1])],
            )
            self.cameras = []
            for word, *fields in lines[2:]:
                steps, *camera = [1, *map(int, fields)] if word == "at" else map(int, fields)
                first = self.cameras[-1] if self.cameras else camera
                self.cameras += [
                    [a + (b - a) * step // steps for a, b in zip(first, camera)]
                    for step in range(1, steps + 1)
                ]
        except (ValueError, IndexError) as error:
            raise Flaw(f"{name} is no camera path: {error}") from None

    def wanted(self, store, picture, is_bilinear):
        """Returns each page that a picture wants, with the number of pixels that want it.

        Coarse pages are first, in a level those of more pixels, and of these the smaller index.
        """
        u, v, h, c, s = self.cameras[picture]
        pixels = Counter()
        for y in range(self.height):
            z, p = h * self.focal // (y + 1), h // (y + 1)
            level = 0
            while level + 1 < len(store.levels) and 256 << (level + 1) <= p:
                level += 1
            width, height, columns, _, first = store.levels[level]
            for x in range(self.width):
                across = (u + z * c // 16384 - (2 * x + 1 - self.width) * p * s // 32768) % (
                    256 * store.width
                )
                down = (v + z * s // 16384 + (2 * x + 1 - self.width) * p * c // 32768) % (
                    256 * store.height
                )
                column, row = across >> level + 8, down >> level + 8
                texels = [(column, row)]
                if is_bilinear:
                    right, below = (column + 1) % width, (row + 1) % height
                    texels += [(right, row), (column, below), (right, below)]
                for column, row in texels:
                    pixels[first + row // store.tile * columns + column // store.tile] += 1
        return sorted(pixels.items(), key=lambda it: (-store.name(it[0])[0], -it[1], it[0]))


def stream_of(store, path, is_bilinear):
    """Returns the wanted list of each picture."""
    return [path.wanted(store, picture, is_bilinear) for picture in range(len(path.cameras))]


def frames_of(store, wanted):
    """Returns how many frames a settled walk needs to draw a picture, with the root alone pinned:
    one for each page above a wanted page, and for the page itself."""
    held = {store.root}
    for page, _ in wanted:
        while page not in held:
            held.add(page)
            page = store.parent(page)
    return len(held)


def study_frames(store, path, is_bilinear):
    """Prints a line for each picture, and the frames that all of them need."""
    print("picture,wanted,frames")
    most = 0
    for picture, wanted in enumerate(stream_of(store, path, is_bilinear)):
        frames = frames_of(store, wanted)
        print(picture, len(wanted), frames, sep=",")
        most = max(most, frames)
    limit = MOST_TEXELS // store.tile**2
    note = f"; at a tile side of {store.tile} there are at most {limit}" if most > limit else ""
    print(f"a settled walk of this path needs --frames {most}{note}", file=sys.stderr)


# -- the policies: each takes a stream of pages and a number of frames, and returns the reads


def lru(stream, frames):
    held, reads = OrderedDict(), 0
    for page in stream:
        if page in held:
            held.move_to_end(page)
            continue
        reads += 1
        if len(held) >= frames:
            held.popitem(last=False)
        held[page] = True
    return reads


def fifo(stream, frames):
    held, reads = OrderedDict(), 0
    for page in stream:
        if page in held:
            continue
        reads += 1
        if len(held) >= frames:
            held.popitem(last=False)
        held[page] = True
    return reads


def clock(stream, frames):
    ring, used, hand, reads = [], {}, 0, 0
    for page in stream:
        if page in used:
            used[page] = True
            continue
        reads += 1
        if len(ring) < frames:
            ring.append(page)
        else:
            while used[ring[hand]]:
                used[ring[hand]] = False
                hand = (hand + 1) % frames
            del used[ring[hand]]
            ring[hand] = page
            hand = (hand + 1) % frames
        used[page] = False
    return reads


def opt(stream, frames):
    """Gives up the page that is wanted again last (Belady 1966). No policy that reads pages when
    they are wanted reads fewer."""
    never, last, following = len(stream), {}, [0] * len(stream)
    for place in range(len(stream) - 1, -1, -1):
        following[place] = last.get(stream[place], never)
        last[stream[place]] = place
    held, heap, reads = {}, [], 0
    for place, page in enumerate(stream):
        if page not in held:
            reads += 1
            if len(held) >= frames:
                # An entry of the heap is out of date where its page was wanted meanwhile.
                while held.get(heap[0][1]) != -heap[0][0]:
                    heapq.heappop(heap)
                del held[heapq.heappop(heap)[1]]
        held[page] = following[place]
        heapq.heappush(heap, (-following[place], page))
    return reads


POLICIES = (("opt", opt), ("lru", lru), ("clock", clock), ("fifo", fifo))


def reads_of(policy, store, stream, frames):
    """Returns how many tiles a policy reads. The root is read once and keeps a frame of its own, as
    in a walk."""
    pages = [page for page in stream if page != store.root]
    return 1 + policy(pages, frames - 1)


# -- what a walk did


def passes_of(name):
    """Returns the pages of a journal's head, and its passes: each with its number, its picture and
    its map, unmap and lost lines."""
    head, passes = [], []
    with open(name, encoding="ascii") as file:
        for number, line in enumerate(file, 1):
            word, *fields = line.split()
            try:
                if word == "pass":
                    passes.append((int(fields[0]), int(fields[2]), []))
                elif word == "map" or word == "unmap":
                    (passes[-1][2] if passes else head).append((word, tuple(map(int, fields[1:4]))))
                elif word == "lost":
                    passes[-1][2].append((word, tuple(map(int, fields[:3]))))
                elif word != "row":
                    raise ValueError
            except (ValueError, IndexError):
                raise Flaw(f"line {number} of {name} is none of a journal") from None
    return head, passes


def study_passes(store, path, journal, is_bilinear):
    """Prints a line for each pass, and a summary."""
    head, passes = passes_of(journal)
    mapped = {store.index(*page): 0 for _, page in head}
    seen, wanted, kept = set(mapped), {}, []
    total = Counter()
    names = ("wanted", "hits", "pixels", "pixels_hit", "loaded", "again", "lost", "evicted")
    print("pass", "picture", *names, "bytes", "mapped", "stayed", sep=",")
    for number, picture, events in passes:
        if picture >= len(path.cameras):
            raise Flaw(f"{journal} has picture {picture}, and the path has {len(path.cameras)}")
        if picture not in wanted:
            wanted = {picture: path.wanted(store, picture, is_bilinear)}
        row = Counter(
            wanted=len(wanted[picture]), hits=sum(page in mapped for page, _ in wanted[picture])
        )
        row.update(
            pixels=sum(count for _, count in wanted[picture]),
            pixels_hit=sum(count for page, count in wanted[picture] if page in mapped),
        )
        stayed = []
        for word, name in events:
            page = store.index(*name)
            if word == "map":
                row.update(loaded=1, again=page in seen)
                seen.add(page)
                mapped[page] = number
            elif word == "unmap":
                row.update(evicted=1)
                if page not in mapped:
                    raise Flaw(
                        f"{journal} takes out page {name} in pass {number}, which is not mapped"
                    )
                stayed.append(number - mapped.pop(page))
            else:
                row.update(lost=1)
        mean = f"{sum(stayed) / len(stayed):.2f}" if stayed else ""
        counts = [row[name] for name in names]
        print(
            number, picture, *counts, row["loaded"] * store.tile_bytes, len(mapped), mean, sep=","
        )
        kept += stayed
        total.update(row)
    print(
        (
            f"{len(passes)} passes: {share(total['hits'], total['wanted'])} of the wanted pages and"
            f" {share(total['pixels_hit'], total['pixels'])} of the pixels were there at the start"
            f" of a pass; {len(head) + total['loaded']} tiles read, {total['again']} of them again,"
            f" {total['lost']} lost, {total['evicted']} given up; an evicted page stayed"
            f" {sum(kept) / max(len(kept), 1):.1f} passes"
        ),
        file=sys.stderr,
    )


def share(part, whole):
    return f"{100 * part / max(whole, 1):.1f} %"


def walked(program, store, path, frames, words):
    """Returns how many tiles a walk of the program reads, or None where its frames are too few."""
    with tempfile.TemporaryDirectory() as room:
        ran = subprocess.run(
            [
                program,
                "walk",
                store,
                path,
                f"{room}/f",
                "--journal",
                f"{room}/journal.txt",
                "--frames",
                str(frames),
                *words,
            ],
            stdout=subprocess.PIPE,
            stderr=subprocess.PIPE,
            text=True,
        )
    if ran.returncode == 5 or ran.returncode == 2 and "usage" in ran.stderr:
        return None
    if ran.returncode != 0:
        raise Flaw(ran.stderr.strip())
    return int(ran.stdout.split()[-1])


TITLES = {
    "opt": ("OPT", "#444444"),
    "lru": ("LRU", "#0066cc"),
    "clock": ("CLOCK", "#009900"),
    "fifo": ("FIFO", "#cc6600"),
    "settled": ("vtex walk --settled", "#cc0000"),
    "live": ("vtex walk", "#aa00aa"),
}


def marks_of(least, most):
    """Returns the marks of a logarithmic axis about a range: 1, 2 and 5 times powers of ten."""
    every = [mark * 10**power for power in range(9) for mark in (1, 2, 5)]
    first = max(mark for mark in every if mark <= max(least, 1))
    last = min(mark for mark in every if mark >= most)
    return [mark for mark in every if first <= mark <= last]


def svg_of(rows, names):
    """Returns the figure as SVG: tiles read, on a logarithmic axis, over frames."""
    reads = [row[name] for row in rows for name in names if row[name] is not None]
    marks = marks_of(min(reads), max(reads))
    across = [70 + 500 * place / max(len(rows) - 1, 1) for place in range(len(rows))]
    span = math.log(marks[-1] / marks[0]) if len(marks) > 1 else 1

    def down(count):
        return 300 - 260 * math.log(max(count, 1) / marks[0]) / span

    out = [
        (
            '<svg xmlns="http://www.w3.org/2000/svg" viewBox="0 0 760 350" font-family="sans-serif"'
            ' font-size="12">'
        ),
        '<rect width="760" height="350" fill="#fff"/>',
    ]
    for mark in marks:
        y = down(mark)
        out.append(
            f'<path d="M70 {y:.1f}H570" stroke="#ddd"/>'
            f'<text x="62" y="{y + 4:.1f}" text-anchor="end">{mark:,}</text>'
        )
    for x, row in zip(across, rows):
        out.append(f'<text x="{x:.1f}" y="318" text-anchor="middle">{row["frames"]}</text>')
    for place, name in enumerate(names):
        title, color = TITLES[name]
        points = [(x, down(row[name])) for x, row in zip(across, rows) if row[name] is not None]
        at = " ".join(f"{x:.1f},{y:.1f}" for x, y in points)
        key = 60 + 20 * place
        dash = ' stroke-dasharray="6 3"' if name in ("settled", "live") else ""
        out.append(f'<polyline points="{at}" fill="none" stroke="{color}" stroke-width="2"{dash}/>')
        out += [f'<circle cx="{x:.1f}" cy="{y:.1f}" r="3" fill="{color}"/>' for x, y in points]
        out.append(f'<path d="M590 {key}h24" stroke="{color}" stroke-width="2"{dash}/>')
        out.append(f'<circle cx="602" cy="{key}" r="3" fill="{color}"/>')
        out.append(f'<text x="622" y="{key + 4}">{title}</text>')
    out.append('<text x="320" y="340" text-anchor="middle">frames</text>')
    out.append('<text x="70" y="25">tiles read over the path</text></svg>')
    return "\n".join(out) + "\n"


def draw_by_matplotlib(rows, names, figure):
    import matplotlib

    matplotlib.use("Agg")
    from matplotlib import pyplot

    _, axes = pyplot.subplots(figsize=(9, 5))
    for name in names:
        title, color = TITLES[name]
        points = [(row["frames"], row[name]) for row in rows if row[name] is not None]
        dash = "--" if name in ("settled", "live") else "-"
        axes.plot(*zip(*points), dash, marker="o", label=title, color=color) if points else None
    axes.set(xlabel="frames", ylabel="tiles read over the path", xscale="log", yscale="log")
    axes.set_xticks([row["frames"] for row in rows], [str(row["frames"]) for row in rows])
    axes.minorticks_off()
    axes.grid(True, color="#dddddd")
    axes.legend()
    pyplot.savefig(figure, bbox_inches="tight")


def draw(rows, names, figure):
    """Writes the figure: by the standard library as SVG, else by matplotlib."""
    if not figure.endswith(".svg"):
        draw_by_matplotlib(rows, names, figure)
        return
    with open(figure, "w", encoding="utf-8") as file:
        file.write(svg_of(rows, names))


def check_figure(figure):
    """Raises Flaw where a figure of this name could not be drawn, before the work for it begins."""
    folder = os.path.dirname(figure) or "."
    if not figure.endswith((".svg", ".png", ".pdf")):
        raise Flaw(f"--figure is a name that ends in .svg, .png or .pdf, and not {figure}")
    if not figure.endswith(".svg") and importlib.util.find_spec("matplotlib") is None:
        raise Flaw(
            f"{figure} needs matplotlib, which is not installed; a name in .svg needs nothing"
        )
    if not os.path.isdir(folder):
        raise Flaw(f"the folder {folder} of --figure is not there")


def study_misses(store, path, words):
    try:
        frames = [int(it) for it in words.frames.split(",")]
    except ValueError:
        raise Flaw(f"--frames is a list of numbers as {FRAMES}, and not {words.frames}") from None
    if min(frames) < 2:
        raise Flaw("--frames is at least 2: one is the root's")
    if words.figure:
        check_figure(words.figure)
    if words.program and shutil.which(words.program) is None:
        raise Flaw(f"{words.program} of --program is no program")
    lists = stream_of(store, path, words.filter == "bilinear")
    if not any(lists):
        raise Flaw(f"{words.path} has no pictures")
    stream = [page for wanted in lists for page, _ in wanted]
    print(
        (
            f"{len(lists)} pictures, {len(stream)} references to {len(set(stream))} pages, at most"
            f" {max(map(len, lists), default=0)} in a picture"
        ),
        file=sys.stderr,
    )
    released = os.path.join(TOP, "dist", "vtex")
    program = words.program or (released if os.path.exists(released) else shutil.which("vtex"))
    names = [name for name, _ in POLICIES] + (["settled", "live"] if program else [])
    if not program:
        print("without a program: name one by --program", file=sys.stderr)
    print("frames", *names, sep=",")
    rows = []
    for count in frames:
        row = {name: reads_of(policy, store, stream, count) for name, policy in POLICIES}
        if program:
            by = ["--filter", words.filter]
            row.update(
                settled=walked(program, words.store, words.path, count, [*by, "--settled"]),
                live=walked(program, words.store, words.path, count, by),
            )
        row["frames"] = count
        rows.append(row)
        print(
            count, *("" if row[name] is None else row[name] for name in names), sep=",", flush=True
        )
    if words.figure:
        draw(rows, names, words.figure)


def main(words):
    parser = argparse.ArgumentParser(
        description=__doc__.strip(),
        formatter_class=argparse.RawDescriptionHelpFormatter,
        usage=argparse.SUPPRESS,
    )
    parser.add_argument("what", choices=("stream", "frames", "passes", "misses"))
    parser.add_argument("store")
    parser.add_argument("path")
    parser.add_argument("journal", nargs="?")
    parser.add_argument("--filter", choices=("nearest", "bilinear"), default="nearest")
    parser.add_argument("--frames", default=FRAMES)
    parser.add_argument("--program")
    parser.add_argument("--figure")
    words = parser.parse_args(words)
    try:
        if (words.journal is not None) != (words.what == "passes"):
            raise Flaw("passes takes STORE PATH JOURNAL, the others STORE PATH")
        store, path = Store(words.store), Path(words.path)
        if words.what == "stream":
            print("picture,page,level,column,row,pixels")
            for picture, wanted in enumerate(stream_of(store, path, words.filter == "bilinear")):
                for page, pixels in wanted:
                    print(picture, page, *store.name(page), pixels, sep=",")
        elif words.what == "frames":
            study_frames(store, path, words.filter == "bilinear")
        elif words.what == "passes":
            study_passes(store, path, words.journal, words.filter == "bilinear")
        else:
            study_misses(store, path, words)
    except (Flaw, OSError) as flaw:
        print(f"study.py: {flaw}", file=sys.stderr)
        return 1
    return 0


if __name__ == "__main__":
    sys.exit(main(sys.argv[1:]))
