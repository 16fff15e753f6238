#!/usr/bin/env python3
"""Measures the viewer: what a first and a sharp picture cost by store and by link, cold and warm, beside the tiles of a Deep Zoom pyramid.

usage: figures.py FOLDER STORE.. [--pyramid STORE=NAME_files ..] [--rounds N] [--links NAME ..]

STORE is the name of a store in FOLDER without `.vts`. A pyramid is one of `vips dzsave` of the same texture; its row has the files that cover the same view:
those of its level, and in brackets with all coarser levels from the first on that has more than one tile. Wants Chromium. The browser's cache is on, as
visitors have it. Each round is a server of its own, and so an origin of which nothing is kept: its first visit is cold, and the second, of the same view,
warm. Times are from the page's navigation on, and medians of the rounds; requests and bytes are those that the server noted. The picture has 960x600 pixels.
The views are the whole texture, the middle at a texel a pixel, and a flight over the middle.
"""
import argparse
import math
import os
import statistics
import sys

sys.path.insert(0, os.path.dirname(os.path.dirname(os.path.abspath(__file__))))
import browser  # noqa: E402

WIDE, HIGH = 960, 600
LINKS = {"local": None, "10 Mbit/s, 100 ms": (10e6, 100), "100 Mbit/s, 40 ms": (100e6, 40)}


def sides_of(name):
    with open(name, "rb") as file:
        head = file.read(12)
    return [int.from_bytes(head[at : at + 4], "big") for at in (4, 8)]


class Visit:
    """The figures of one visit: seconds to the first and to the sharp picture, bytes, requests, and tiles that were shown."""

    def __init__(self, site, there, store, view, link):
        site.asked.clear()
        page = there.open("about:blank", WIDE, HIGH, keeps=True)
        if link:
            page.link(*link)
        page.go(site.base + "?bare&store=stores/%s.vts%s" % (store, view))
        page.until("!!window.ready")
        page.ask("ready.then((viewer) => viewer.sharp())", 300)
        told = page.ask("({ ...viewer.times, tiles: viewer.session.tiles })")
        self.first, self.sharp, self.tiles = told["first"] / 1000, told["changed"] / 1000, told["tiles"]
        self.requests, self.bytes = len(site.asked), sum(end - start for _, start, end in site.asked)
        page.close()


def measured(folder, there, store, view, link, rounds):
    """For the cold and the warm visit: the medians of first picture and sharp picture; and bytes, requests and tiles of the last round."""
    visits = []
    for _ in range(rounds):
        with browser.Site(folder) as site:
            visits.append([Visit(site, there, store, view, link) for _ in range(2)])
    for kind in zip(*visits):
        yield [statistics.median(getattr(it, name) for it in kind) for name in ("first", "sharp")], kind[-1]


def view_of(name, side):
    """The words of a view in the address, and its scale where it is a map."""
    if name == "flight":
        return "#fly=%s,%s,%s,-60" % (side[0] / 2, side[1] / 2, side[0] / 16), None
    return ("#map=%s,%s,1" % (side[0] / 2, side[1] / 2), 1) if name == "1 : 1" else ("", None)


def pyramid(folder, side, scale):
    """How many files of a pyramid, and bytes, cover a view: those of its level, and with the coarser ones."""
    last = math.ceil(math.log2(max(side)))
    scale = scale or max(side[0] / WIDE, side[1] / HIGH)
    level = last - min(max(math.floor(math.log2(scale) + 0.5), 0), last)
    rows = []
    for k in range(level, -1, -1):
        size = 2 ** (last - k)
        spans = []
        for whole, pixels in zip(side, (WIDE, HIGH)):
            low, high = max(whole / 2 - pixels * scale / 2, 0), min(whole / 2 + pixels * scale / 2, whole)
            spans.append(range(int(low / size) // 254, int((high - 1) / size) // 254 + 1))
        at = os.path.join(folder, str(k))
        ending = os.path.splitext(os.listdir(at)[0])[1]
        sizes = [os.path.getsize(os.path.join(at, "%d_%d%s" % (x, y, ending))) for x in spans[0] for y in spans[1]]
        rows.append((len(sizes), sum(sizes)))
        if len(os.listdir(at)) == 1:
            break
    return rows[0], tuple(map(sum, zip(*rows)))


def main():
    parser = argparse.ArgumentParser(description=__doc__, formatter_class=argparse.RawDescriptionHelpFormatter)
    parser.add_argument("folder")
    parser.add_argument("stores", nargs="+")
    parser.add_argument("--pyramid", nargs="*", default=[])
    parser.add_argument("--rounds", type=int, default=3)
    parser.add_argument("--links", nargs="*", default=list(LINKS), choices=list(LINKS))
    words = parser.parse_args()
    pyramids = [it.split("=") for it in words.pyramid]
    print("| store | view | link | visit | first picture | sharp | fetched | requests | tiles |\n|---|---|---|---|---|---|---|---|---|")
    with browser.Browser() as there:
        for store in words.stores:
            file = os.path.join(words.folder, store + ".vts")
            side, whole = sides_of(file), os.path.getsize(file)
            for view in ("whole", "1 : 1", "flight"):
                place, scale = view_of(view, side)
                for name in words.links:
                    for kind, ((first, sharp), last) in zip(("cold", "warm"), measured(words.folder, there, store, place, LINKS[name], words.rounds)):
                        row = (store, whole / 1e6, view, name, kind, first, sharp, last.bytes / 1e6, last.requests, last.tiles)
                        print("| %s, %.1f MB | %s | %s | %s | %.2f s | %.2f s | %.2f MB | %d | %d |" % row, flush=True)
                for _, folder in (it for it in pyramids if it[0] == store and view != "flight"):
                    (files, own), (all_files, everything) = pyramid(folder, side, scale)
                    print("| %s | %s | | | | | %.2f MB (%.2f) | %d (%d) | |" % (os.path.basename(folder), view, own / 1e6, everything / 1e6, files, all_files), flush=True)


if __name__ == "__main__":
    main()
