"""What a picture of the viewer's page has to show, and which pages its pixels want, texel by texel from the store's file."""
import math
import os
import sys

sys.path.insert(0, os.path.dirname(os.path.dirname(os.path.abspath(__file__))))
from stores import row_shown, texel_shown  # noqa: E402

BESIDE = (23, 26, 31)


def shown_of(sample, depth):
    """A sample as a screen shows it, in one byte."""
    return sample if depth == 1 else (2 * sample + 257) // 514


class Look:
    """A map of a store: the texel in its middle and its scale, or the whole where they are None. `table`: the mapped pages, or None for all."""

    def __init__(self, store, width, height, view, table=None, is_bilinear=False):
        g = store.geometry
        self.store, self.width, self.height, self.table, self.is_bilinear = store, width, height, table, is_bilinear
        self.u, self.v, self.scale = view or (g.width / 2, g.height / 2, min(max(g.width / width, g.height / height), min(g.width, g.height) / 2))
        self.level = min(max(math.floor(math.log2(self.scale) + 0.5), 0), len(g.levels) - 1)

    def place(self, x, y):
        """Where a pixel's middle is on level 0, or None beside the texture."""
        u, v = self.u + (x + 0.5 - self.width / 2) * self.scale, self.v + (y + 0.5 - self.height / 2) * self.scale
        g = self.store.geometry
        return (u, v) if 0 <= u < g.width and 0 <= v < g.height else None

    def texels(self, u, v):
        """The texels of the level that a place shows, each with its weight."""
        if not self.is_bilinear:
            return [(1, int(u) >> self.level, int(v) >> self.level)]
        width, height = self.store.geometry.levels[self.level][:2]
        a, b = u / 2**self.level - 0.5, v / 2**self.level - 0.5
        column, row = math.floor(a), math.floor(b)
        e, f = a - column, b - row
        inside = lambda i, size: min(max(i, 0), size - 1)
        return [(p * q, inside(column + i, width), inside(row + j, height)) for j, q in ((0, 1 - f), (1, f)) for i, p in ((0, 1 - e), (1, e))]

    def pixel(self, x, y, kept):
        place = self.place(x, y)
        if place is None:
            return BESIDE
        texels = self.texels(*place)
        for _, *texel in texels:
            if tuple(texel) not in kept:
                kept[tuple(texel)] = texel_shown(self.store, self.level, *texel, self.table)
        sums = [sum(weight * kept[column, row][i] for weight, column, row in texels) for i in range(3)]
        return tuple(shown_of(math.floor(it + 0.5), self.store.depth) for it in sums)

    def lines(self):
        """The pages that the pixels want, and all above them."""
        g, pages = self.store.geometry, set()
        tile = g.tile
        for texel in {(row // tile, column // tile) for y in range(self.height) for x in range(self.width) if (place := self.place(x, y)) for _, column, row in self.texels(*place)}:
            pages.update(g.ancestors_of(g.index_of(self.level, texel[1], texel[0])))
        return pages


def differ(rows, look, most=0):
    """How many pixels of a picture differ from the look by more than so much."""
    kept, count = {}, 0
    for y, row in enumerate(rows):
        for x, pixel in enumerate(row):
            count += max(abs(a - b) for a, b in zip(pixel, look.pixel(x, y, kept))) > most
    return count


def flight_differs(rows, store, path, picture):
    """Which part of a picture's pixels differ from those of the plain picture of a path."""
    g, count = store.geometry, 0
    for y, row in enumerate(rows):
        for pixel, (page, level, column, line) in zip(row, row_shown(g, path, picture, y, None)):
            count += list(pixel) != texel_shown(store, level, column >> level, line >> level, None)
    return count / (path.width * path.height)


def shown(page, look):
    """The picture that the page draws, once it is sharp: rows from the top, three bytes a pixel."""
    data, row = page.pixels("viewer.screen.pixels(viewer.look)"), 4 * look.width
    rows = [data[at : at + row] for at in range(0, len(data), row)][::-1]
    return [[bytes(row[4 * x : 4 * x + 3]) for x in range(look.width)] for row in rows]


def mapped_of(page):
    """The pages that the page's cache maps."""
    entries = page.ask("viewer.store.levels.map((_, k) => [...viewer.session.cache.table(k)]).flat()")
    return {i for i, entry in enumerate(entries) if entry}


def reaches(store, first, count):
    """The first byte of a run of tiles, and the one after the last."""
    start = 16 + first * store.tile_bytes
    return start, start + count * store.tile_bytes


def pages_asked(store, asked):
    """The pages whose tiles were asked for, each as often as it was; a request that is not for whole tiles is an error."""
    pages = []
    for _, start, end in asked:
        first, rest = divmod(start - 16, store.tile_bytes)
        count, other = divmod(end - start, store.tile_bytes)
        if rest or other:
            raise ValueError("bytes %d to %d are no tiles" % (start, end))
        pages += range(first, first + count)
    return pages
