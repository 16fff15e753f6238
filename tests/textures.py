"""Reads textures, halves them, draws their plain pictures and writes their stores, texel by texel, by the rules of docs/FORMATS.md.

A texture is its depth and its levels: how many bytes a sample has, and for each level its rows of samples, three a texel.
"""
import random

from stores import BILINEAR, Flaw, Geometry

MOST_HEADER, MOST_READ_SIDE, MOST_TILED_SIDE, MOST_PAGES = 65536, 8192, 16384, 262144
WHITE = b" \t\n\r"


class Header:
    """Reads the header of a texture byte by byte."""

    def __init__(self, data):
        self.head, self.at = data[:MOST_HEADER], 2

    def here(self):
        return self.head[self.at : self.at + 1]

    def breaks(self):
        raise Flaw("bad header at byte %d" % self.at)

    def white(self):
        if self.here() == b"" or self.here() not in WHITE:
            self.breaks()
        self.at += 1

    def gap(self):
        self.white()
        while self.here() and self.here() in WHITE + b"#":
            if self.here() == b"#":
                while self.here() and self.here() not in b"\n\r":
                    self.at += 1
            else:
                self.at += 1

    def number(self):
        self.gap()
        begin = self.at
        while self.here().isdigit() and self.at - begin < 10:
            self.at += 1
        if self.at == begin or self.here().isdigit():
            self.breaks()
        return int(self.head[begin : self.at])


def read_image(data, most_side=MOST_READ_SIDE):
    """The depth and the rows of samples of a texture's bytes; one that is cut into tiles may have larger sides than one that is read whole."""
    if data[:2] != b"P6":
        raise Flaw("bad magic")
    header = Header(data)
    width, height, most = header.number(), header.number(), header.number()
    header.white()
    if not (1 <= width <= most_side and 1 <= height <= most_side):
        raise Flaw("bad size")
    if not 1 <= most <= 65535:
        raise Flaw("bad maximum")
    depth, begin = (1 if most < 256 else 2), header.at
    want, have = 3 * depth * width * height, len(data) - begin
    if have < want:
        raise Flaw("raster of %d bytes, wanted %d" % (have, want))
    raster = data[begin : begin + want]
    samples = list(raster) if depth == 1 else [256 * high + low for high, low in zip(raster[::2], raster[1::2])]
    if max(samples) > most:
        first = next(place for place, sample in enumerate(samples) if sample > most)
        raise Flaw("sample over maximum at byte %d" % (begin + depth * first))
    top = 256**depth - 1
    scaled = [(sample * top + most // 2) // most for sample in samples]
    return depth, [scaled[at : at + 3 * width] for at in range(0, 3 * width * height, 3 * width)]


def sample_bytes(depth, samples):
    return b"".join(sample.to_bytes(depth, "big") for sample in samples)


def halve(level):
    height, width = len(level), len(level[0]) // 3
    rows = []
    for y in range((height + 1) // 2):
        top, bottom = level[min(2 * y, height - 1)], level[min(2 * y + 1, height - 1)]
        row = []
        for x in range((width + 1) // 2):
            left, right = 3 * min(2 * x, width - 1), 3 * min(2 * x + 1, width - 1)
            for c in range(3):
                row.append((top[left + c] + top[right + c] + bottom[left + c] + bottom[right + c] + 2) // 4)
        rows.append(row)
    return rows


def chain_of(texture, tile):
    levels = [texture]
    while len(levels[-1]) > tile or len(levels[-1][0]) > 3 * tile:
        levels.append(halve(levels[-1]))
    return levels


def blend_of(depth, level, u, v):
    """The bytes of the blend about a place of a level, in 1/256 texel."""
    columns, rows, out = len(level[0]) // 3, len(level), []
    (x, e), (y, f) = divmod(u, 256), divmod(v, 256)
    top, bottom, left, right = level[y], level[(y + 1) % rows], 3 * x, 3 * ((x + 1) % columns)
    for c in range(3):
        above, below = top[left + c] * (256 - e) + top[right + c] * e, bottom[left + c] * (256 - e) + bottom[right + c] * e
        out.append((above * (256 - f) + below * f + 32768) // 65536)
    return sample_bytes(depth, out)


def picture_of(depth, levels, path, picture):
    """The plain picture of a chain, by the path's own rows and not by pages."""
    (u, v, h, c, s), (width, height) = path.cameras[picture], (path.width, path.height)
    columns, rows = len(levels[0][0]) // 3, len(levels[0])
    out = bytearray(b"P6\n%d %d\n%d\n" % (width, height, 256**depth - 1))
    for y in range(height):
        z, p = h * path.focal // (y + 1), h // (y + 1)
        level = max([k for k in range(len(levels)) if 256 * 2**k <= p] or [0])
        for x in range(width):
            across = (2 * x + 1 - width) * p
            place = (u + z * c // 16384 - across * s // 32768) % (256 * columns)
            line = (v + z * s // 16384 + across * c // 32768) % (256 * rows)
            if path.filtering == BILINEAR:
                out += blend_of(depth, levels[level], place >> level, line >> level)
                continue
            at = 3 * (place // 256 >> level)
            out += sample_bytes(depth, levels[level][line // 256 >> level][at : at + 3])
    return bytes(out)


def store_of(depth, levels, tile):
    """The bytes of the store of a chain."""
    width, height = len(levels[0][0]) // 3, len(levels[0])
    lines = [[sample_bytes(depth, row) for row in level] for level in levels]
    geometry = Geometry(width, height, tile)
    if geometry.pages > MOST_PAGES:
        raise Flaw("too many pages %d" % geometry.pages)
    out = bytearray(b"VTS%d" % depth + b"".join(n.to_bytes(4, "big") for n in (width, height, tile)))
    for page in range(geometry.pages):
        k, column, row = geometry.name_of(page)
        last = len(levels[k][0]) // 3 - 1
        for y in range(row * tile, row * tile + tile):
            line = lines[k][min(y, len(levels[k]) - 1)]
            for x in range(column * tile, column * tile + tile):
                at = 3 * depth * min(x, last)
                out += line[at : at + 3 * depth]
    return bytes(out)


def texel_of(store, level, x, y):
    """The samples of a store's texel, as bytes."""
    tile = store.geometry.tile
    page = store.geometry.index_of(level, x // tile, y // tile)
    at = 16 + store.tile_bytes * page + 3 * store.depth * (y % tile * tile + x % tile)
    return store.data[at : at + 3 * store.depth]


def has_texels(store, depth, levels):
    """A store has each texel of each level of a chain, each at its own place."""
    places = ((k, x, y) for k, level in enumerate(levels) for y, row in enumerate(level) for x in range(len(row) // 3))
    texels = ((k, x, y, levels[k][y][3 * x : 3 * x + 3]) for k, x, y in places)
    return store.depth == depth and all(texel_of(store, k, x, y) == sample_bytes(depth, texel) for k, x, y, texel in texels)


def upgraded(store):
    """The bytes of the store of two bytes a sample that a store of one byte makes."""
    if store.depth != 1:
        raise Flaw("already wide")
    levels = []
    for k, (width, height, _, _, _) in enumerate(store.geometry.levels):
        levels.append([[257 * sample for x in range(width) for sample in texel_of(store, k, x, y)] for y in range(height)])
    return store_of(2, levels, store.geometry.tile)


def generated(number, width, height):
    out = bytearray(b"P6\n%d %d\n255\n" % (width, height))
    for y in range(height):
        for x in range(width):
            out += bytes(((x + number) % 256, (y + 3 * number) % 256, (x * y + 7 * number) % 256))
    return bytes(out)


def noise(width, height, seed, depth):
    """A texture of random bytes, in pieces: its header, and row after row. It is for sizes at which `made` takes too long."""
    yield b"P6\n%d %d\n%d\n" % (width, height, 256**depth - 1)
    chance = random.Random(seed)
    for _ in range(height):
        yield chance.randbytes(3 * depth * width)


def made(width, height, seed, most):
    """A texture of pseudo-random samples."""
    state, samples = seed, []
    for _ in range(3 * width * height):
        state = (state * 1103515245 + 12345) % 2**31
        samples.append((state >> 15) % (most + 1))
    return b"P6\n%d %d\n%d\n" % (width, height, most) + sample_bytes(1 if most < 256 else 2, samples)
