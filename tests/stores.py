"""What a store and a path hold, which page each pixel wants and what it shows, by the rules of docs/FORMATS.md."""
import os
import re
from collections import Counter

NUMBER = re.compile(rb"0|-?[1-9][0-9]{0,18}")


class Flaw(Exception):
    """Bytes are outside their format; the text is the place that the program prints."""


def number_of(field, least, most):
    """The number that a field spells, or None where it spells none within the bounds."""
    if not NUMBER.fullmatch(field):
        return None
    number = int(field)
    return number if least <= number <= most else None


def contents(name):
    """What a file holds, or None where there is none, or a folder in its place."""
    if not os.path.exists(name) or os.path.isdir(name):
        return None
    with open(name, "rb") as file:
        return file.read()


class Geometry:
    """The pages of a texture's levels; a page is its index."""

    def __init__(self, width, height, tile):
        self.width, self.height, self.tile = width, height, tile
        self.levels, self.pages = [], 0
        while True:
            columns, rows = -(-width // tile), -(-height // tile)
            self.levels.append((width, height, columns, rows, self.pages))
            self.pages += columns * rows
            if width <= tile and height <= tile:
                break
            width, height = (width + 1) // 2, (height + 1) // 2
        self.root, self.lines = self.pages - 1, {}

    def index_of(self, level, column, row):
        """The page of this name, or None where there is none."""
        if level >= len(self.levels) or column >= self.levels[level][2] or row >= self.levels[level][3]:
            return None
        return self.levels[level][4] + row * self.levels[level][2] + column

    def name_of(self, page):
        level = max(k for k, numbers in enumerate(self.levels) if numbers[4] <= page)
        row, column = divmod(page - self.levels[level][4], self.levels[level][2])
        return level, column, row

    def ancestors_of(self, page):
        """The page, its parent and so on up to the root."""
        if page not in self.lines:
            level, column, row = self.name_of(page)
            above = [] if page == self.root else self.ancestors_of(self.index_of(level + 1, column // 2, row // 2))
            self.lines[page] = [page] + above
        return self.lines[page]

    def look_up(self, table, page):
        return next(other for other in self.ancestors_of(page) if other in table)

    def pinned(self, levels):
        """The pages of the last so many levels."""
        return range(self.levels[max(len(self.levels) - levels, 0)][4], self.pages)


def is_geometry(width, height, tile):
    if not (1 <= width <= 16384 and 1 <= height <= 16384 and tile in (2, 4, 8, 16, 32, 64, 128)):
        return False
    return Geometry(width, height, tile).pages <= 262144


class Store:
    """A store's bytes, once they are found to be one."""

    def __init__(self, data):
        if data[:4] not in (b"VTS1", b"VTS2"):
            raise Flaw("bad magic")
        if len(data) < 16:
            raise Flaw("length %d, wanted 16" % len(data))
        numbers = [int.from_bytes(data[at : at + 4], "big") for at in (4, 8, 12)]
        if not is_geometry(*numbers):
            raise Flaw("bad geometry")
        self.data, self.depth, self.geometry = data, data[3] - ord("0"), Geometry(*numbers)
        self.tile_bytes = 3 * self.depth * numbers[2] * numbers[2]
        want = 16 + self.geometry.pages * self.tile_bytes
        if len(data) != want:
            raise Flaw("length %d, wanted %d" % (len(data), want))

    def line(self):
        """What is printed of it."""
        g = self.geometry
        return b"store %d %d tile %d levels %d pages %d bytes %d\n" % (g.width, g.height, g.tile, len(g.levels), g.pages, len(self.data))


NEAREST, BILINEAR = "nearest", "bilinear"


class Path:
    """The sides of the pictures, the focal number and a camera for each picture; and by which filter the pictures are drawn."""

    def __init__(self, text, filtering=NEAREST):
        *lines, rest = text.split(b"\n")
        self.cameras, self.filtering = [], filtering
        for number, line in enumerate(lines, 1):
            self.take(number, line.split(b" "))
        if rest or len(lines) < 2:
            raise Flaw("bad line %d" % (len(lines) + 1))

    def take(self, number, fields):
        if number == 1:
            self.width, self.height = numbers_of(number, fields, b"size", [(1, 2048)] * 2)
        elif number == 2:
            (self.focal,) = numbers_of(number, fields, b"focal", [(1, 4096)])
        elif fields[0] == b"at":
            self.go(number, 1, numbers_of(number, fields, b"at", CAMERA))
        else:
            steps, *camera = numbers_of(number, fields, b"to", [(1, 9999)] + CAMERA)
            if not self.cameras:
                raise Flaw("no key at line %d" % number)
            self.go(number, steps, camera)

    def go(self, number, steps, camera):
        if len(self.cameras) + steps > 9999:
            raise Flaw("too many pictures")
        first = self.cameras[-1] if self.cameras else camera
        self.cameras += [[a + (b - a) * step // steps for a, b in zip(first, camera)] for step in range(1, steps + 1)]

    def places(self, geometry, picture, y):
        """The row's level, and where its pixels lie across and down on level 0, in 1/256 texel."""
        u, v, h, c, s = self.cameras[picture]
        z, p = h * self.focal // (y + 1), h // (y + 1)
        level = max([k for k in range(len(geometry.levels)) if 256 * 2**k <= p] or [0])
        u, v = u + z * c // 16384, v + z * s // 16384
        across = [(2 * x + 1 - self.width) * p for x in range(self.width)]
        columns = [(u - a * s // 32768) % (256 * geometry.width) for a in across]
        return level, columns, [(v + a * c // 32768) % (256 * geometry.height) for a in across]

    def row(self, geometry, picture, y):
        """The row's level, and the columns and rows of level 0 that its pixels show."""
        level, across, down = self.places(geometry, picture, y)
        return level, [place // 256 for place in across], [place // 256 for place in down]

    def corners(self, geometry, picture, y):
        """The row's level, and of each of its pixels the four texels of that level about its place, each as its weight, column and row."""
        level, across, down = self.places(geometry, picture, y)
        width, height = geometry.levels[level][:2]
        pixels = []
        for place, line in zip(across, down):
            (column, e), (row, f) = divmod(place >> level, 256), divmod(line >> level, 256)
            columns, rows = ((256 - e, column), (e, (column + 1) % width)), ((256 - f, row), (f, (row + 1) % height))
            pixels.append([(b * a, x, y) for b, y in rows for a, x in columns])
        return level, pixels

    def texels(self, geometry, picture, y):
        """The row's level, and the columns and rows of that level of the texels that its pixels want."""
        if self.filtering == BILINEAR:
            level, pixels = self.corners(geometry, picture, y)
            return level, [(column, row) for pixel in pixels for _, column, row in pixel]
        level, columns, rows = self.row(geometry, picture, y)
        return level, [(column >> level, row >> level) for column, row in zip(columns, rows)]

    def wants(self, geometry, picture):
        """The wanted list of a picture."""
        pixels = Counter()
        for y in range(self.height):
            level, texels = self.texels(geometry, picture, y)
            across, first = geometry.levels[level][2], geometry.levels[level][4]
            pixels.update([first + row // geometry.tile * across + column // geometry.tile for column, row in texels])
        return sorted(pixels, key=lambda page: (-geometry.name_of(page)[0], -pixels[page], page))


CAMERA = [(-(2**31), 2**31), (-(2**31), 2**31), (1, 2**24), (-(2**14), 2**14), (-(2**14), 2**14)]


def numbers_of(line, fields, word, bounds):
    """The numbers of a path's line that begins with a word."""
    numbers = [number_of(field, *bound) for field, bound in zip(fields[1:], bounds)]
    if fields[0] != word or len(fields) != len(bounds) + 1 or None in numbers:
        raise Flaw("bad line %d" % line)
    return numbers


def picture_of(store, path, samples):
    """The bytes of a picture's file."""
    return b"P6\n%d %d\n%d\n" % (path.width, path.height, 256**store.depth - 1) + b"".join(samples)


def row_shown(geometry, path, picture, y, table):
    """Of each pixel of a row the page that it shows, its level, and the column and row of level 0; of the plain picture where the table is None."""
    level, columns, rows = path.row(geometry, picture, y)
    across, first, side, served = geometry.levels[level][2], geometry.levels[level][4], geometry.tile << level, {}
    for column, row in zip(columns, rows):
        page = first + row // side * across + column // side
        if page not in served:
            shown = page if table is None else geometry.look_up(table, page)
            served[page] = shown, geometry.name_of(shown)[0]
        yield *served[page], column, row


def texel_shown(store, level, column, row, table):
    """The samples of a level's texel as the finest mapped page serves it, or of its own page where the table is None."""
    page = store.geometry.index_of(level, column // store.geometry.tile, row // store.geometry.tile)
    shown = page if table is None else store.geometry.look_up(table, page)
    up, tile, depth = store.geometry.name_of(shown)[0] - level, store.geometry.tile, store.depth
    at = 16 + store.tile_bytes * shown + 3 * depth * ((row >> up) % tile * tile + (column >> up) % tile)
    return [int.from_bytes(store.data[place : place + depth], "big") for place in range(at, at + 3 * depth, depth)]


def blended(depth, weights, texels):
    """The bytes of a blend, of four weights and the samples of four texels."""
    sums = [sum(weight * sample for weight, sample in zip(weights, channel)) for channel in zip(*texels)]
    return b"".join(((total + 32768) // 65536).to_bytes(depth, "big") for total in sums)


def row_blends(store, path, picture, y, table):
    """The samples of a row by blends, under a page table, or of the plain picture where the table is None."""
    level, pixels = path.corners(store.geometry, picture, y)
    rows = [[texel_shown(store, level, column, row, table) for _, column, row in pixel] for pixel in pixels]
    return b"".join(blended(store.depth, [weight for weight, _, _ in pixel], texels) for pixel, texels in zip(pixels, rows))


def row_samples(store, path, picture, y, table):
    """The samples of a row under a page table, or of the plain picture where the table is None."""
    if path.filtering == BILINEAR:
        return row_blends(store, path, picture, y, table)
    data, out, tile, texel = store.data, bytearray(), store.geometry.tile, 3 * store.depth
    for page, level, column, row in row_shown(store.geometry, path, picture, y, table):
        at = 16 + store.tile_bytes * page + texel * ((row >> level) % tile * tile + (column >> level) % tile)
        out += data[at : at + texel]
    return bytes(out)


def plain_picture(store, path, picture):
    return picture_of(store, path, [row_samples(store, path, picture, y, None) for y in range(path.height)])
