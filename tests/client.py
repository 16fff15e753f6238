#!/usr/bin/env python3
"""Draws the pictures of a walk from its store, its path and its journal alone: a client that was written from docs/FORMATS.md, and shares no code
with the other programs here. It trusts its files.

usage: client.py STORE PATH JOURNAL PREFIX [bilinear]     writes PREFIX0000.ppm and so on, by bilinear filtering where that word is given
"""
import sys


def fields_of(name):
    with open(name) as file:
        return [line.split(" ") for line in file.read().splitlines()]


class Store:
    """The levels of a texture, each with its columns of pages and the index of its first page, and the samples of its texels."""

    def __init__(self, name):
        with open(name, "rb") as file:
            self.data = file.read()
        self.depth = int(self.data[3:4])
        self.width, self.height, self.tile = (int.from_bytes(self.data[at : at + 4], "big") for at in (4, 8, 12))
        self.levels, width, height, first = [], self.width, self.height, 0
        while True:
            columns, rows = -(-width // self.tile), -(-height // self.tile)
            self.levels.append((columns, first))
            if width <= self.tile and height <= self.tile:
                break
            width, height, first = (width + 1) // 2, (height + 1) // 2, first + columns * rows

    def index(self, level, column, row):
        columns, first = self.levels[level]
        return first + row * columns + column

    def texel(self, level, x, y):
        size, page = 3 * self.depth, self.index(level, x // self.tile, y // self.tile)
        at = 16 + size * (self.tile * self.tile * page + y % self.tile * self.tile + x % self.tile)
        return self.data[at : at + size]

    def shown(self, table, level, x, y):
        """The texel of a level at (x, y) as the finest mapped page serves it that is no finer than the level."""
        for up in range(len(self.levels) - level):
            if self.index(level + up, (x >> up) // self.tile, (y >> up) // self.tile) in table:
                return self.texel(level + up, x >> up, y >> up)
        raise ValueError("the root is not mapped")

    def blend(self, table, level, u, v):
        """The samples at a place of a level, in 1/256 texel: those of the four texels about it, by how near it lies to each."""
        sums, width, height = [32768] * 3, self.width, self.height
        for _ in range(level):
            width, height = (width + 1) // 2, (height + 1) // 2
        for x, a in ((u // 256, 256 - u % 256), ((u // 256 + 1) % width, u % 256)):
            for y, b in ((v // 256, 256 - v % 256), ((v // 256 + 1) % height, v % 256)):
                texel = self.shown(table, level, x, y)
                for c in range(3):
                    sums[c] += a * b * int.from_bytes(texel[c * self.depth : (c + 1) * self.depth], "big")
        return b"".join((total // 65536).to_bytes(self.depth, "big") for total in sums)


class Path:
    """The sides of the pictures, the focal number, and a camera for each picture."""

    def __init__(self, name):
        size, focal, *keys = fields_of(name)
        self.width, self.height, self.focal, self.cameras = int(size[1]), int(size[2]), int(focal[1]), []
        for word, *numbers in keys:
            steps, camera = (1, numbers) if word == "at" else (int(numbers[0]), numbers[1:])
            camera = [int(number) for number in camera]
            last = camera if word == "at" else self.cameras[-1]
            self.cameras += [[a + (b - a) * i // steps for a, b in zip(last, camera)] for i in range(1, steps + 1)]

    def row(self, store, table, picture, y, is_bilinear):
        """The samples of a picture's row under a page table."""
        u, v, h, c, s = self.cameras[picture]
        z, p, level = h * self.focal // (y + 1), h // (y + 1), 0
        while level + 1 < len(store.levels) and 256 << (level + 1) <= p:
            level += 1
        samples = b""
        for x in range(self.width):
            across = (2 * x + 1 - self.width) * p
            place = (u + z * c // 16384 - across * s // 32768) % (256 * store.width) >> level
            line = (v + z * s // 16384 + across * c // 32768) % (256 * store.height) >> level
            samples += store.blend(table, level, place, line) if is_bilinear else store.shown(table, level, place // 256, line // 256)
        return samples


def read_journal(store, name):
    """The changes, each a page and whether it was mapped, and the rows of the last pass of each picture, each with its version."""
    changes, passes, picture = [], {}, None
    for word, *numbers in fields_of(name):
        if word in ("map", "unmap"):
            changes.append((store.index(*map(int, numbers[1:4])), word == "map"))
        elif word == "pass":
            picture = int(numbers[2])
            passes[picture] = []
        elif word == "row":
            passes[picture].append(int(numbers[2]))
    return changes, passes


def table_at(changes, version):
    """The pages that are mapped after so many changes."""
    table = set()
    for page, is_mapped in changes[:version]:
        (table.add if is_mapped else table.remove)(page)
    return table


def pictures_of(store_name, path_name, journal_name, filtering="nearest"):
    """The bytes of each picture's file, in their order."""
    store, path = Store(store_name), Path(path_name)
    changes, passes = read_journal(store, journal_name)
    for picture, versions in passes.items():
        tables = {version: table_at(changes, version) for version in set(versions)}
        rows = [path.row(store, tables[version], picture, y, filtering == "bilinear") for y, version in enumerate(versions)]
        yield b"P6\n%d %d\n%d\n" % (path.width, path.height, 256**store.depth - 1) + b"".join(rows)


def main(store_name, path_name, journal_name, prefix, filtering="nearest"):
    count = 0
    for picture in pictures_of(store_name, path_name, journal_name, filtering):
        with open("%s%04d.ppm" % (prefix, count), "wb") as file:
            file.write(picture)
        count += 1
    print("end pictures %d" % count)


if __name__ == "__main__":
    main(*sys.argv[1:])
