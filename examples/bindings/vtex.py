"""Tile stores of vtex as arrays, from Python: the library for C by ctypes, without a package.

    import vtex
    with vtex.Store("earth.vts", frames=256) as store:
        print(store.width, store.height, store.levels)
        # Reads the tiles that it needs.
        image = store.region(level=3, x=0, y=0, width=512, height=256)
        # Reads nothing: the finest texels that are in memory.
        again = store.region(3, 0, 0, 512, 256, load=False)
        # The pages that have a frame.
        print(store.residency())

A store keeps at most `frames` tiles in memory and gives up the least recently used one. A region is
returned as bytes, row by row from the top: three samples a texel, each of `depth` bytes, the most
significant first. `array` returns the same as a numpy array, if numpy is installed.

The shared library is that of VTEX_LIBRARY, or libvtex.so.1 where the loader or this file's own
prefix has it (`sh dist/install.sh PREFIX`). Only one thread at a time may call a store.
"""
import ctypes
import os
import sys

_u32, _u64, _u8, _size = ctypes.c_uint32, ctypes.c_uint64, ctypes.c_uint8, ctypes.c_size_t
STATUSES = {
    1: "the sides or the tile side make no chain of pages",
    2: "a number is outside its bounds",
    3: "out of memory",
    4: "it is closed",
    5: "the file is no tile store, or a part of one",
}


class VtexError(Exception):
    """A call of the library did not do what was asked. `status` is the number of vtex.h."""

    def __init__(self, what, status):
        super().__init__(f"{what}: {STATUSES.get(status, f'status {status}')}")
        self.status = status


def _numbers(name, *fields):
    return type(name, (ctypes.Structure,), {"_fields_": [(field, _u32) for field in fields]})


_Shape = _numbers("_Shape", "width", "height", "tile")
_Level = _numbers("_Level", "width", "height", "columns", "rows", "first")
_Name = _numbers("_Name", "level", "column", "row")
_Load = _numbers("_Load", "page", "frame", "victim")
_Change = _numbers("_Change", "page", "frame", "mapped")
_Place = _numbers("_Place", "page", "frame", "level")


class _Store(ctypes.Structure):
    _fields_ = [("shape", _Shape), ("depth", _u32)]


class _Range(ctypes.Structure):
    _fields_ = [("start", _u64), ("length", _u64)]


# The calls that are used, with their parameters; each returns a status or a count.
_CALLS = {
    "vtex_store_open": ("p", _size, _u64, "p"),
    "vtex_store_tile": ("p", _u32, "p"),
    "vtex_level_count": ("p", "p"),
    "vtex_level": ("p", _u32, "p"),
    "vtex_page_count": ("p", "p"),
    "vtex_page_at": ("p", "p", "p"),
    "vtex_page_name": ("p", _u32, "p"),
    "vtex_cache_open": ("p", "p", _u32, _u32),
    "vtex_cache_pass_pages": ("p", "p", _size, _u32),
    "vtex_cache_loads": ("p", "p", _size),
    "vtex_cache_settle": ("p", "p", _size),
    "vtex_cache_changes": ("p", "p", _size),
    "vtex_cache_look_up": ("p", _u32, "p"),
    "vtex_cache_table": ("p", _u32, "p", _size),
    "vtex_cache_close": ("p",),
}
_library = None


def library():
    """Returns the shared library, which the first call loads. Raises OSError without one."""
    global _library
    if _library is None:
        beside = os.path.normpath(
            os.path.join(
                os.path.dirname(os.path.abspath(__file__)), "..", "..", "lib", "libvtex.so.1"
            )
        )
        named = os.environ.get("VTEX_LIBRARY")
        tried = [named] if named else ["libvtex.so.1", beside]
        for name in tried:
            try:
                found = ctypes.CDLL(name)
                break
            except OSError as error:
                last = error
        else:
            raise OSError(
                f"libvtex.so.1 was not found ({last}); install it by `sh dist/install.sh PREFIX`,"
                " or name it in VTEX_LIBRARY"
            )
        for name, kinds in _CALLS.items():
            call = getattr(found, name)
            call.argtypes, call.restype = [
                ctypes.c_void_p if kind == "p" else kind for kind in kinds
            ], _u32
        found.vtex_cache_size.argtypes, found.vtex_cache_size.restype = [], _size
        found.vtex_cache_init.argtypes, found.vtex_cache_init.restype = [ctypes.c_void_p], None
        _library = found
    return _library


def _done(what, status):
    if status != 0:
        raise VtexError(what, status)


class Store:
    """A tile store, of which at most `frames` tiles are in memory.

    `width` and `height` are the texture's sides in texels, `tile` is the side of a tile, `depth`
    the number of bytes of a sample (1 or 2), `levels` the number of mip levels (0 is the finest),
    `pages` the number of pages of all levels. `frames` is from 1 to 65,535.
    Raises OSError where the file cannot be read, and VtexError where it is no store or `frames` is
    outside its bounds.
    """

    def __init__(self, name, frames=256):
        self._library, self._cache, self._file = library(), None, open(name, "rb")
        # The tiles by frame, and by page those that were read for the settling under way.
        self._tiles, self._read = {}, {}
        try:
            head, length = self._file.read(16), self._file.seek(0, os.SEEK_END)
            self._store = _Store()
            _done(
                name,
                self._library.vtex_store_open(head, len(head), length, ctypes.byref(self._store)),
            )
            shape = self._store.shape
            self.width, self.height, self.tile, self.depth = (
                shape.width,
                shape.height,
                shape.tile,
                self._store.depth,
            )
            self.levels, self.pages = self._number("vtex_level_count"), self._number(
                "vtex_page_count"
            )
            self.frames = frames
            if not isinstance(frames, int) or not 1 <= frames <= 65535:
                raise VtexError(f"{frames} frames", 2)
            self._place = (_u64 * (self._library.vtex_cache_size() // 8 + 1))()
            self._library.vtex_cache_init(self._place)
            _done(name, self._library.vtex_cache_open(self._place, ctypes.byref(shape), frames, 1))
            self._cache = self._place
            # The root is mapped for good. It serves what nothing finer does.
            self._upload()
        except BaseException:
            self.close()
            raise

    def __enter__(self):
        return self

    def __exit__(self, *_):
        self.close()

    def close(self):
        """Closes the file and frees the memory. On a closed store only `close` may be called."""
        if self._cache is not None:
            self._library.vtex_cache_close(self._cache)
            self._cache, self._tiles = None, {}
        self._file.close()

    def level_size(self, level):
        """Returns the width and the height of a level, in texels of that level."""
        info = self._level(level)
        return info.width, info.height

    def region(self, level, x, y, width, height, load=True):
        """Returns `width` times `height` texels of a level from column x and row y on, as bytes.

        With `load` each is the store's texel, and the tiles that are not in memory are read; that
        needs `levels - level` frames. Without it nothing is read: a texel whose page is not in
        memory is taken from the finest coarser page over the same place that is. Raises VtexError
        where the part is not inside the level or the frames are too few, and OSError where a read
        fails.
        """
        info = self._level(level)
        numbers = (x, y, width, height)
        if (
            not all(isinstance(n, int) for n in numbers)
            or min(numbers) < 0
            or x + width > info.width
            or y + height > info.height
        ):
            raise VtexError(
                (
                    f"a part of {width}x{height} at ({x}, {y}) of level {level}, which has"
                    f" {info.width}x{info.height}"
                ),
                2,
            )
        size = 3 * self.depth
        out = bytearray(size * width * height)
        if not out:
            return bytes(out)
        columns = range(x // self.tile, (x + width - 1) // self.tile + 1)
        rows = range(y // self.tile, (y + height - 1) // self.tile + 1)
        places = [(column, row) for row in rows for column in columns]
        for group in self._groups(level, places) if load else [places]:
            pages = [self._page(level, column, row) for column, row in group]
            if load:
                self._load(pages)
            for page, (column, row) in zip(pages, group):
                self._copy(page, level, column, row, (x, y, width, height), out, load)
        return bytes(out)

    def array(self, level, x, y, width, height, load=True):
        """Returns `region` as a numpy array of shape (height, width, 3), of uint8 or uint16."""
        import numpy

        data = numpy.frombuffer(
            self.region(level, x, y, width, height, load), dtype=">u2" if self.depth == 2 else "u1"
        )
        return data.reshape(height, width, 3).astype(
            numpy.uint16 if self.depth == 2 else numpy.uint8
        )

    def residency(self):
        """Returns the pages in memory: a list of (level, column, row, frame), fine ones first."""
        self._open()
        found = []
        for level in range(self.levels):
            info = self._level(level)
            table = (_u32 * (info.columns * info.rows))()
            _done(
                f"level {level}",
                self._library.vtex_cache_table(self._cache, level, table, len(table)),
            )
            found += [
                (level, place % info.columns, place // info.columns, frame - 1)
                for place, frame in enumerate(table)
                if frame
            ]
        return found

    # -- what is below is not for callers

    def _open(self):
        if self._cache is None:
            raise VtexError("the store", 4)

    def _number(self, call):
        number = _u32()
        _done(
            call,
            getattr(self._library, call)(ctypes.byref(self._store.shape), ctypes.byref(number)),
        )
        return number.value

    def _level(self, level):
        self._open()
        info = _Level()
        if not isinstance(level, int) or not 0 <= level < self.levels:
            raise VtexError(f"level {level} of {self.levels}", 2)
        _done(
            f"level {level}",
            self._library.vtex_level(ctypes.byref(self._store.shape), level, ctypes.byref(info)),
        )
        return info

    def _page(self, level, column, row):
        page = _u32()
        _done(
            "a page",
            self._library.vtex_page_at(
                ctypes.byref(self._store.shape),
                ctypes.byref(_Name(level, column, row)),
                ctypes.byref(page),
            ),
        )
        return page.value

    def _upload(self):
        """Takes in the tiles of the pages that the last settling mapped, and drops the others."""
        changes = (
            _Change * self._library.vtex_cache_changes(self._cache, ctypes.byref(_Change()), 0)
        )()
        self._library.vtex_cache_changes(self._cache, changes, len(changes))
        for change in changes:
            if not change.mapped:
                self._tiles.pop(change.frame, None)
            else:
                self._tiles[change.frame] = self._read.get(change.page) or self._tile(change.page)

    def _tile(self, page):
        where = _Range()
        _done(
            f"page {page}",
            self._library.vtex_store_tile(ctypes.byref(self._store), page, ctypes.byref(where)),
        )
        self._file.seek(where.start)
        data = self._file.read(where.length)
        if len(data) != where.length:
            raise OSError(
                f"{self._file.name}: the tile of page {page} is not all there; the file was changed"
            )
        return data

    def _groups(self, level, places):
        """Returns the pages of a level in groups that fit into the frames with their ancestors.

        The cache loads a coarser page over a place before a finer one, and keeps it while the finer
        one is wanted. The root has a frame of its own.
        """
        if self.levels - level > self.frames:
            what = f"level {level} needs {self.levels - level} frames, and there are {self.frames}"
            raise VtexError(what, 2)
        groups, held = [], set()
        for column, row in places:
            ups = range(self.levels - 1 - level)
            line = {(level + up, column >> up, row >> up) for up in ups}
            if not groups or len(held | line) >= self.frames:
                groups.append([])
                held = set()
            groups[-1].append((column, row))
            held |= line
        return groups

    def _load(self, pages):
        """Loads pages until all are in memory. They are one group of `_groups`."""
        wanted = (_u32 * len(pages))(*pages)
        while True:
            _done(
                "a pass", self._library.vtex_cache_pass_pages(self._cache, wanted, len(wanted), 64)
            )
            loads = (
                _Load * self._library.vtex_cache_loads(self._cache, ctypes.byref(_Load()), 0)
            )()
            self._library.vtex_cache_loads(self._cache, loads, len(loads))
            if not loads:
                return
            states = (_u8 * len(loads))(*([1] * len(loads)))
            self._read = {}
            try:
                for place, load in enumerate(loads):
                    self._read[load.page] = self._tile(load.page)
                    states[place] = 0
            finally:
                # What was read counts, also where a read failed. The rest is planned again.
                _done("settling", self._library.vtex_cache_settle(self._cache, states, len(states)))
                self._upload()
                self._read = {}

    def _copy(self, page, level, column, row, part, out, exact):
        """Copies the texels of a page that lie inside a part of its level."""
        x, y, width, height = part
        found = _Place()
        _done(
            f"page {page}", self._library.vtex_cache_look_up(self._cache, page, ctypes.byref(found))
        )
        if exact and found.page != page:
            raise VtexError(f"page {page}, which is not in memory", 2)
        tile, side, size, up = (
            self._tiles[found.frame],
            self.tile,
            3 * self.depth,
            found.level - level,
        )
        left, right = max(x, column * side), min(x + width, (column + 1) * side)
        for line in range(max(y, row * side), min(y + height, (row + 1) * side)):
            to, start = size * ((line - y) * width + left - x), ((line >> up) % side) * side
            if up == 0:
                begin = size * (start + left % side)
                out[to : to + size * (right - left)] = tile[begin : begin + size * (right - left)]
            else:
                for texel in range(left, right):
                    begin = size * (start + (texel >> up) % side)
                    out[to : to + size] = tile[begin : begin + size]
                    to += size


def main(words):
    """Writes a part of a level as a PPM: vtex.py STORE LEVEL X Y WIDTH HEIGHT OUT.ppm."""
    if len(words) != 7:
        print("usage: vtex.py STORE LEVEL X Y WIDTH HEIGHT OUT.ppm", file=sys.stderr)
        return 2
    try:
        numbers = [int(word) for word in words[1:6]]
        with Store(words[0]) as store:
            data = store.region(*numbers)
            head = b"P6\n%d %d\n%d\n" % (numbers[3], numbers[4], 256**store.depth - 1)
        with open(words[6], "wb") as out:
            out.write(head + data)
    except (OSError, ValueError, VtexError) as error:
        print(f"vtex.py: {error}", file=sys.stderr)
        return 1
    return 0


if __name__ == "__main__":
    sys.exit(main(sys.argv[1:]))
