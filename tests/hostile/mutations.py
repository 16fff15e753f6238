"""Mutations of lawful textures, paths, stores and journals by the parts of their grammar, for run.py.

Half of the mutated paths and journals are aimed: one number stands at a bound of its field or one beyond, or one rule of journals is broken and all other
lines are counted anew, so that nothing else is wrong. The others have any fields, lines and separators changed, mostly one.
"""
import re

from cases import Inputs
from stores import CAMERA, Flaw, Geometry, Path
from textures import MOST_HEADER

GAP = rb"[ \t\n\r](?:[ \t\n\r]|#[^\n\r]*)*"
TEXTURE = re.compile(rb"(P6)(%s)(\d+)(%s)(\d+)(%s)(\d+)([ \t\n\r])(.*)" % (GAP, GAP, GAP), re.DOTALL)
MAGIC, WIDTH, HEIGHT, MAXIMUM, WHITE, RASTER = 0, 2, 4, 6, 7, 8
MAGICS = [b"", b"P", b"P6P6", b"P5", b"P3", b"p6", b"6P", b" P6", b"VTS1", b"VTS2", b"VTS0", b"VTS3", b"VTS", b"vts1", b"\xef\xbb\xbfP6"]
GAPS = [b"", b"#a\n", b" #", b" # no end ", b"\n#a\r", b" #a\n#b\n", b"\t\r\n ", b"\v", b"\f ", b"\0", b" \0", b"\xa0", b"  ", b"#", b" #\n", b"\r\n"]
WORDS = b"size focal at to map unmap lost pass row picture start end # map: MAP P6".split(b" ") + [b"", b"\0", b"ma", b"rows", b"\xef\xbb\xbfmap"]
SEPARATORS = [b"", b"  ", b"\t", b"\r", b"\r\n", b" \n", b"\n ", b"\n\n", b"\0", b"\v", b",", b"\xc2\xa0"]
BOUNDS = [0, 1, 2, 24, 64, 128, 255, 256, 2048, 4096, 8192, 9999, 16384, 65535, 262144, 2**24, 2**31, 2**32, 2**53, 2**63, 2**64, 10**10, 10**19]
SPELLINGS = [b"0%s", b"00%s", b"+%s", b"-%s", b"%s.0", b"%se0", b"0x%s", b"%s\0", b"%s,", b"%s_0", b"", b"-0", b"-", b"x", b"\xef\xbc\x91"]
SPELLINGS += [b"1" * 25, b"7" * 5000, b"9" * 10, b"9" * 11, b"%s#", b"#%s", b"0" * 300 + b"%s"]
OF_PATHS = {b"size": [(1, 2048)] * 2, b"focal": [(1, 4096)], b"at": CAMERA, b"to": [(1, 9999)] + CAMERA}
OF_SIDES = [0, 1, 3, 8191, 8192, 8193, 16383, 16384, 16385, 2**32 + 1]
OF_MAXIMA = [0, 1, 254, 255, 256, 257, 65534, 65535, 65536, 2**16 + 255, 2**32 + 255, 10**10 - 1]
# Sides and T of stores of 262,144 pages and of 262,145.
FULL = [(2552, 1229, 4), (2463, 5097, 8), (4926, 10193, 16), (767, 1023, 2), (1507, 8297, 8), (6133, 8177, 16)]
MOST_PIXELS = 3000
SIDES = [1, 2, 3, 4, 5, 8, 9, 13]


class Mutations(Inputs):
    """Makes small lawful inputs, and mutates them. The names of the mutations are kept as damages."""

    tiles_of_stores = [2, 2, 2, 2, 4, 4, 8, 32]

    def side(self):
        return self.random.choice(SIDES)

    def maybe_damaged(self, data):
        return data

    def gap(self):
        return self.random.choice([b" ", b" ", b"\n", b" #a comment\n", b"\n# one\r#two\n \t"])

    def path(self, keys=2):
        return super().path(keys)

    def flight(self):
        steps = self.random.randint(1, 3)
        return super().flight() + self.random.choice([b"", b"to %d %d 300 2000 16384 0\n" % (steps, self.random.randrange(2**14))])

    def settings(self, store, path):
        settings = super().settings(store, path)
        settings.samplers = min(settings.samplers, self.random.choice([4, 4, 64]))
        if settings.frames > 300 and not self.is_one_in(10):
            settings.frames = store.geometry.pages
        return settings

    def journal(self, store_bytes, path_text):
        if self.is_one_in(2):
            return super().journal(store_bytes, path_text)
        sides = (int.from_bytes(store_bytes[at : at + 4], "big") for at in (4, 8, 12))
        path = Path(path_text)
        return joined(self.free_journal(Geometry(*sides), path.height, len(path.cameras)))

    def free_journal(self, geometry, height, pictures):
        """The lines of a journal that is lawful, though no walk need make it: any pages, frames, samplers and versions."""
        name = lambda page: b"%d %d %d" % geometry.name_of(page)
        first = max(geometry.pages - self.random.choice([1, 1, 2, 5, geometry.pages]), 0)
        table = {page: frame for frame, page in enumerate(range(first, geometry.pages))}
        text = b"".join(b"map %d %s %d\n" % (frame + 1, name(page), frame) for page, frame in table.items())
        version, picture = len(table), 0
        for number in range(1, self.random.randint(0, 6) + 1 if pictures else 1):
            start = version
            text += b"pass %d picture %d start %d\n" % (number, picture, start)
            for _ in range(self.random.randrange(8) if first else 0):
                page, frame = self.random.randrange(first), self.random.choice([self.random.randrange(9), 65534, self.random.randrange(65535)])
                loaded = [page for page in table if page < first]
                if loaded and self.is_one_in(2):
                    page = self.random.choice(loaded)
                if page not in table and (frame in table.values() or self.is_one_in(4)):
                    text += b"lost %s\n" % name(page)
                    continue
                version += 1
                word = b"unmap" if page in table else b"map"
                frame = table.pop(page) if page in table else table.setdefault(page, frame)
                text += b"%s %d %s %d\n" % (word, version, name(page), frame)
            floors = {}
            for y in range(height):
                sampler = self.random.choice([0, y % 3, 63])
                floors[sampler] = self.random.randint(floors.get(sampler, start), version)
                text += b"row %d %d %d\n" % (y, sampler, floors[sampler])
            picture += self.random.randrange(2) if picture + 1 < pictures else 0
        return lines_of(text)

    def mutate(self, case):
        """Mutates one of the inputs of a case, sometimes more, and seldom none."""
        names = sorted(case.inputs)
        chosen = [name for name in names if self.is_one_in(8)] + [self.random.choice(names + [name for name in names if name == "j.txt"] * 3)]
        for name in sorted(set(chosen)) if not self.is_one_in(12) else []:
            if self.is_one_in(25):
                self.exchange(case.inputs, name)
            else:
                case.inputs[name] = self.mutated(case.inputs[name])

    def exchange(self, inputs, name):
        """Puts something else in the place of an input."""
        kind = self.random.choice(["another file", "no bytes", "random bytes", "a folder", "missing"])
        self.damages.append(kind)
        if kind == "missing":
            del inputs[name]
            return
        others = [self.texture(), self.path(), self.store(), b"map 1 0 0 0 0\n"]
        size = self.random.choice([1, 16, 100, 2000])
        made = {"another file": self.random.choice(others), "no bytes": b"", "random bytes": self.random.randbytes(size), "a folder": None}
        inputs[name] = made[kind]

    def mutated(self, data):
        """Lawful bytes with some of their parts made others; their kind is seen from their first letter."""
        change = {b"P": self.mutated_texture, b"V": self.mutated_store}.get(data[:1], self.mutated_text)
        data = change(data, self.random.choice([0, 1, 1, 1, 1, 2, 2, 3, 5]))
        return self.damaged(data) if self.is_one_in(6) else data

    def named(self, name, value):
        self.damages.append(name)
        return value

    def other_number(self, field):
        """A number near that of a field, one that is equal to it in its lower bits, or one at a bound of some field."""
        number = int(field) if re.fullmatch(rb"-?[0-9]{1,30}", field) else 0
        near = number + self.random.choice([-2, -1, 1, 2])
        wrapped = number + self.random.choice([-1, 1]) * 2 ** self.random.choice([8, 16, 31, 32, 63, 64])
        bound = self.random.choice([-1, 1, 1, 1]) * (self.random.choice(BOUNDS) + self.random.choice([-1, 0, 0, 1]))
        return self.named("another number", b"%d" % self.random.choice([near, near, wrapped, bound, bound, -number]))

    def other_field(self, field):
        if not self.is_one_in(3):
            return self.other_number(field)
        if self.is_one_in(4):
            return self.named("digits added in front", field.zfill(self.random.randint(9, 12)))
        return self.named("another spelling", self.random.choice(SPELLINGS).replace(b"%s", field))

    def mutated_texture(self, data, count):
        parts = list(TEXTURE.fullmatch(data).groups())
        if self.is_one_in(30):
            parts[self.random.choice([1, 3, 5])] = self.long_gap(parts)
            return b"".join(parts)
        for _ in range(count):
            at = self.random.choice([MAGIC, 1, WIDTH, 3, HEIGHT, 5, MAXIMUM, MAXIMUM, WHITE, RASTER, RASTER, RASTER])
            if at == MAGIC:
                parts[at] = self.named("another magic", self.random.choice(MAGICS))
            elif at == RASTER:
                parts[at] = self.other_raster(parts)
            elif at in (WIDTH, HEIGHT, MAXIMUM):
                bound = self.random.choice(OF_MAXIMA if at == MAXIMUM else OF_SIDES)
                parts[at] = self.other_field(parts[at]) if self.is_one_in(2) else self.named("a number at its bound", b"%d" % bound)
            else:
                parts[at] = self.named("another gap", self.random.choice(GAPS))
        return b"".join(parts)

    def long_gap(self, parts):
        """A gap, one of two bytes less, by which the header ends near the most bytes that it may have."""
        size = MOST_HEADER + self.random.randint(-1, 4) - sum(map(len, parts[:RASTER]))
        return self.named("a long gap", self.random.choice([b" " * size, b" #%s\n" % (b"x" * (size - 3)), b"\n" + b"#\r" * (size // 2)]))

    def other_raster(self, parts):
        """The raster cut short, with more bytes, or with a sample at the maximum or above it."""
        raster, most = parts[RASTER], int(parts[MAXIMUM]) if re.fullmatch(rb"[0-9]{1,9}", parts[MAXIMUM]) else 255
        if self.is_one_in(2):
            cut = raster[: len(raster) - self.random.choice([1, 1, 2, 3, len(raster)])]
            return self.named("another length", self.random.choice([cut, raster + b"\xff", raster + b"P6\n"]))
        depth = 1 if most < 256 else 2
        at = depth * self.random.choice([0, max(len(raster) // depth - 1, 0), self.random.randrange(len(raster) // depth + 1)])
        sample = min(self.random.choice([most, most + 1, most + 1, 65535, 255]), 256**depth - 1)
        return self.named("another sample", raster[:at] + sample.to_bytes(depth, "big") + raster[at + depth :])

    def mutated_store(self, data, count):
        magic, numbers, tiles = data[:4], [int.from_bytes(data[at : at + 4], "big") for at in (4, 8, 12)], data[16:]
        if self.is_one_in(30):
            return self.random.choice([self.long_store, self.full_store])(magic)
        for _ in range(count):
            kind = self.random.choice(["magic", "number", "number", "number", "tiles", "tiles", "cut"])
            if kind == "magic":
                magic = self.named("another magic", self.random.choice(MAGICS))
            elif kind == "number":
                at = self.random.randrange(3)
                swapped = int.from_bytes(numbers[at].to_bytes(4, "big"), "little")
                aimed = self.random.choice([0, 1, 3, 127, 129, 256, 512] if at == 2 else [0, 1, 16383, 16384, 16385] + SIDES)
                numbers[at] = self.random.choice([int(self.other_number(b"%d" % numbers[at])) % 2**32, swapped, aimed, aimed])
            elif kind == "tiles":
                size, at = self.random.choice([1, 3 * min(numbers[2], 99) ** 2]), self.random.randrange(len(tiles) + 1)
                tiles = self.named("other tiles", self.random.choice([tiles[:-size], tiles + b"\0" * size, tiles[:at] + b"\xff" + tiles[at + 1 :]]))
            else:
                whole = magic + b"".join(number.to_bytes(4, "big") for number in numbers)
                return self.named("cut in the header", whole[: self.random.randrange(17)])
        return magic + b"".join(number.to_bytes(4, "big") for number in numbers) + tiles

    def long_store(self, magic):
        """A store with a side near the most that it may have, and as many bytes as its header says, or nearly."""
        long, other, tile = self.random.randint(16380, 16385), self.random.choice([1, 2, 3]), self.random.choice([2, 4, 8, 16])
        sides = self.random.choice([(long, other), (other, long)])
        want = Geometry(*sides, tile).pages * 3 * (2 if magic == b"VTS2" else 1) * tile**2 + self.random.choice([0, 0, -1, 1])
        return self.named("a long store", magic + b"".join(number.to_bytes(4, "big") for number in (*sides, tile)) + b"\x55" * want)

    def full_store(self, magic):
        """The header of a store with as many pages as there may be, or one more."""
        *sides, tile = self.random.choice(FULL)
        sides = self.random.sample(sides, 2)
        return self.named("a full store", magic + b"".join(number.to_bytes(4, "big") for number in (*sides, tile)))

    def mutated_text(self, data, count):
        lines, aim = lines_of(data), {b"s": self.aim_at_path, b"m": self.aim_at_journal}[data[:1]]
        if count and self.is_one_in(2):
            aim(lines)
            return joined(lines)
        for _ in range(count):
            self.random.choice([self.change_field, self.change_field, self.change_field, self.change_lines])(lines)
        if data[:1] == b"m" and count and self.is_one_in(2):
            self.count_anew(lines)
        text = joined(lines)
        if self.is_one_in(8):
            places = [at for at, byte in enumerate(text) if byte in b" \n"]
            at = self.random.choice(places or [0])
            text = self.named("another separator", text[:at] + self.random.choice(SEPARATORS) + text[at + 1 :])
        return text

    def aim_at_path(self, lines):
        """Puts a number of a path at a bound of its field or one beyond, or puts a line in whose pictures may be too many."""
        if self.is_one_in(8):
            steps = b"%d" % (9999 - self.random.choice([0, 0, 1, 2, 4999]))
            lines.insert(self.random.randint(2, len(lines)), self.named("many pictures", [b"to", steps, b"0", b"0", b"256", b"0", b"0"]))
            return
        word = self.random.choice(sorted({line[0] for line in lines}))
        line = self.random.choice([line for line in lines if line[0] == word])
        at = self.random.randint(1, len(line) - 1)
        bound = self.random.choice(OF_PATHS[word][at - 1])
        line[at] = self.named("a number at its bound", b"%d" % (bound + self.random.choice([-1, 0, 1])))

    def pick(self, lines, *words):
        """The number of a line that begins with one of some words, mostly of one in a pass, or of any line where there is none."""
        places = [at for at, line in enumerate(lines) if line[0] in words]
        begun = next((at for at, line in enumerate(lines) if line[0] == b"pass"), 0)
        places = places if self.is_one_in(4) else [at for at in places if at >= begun] or places
        return self.random.choice(places) if places else self.random.randrange(len(lines))

    def aim_at_journal(self, lines):
        """Makes a journal break one rule, or come near to it, with all other lines as they may be then."""
        self.random.choice([self.aim_at_number, self.aim_at_number, self.aim_at_change, self.aim_at_change, self.aim_at_row, self.aim_at_order])(lines)

    def aim_at_number(self, lines):
        """Changes one number of a line by little, or to a bound."""
        line = lines[self.pick(lines, self.random.choice([b"map", b"unmap", b"lost", b"pass", b"row"]))]
        numbers = [at for at in range(1, len(line)) if line[at].isdigit()]
        at = self.random.choice(numbers[:1] * 2 + numbers + numbers[-1:] * 2)
        near = [int(line[at]) + 1, max(int(line[at]) - 1, 0)]
        bounds = {(b"map", 5): [65534, 65535, 65535, 65536], (b"row", 2): [63, 64]}.get((line[0], at), near)
        line[at] = self.named("a number of a journal", b"%d" % self.random.choice(near + bounds))

    def aim_at_change(self, lines):
        """Maps a page or a frame twice, unmaps or loses what it may not, or leaves a change out, and counts the rest anew."""
        mapped, begun = lines[self.pick(lines, b"map")], self.pick(lines, b"pass")
        page, frame = mapped[2:5], mapped[5:]
        kind = self.random.choice(["page mapped again", "frame mapped again", "page unmapped", "page lost", "other frame unmapped", "change left out"])
        self.damages.append(kind)
        if kind == "page mapped again":
            lines.insert(begun + 1, [b"map", b"0", *page, b"60000"])
        elif kind == "frame mapped again":
            lines[self.pick(lines, b"map")][5:] = frame
        elif kind == "page unmapped":
            lines.insert(begun + 1, [b"unmap", b"0", *page, *frame])
        elif kind == "page lost":
            lines.insert(begun + 1, [b"lost", *page])
        elif kind == "other frame unmapped":
            lines[self.pick(lines, b"unmap")][5:] = frame
        else:
            del lines[self.pick(lines, b"map", b"unmap")]
        self.count_anew(lines)

    def aim_at_row(self, lines):
        """Draws a row at a version just outside its pass, or lets a sampler go back, or leaves a row out or puts one more."""
        at = self.pick(lines, b"row")
        begun = max([place for place in range(at + 1) if lines[place][0] == b"pass"] or [0])
        changes = [sum(line[0] in (b"map", b"unmap") for line in lines[:place]) for place in (begun, at)]
        kind = self.random.choice(["row too early", "row too late", "sampler goes back", "row left out", "row more"])
        self.damages.append(kind)
        if kind == "row left out":
            del lines[at]
        elif kind == "row more":
            lines.insert(at + 1, [b"row", b"%d" % (int(lines[at][1]) + 1), *lines[at][2:]])
        elif lines[at][0] == b"row" and kind == "sampler goes back":
            lines[at][2:] = [b"5", b"%d" % changes[1]]
            if at + 1 < len(lines) and lines[at + 1][0] == b"row":
                lines[at + 1][2:] = [b"5", b"%d" % self.random.choice(changes)]
        elif lines[at][0] == b"row":
            lines[at][3] = b"%d" % max((changes[0] - 1) if kind == "row too early" else (changes[1] + 1), 0)

    def aim_at_order(self, lines):
        """Moves a change behind the first row that follows it or before the pass, or loses its page behind an earlier row, and counts the rest anew."""
        at = self.pick(lines, self.random.choice([b"map", b"unmap", b"lost"]))
        rows = [place for place in range(at + 1, len(lines)) if lines[place][0] == b"row"]
        passes = [place for place in range(at) if lines[place][0] == b"pass"]
        self.damages.append("a change moved")
        if self.is_one_in(4):
            earlier = [place for place in range(at) if lines[place][0] == b"row"]
            lines.insert(self.random.choice(earlier or [at]) + 1, [b"lost", *lines[at][-4:-1]])
        elif rows and (not passes or self.is_one_in(2)):
            lines.insert(rows[0], lines.pop(at))
        elif passes:
            lines.insert(passes[0], lines.pop(at))
        self.count_anew(lines)

    def change_field(self, lines):
        """Changes a field of a line, or takes one from another line."""
        if not lines:
            return
        line, other = self.random.choice(lines), self.random.choice(lines)
        at = self.random.randrange(len(line))
        kind = self.random.randrange(12)
        if kind == 0:
            line[at] = self.named("another word", self.random.choice(WORDS))
        elif kind == 1:
            self.named("a field left out", line.pop(at))
        elif kind == 2:
            line.insert(at, self.named("a field more", self.random.choice([line[at], b"0", b""])))
        elif kind == 3:
            line[at], line[-1] = self.named("fields exchanged", (line[-1], line[at]))
        elif kind in (4, 5, 6):
            size = self.random.choice([1, 3])
            line[at : at + size] = self.named("fields of another line", other[at : at + size])
        else:
            line[at] = self.other_field(line[at])
        if not line:
            line.append(b"")

    def change_lines(self, lines):
        """Leaves out, repeats, exchanges or moves a line, ends the text, or puts in a line that another text may have."""
        at, to = self.random.randrange(len(lines) + 1), self.random.randrange(len(lines) + 1)
        kind = self.random.choice(["left out", "repeated", "exchanged", "moved", "cut", "put in", "joined"])
        self.damages.append("a line " + kind)
        taken = lines[at : at + 1]
        if kind == "left out":
            del lines[at : at + self.random.choice([1, 1, 2])]
        elif kind == "repeated":
            times, place = self.random.choice([(1, to), (1, at), (1, at), (self.random.choice([1, 30, 3000, 10000]), at)])
            lines[place:place] = [list(line) for line in taken * times]
        elif kind == "exchanged":
            lines[at : at + 2] = lines[at : at + 2][::-1]
        elif kind == "moved":
            del lines[at : at + 1]
            lines[to:to] = taken
        elif kind == "cut":
            del lines[at:]
        elif kind == "put in":
            lines[at:at] = [self.random.choice(LINES).split(b" ")]
        else:
            lines[at : at + 2] = [sum(lines[at : at + 2], [])] if taken else []

    def count_anew(self, lines):
        """Counts the versions, passes and starts of a journal anew, and moves the versions of its rows between those of their pass."""
        version = passes = start = 0
        for line in lines:
            if line[0] in (b"map", b"unmap") and len(line) == 6:
                version += 1
                line[1] = b"%d" % version
            elif line[0] == b"pass" and len(line) == 6:
                passes, start = passes + 1, version
                line[1], line[5] = b"%d" % passes, b"%d" % version
            elif line[0] == b"row" and len(line) == 4 and line[3].isdigit() and len(line[3]) < 20:
                line[3] = b"%d" % min(max(int(line[3]), start), version)


LINES = [b"size 2 1", b"focal 1", b"at 0 0 256 16384 0", b"to 2 0 0 256 16384 0", b"to 9999 0 0 256 16384 0", b"to 5000 1 1 1 1 1", b""]
LINES += [b"to 1 0 0 1 0 0", b"to 9998 1 1 1 1 1", b"to 9999 0 0 1 0 0"]
LINES += [b"map 1 0 0 0 0", b"unmap 2 0 0 0 0", b"lost 0 0 0", b"lost 1 0 0", b"pass 1 picture 0 start 1", b"row 0 0 1", b"# a comment"]
LINES += [b"at 2147483648 -2147483648 16777216 16384 -16384", b"to 3 -2147483648 2147483648 1 -16384 16384"]


def lines_of(text):
    """The lines of a lawful text, each a list of its fields."""
    return [line.split(b" ") for line in text.split(b"\n")[:-1]]


def joined(lines):
    return b"".join(b" ".join(line) + b"\n" for line in lines)


def is_small(case):
    """The path, if it is one, has few pixels, so that the reference draws it soon."""
    try:
        path = Path(case.inputs.get("p.path") or b"")
    except Flaw:
        return True
    return (path.width * path.height + 10) * len(path.cameras) <= MOST_PIXELS
