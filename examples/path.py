#!/usr/bin/env python3
"""Writes a camera path for vtex, from pixels and degrees.

    path.py SIZE KEY [PICTURES KEY]..              flies from key to key
    path.py SIZE --places FILE                     flies over the places of a list
    path.py SIZE --around X,Y,HEIGHT,RADIUS        flies once round a place, and looks at it

SIZE is that of the pictures, as 320x200. A KEY is X,Y,HEIGHT,HEADING: the camera is over the pixel
(X, Y) of the image, HEIGHT pixels above it, and looks to HEADING, in degrees clockwise from the
right (0 right, 90 down, 180 left, 270 up). PICTURES is the number of pictures on the way to the
key behind it. Fractions are allowed, as 12.5. The camera turns the shorter way.

A list of places has a line for each: X,Y,HEIGHT or X,Y,HEIGHT,HEADING, with commas or blanks.
Without a heading the camera looks to the next place. # begins a comment. FILE may be -.

Options:
    --focal F           focal length in pixels, 1 to 4096; half the width where it is not given
    --angle DEGREES     the same as the angle of view across the picture, 1 to 179
    --pictures N        pictures from place to place (30 where it is not given), or of a round
                        (120; at least 12), whose last picture is its first once more
    --speed PIXELS      for --places, in place of --pictures: pixels from picture to picture
    --output FILE       where the path is written, the standard output where it is not given

Example: path.py 320x200 0,0,256,0 48 1024,512,128,45 > flight.path
"""
import math
import os
import sys

# As it is called: path.py, or vtex-path where it is installed.
NAME = os.path.basename(sys.argv[0])
# The bounds of docs/FORMATS.md, in its units: 1/256 pixel for places and heights.
MOST_SIDE, MOST_FOCAL, MOST_PICTURES, UNIT, ONE = 2048, 4096, 9999, 256, 16384
LEAST_PLACE, MOST_PLACE, MOST_HEIGHT = -(2**31), 2**31, 2**24
# The most degrees of one straight step of a turn, and of a round. In the middle of a step c and s
# are too short, and the ground looks larger: at 30 degrees by 3.5 %. The steps of a round are
# smaller, since its way is straight too: at 10 degrees the camera is 0.4 % nearer in the middle.
TURN, ROUND = 30, 10


class Refusal(Exception):
    """The words, a line of a list, or a number is not as it has to be."""


def number_of(text, what):
    try:
        number = float(text)
    except ValueError:
        raise Refusal(f"{what} is a number, as 12 or 12.5, and not {text!r}") from None
    if not math.isfinite(number):
        raise Refusal(f"{what} is a number, as 12 or 12.5, and not {text!r}")
    return number


def whole_of(text, what, least, most):
    if not (text.isascii() and text.isdigit() and least <= int(text) <= most):
        raise Refusal(f"{what} is a whole number from {least} to {most}, and not {text!r}")
    return int(text)


def size_of(text):
    width, cross, height = text.partition("x")
    if not cross:
        raise Refusal(f"the first word is the size of the pictures, as 320x200, and not {text!r}")
    return tuple(
        whole_of(side, f"the {name} of the pictures", 1, MOST_SIDE)
        for side, name in ((width, "width"), (height, "height"))
    )


def place_of(text, what):
    """Returns a place on the ground in 1/256 pixel."""
    units = round(number_of(text, what) * UNIT)
    if not LEAST_PLACE <= units <= MOST_PLACE:
        raise Refusal(
            f"{what} is from {LEAST_PLACE // UNIT} to {MOST_PLACE // UNIT} pixels, and not {text}"
        )
    return units


def height_of(text, what):
    """Returns a height above the ground in 1/256 pixel."""
    units = round(number_of(text, what) * UNIT)
    if not 1 <= units <= MOST_HEIGHT:
        raise Refusal(f"{what} is from 1/256 to {MOST_HEIGHT // UNIT} pixels, and not {text}")
    return units


def key_of(fields, what):
    """Returns a camera: u, v and h in 1/256 pixel, and the heading in degrees, or None for none."""
    x, y, height, *heading = fields
    return (
        place_of(x, f"X of {what}"),
        place_of(y, f"Y of {what}"),
        height_of(height, f"HEIGHT of {what}"),
        number_of(heading[0], f"HEADING of {what}") % 360 if heading else None,
    )


def numbers_of(key):
    u, v, h, heading = key
    angle = math.radians(heading)
    return f"{u} {v} {h} {round(ONE * math.cos(angle))} {round(ONE * math.sin(angle))}"


def steps_of(count, turn, most):
    """Returns in how many steps a turn goes that takes so many pictures: each by `most` degrees or
    less, or of one picture."""
    if turn <= most:
        return 1
    return math.ceil(count / max(1, math.floor(count * most / turn)))


class Path:
    """The lines of a path, and the number of its pictures."""

    def __init__(self, width, height, focal):
        self.lines, self.pictures = [f"size {width} {height}", f"focal {focal}"], 0

    def begin(self, key):
        self.add(1, f"at {numbers_of(key)}")
        self.key = key

    def fly(self, count, key):
        """Flies straight on to a key in so many pictures, and turns evenly on the way."""
        turn = (key[3] - self.key[3] + 180) % 360 - 180
        steps = steps_of(count, abs(turn), TURN)
        start = self.key
        for step in range(1, steps + 1):
            end, begin = count * step // steps, count * (step - 1) // steps
            between = [round(a + (b - a) * end / count) for a, b in zip(start[:3], key[:3])]
            heading = start[3] + turn * end / count
            self.add(end - begin, f"to {end - begin} {numbers_of((*between, heading))}")
        self.key = key

    def add(self, count, line):
        self.pictures += count
        if self.pictures > MOST_PICTURES:
            raise Refusal(f"a path has at most {MOST_PICTURES} pictures; this one would have more")
        self.lines.append(line)


def fly_keys(path, words):
    if len(words) % 2 == 0:
        raise Refusal(
            f"behind the last key {words[-2]} stands {words[-1]!r}; the order is KEY PICTURES KEY"
            if words
            else "there is no key; a key is X,Y,HEIGHT,HEADING, as 0,0,256,0"
        )
    keys = []
    for place, word in enumerate(words[::2], 1):
        fields = word.split(",")
        if len(fields) != 4:
            raise Refusal(f"key {place} is X,Y,HEIGHT,HEADING, as 0,0,256,0, and not {word!r}")
        keys.append(key_of(fields, f"key {place}"))
    path.begin(keys[0])
    for place, (count, key) in enumerate(zip(words[1::2], keys[1:]), 2):
        path.fly(whole_of(count, f"the number of pictures to key {place}", 1, MOST_PICTURES), key)


def places_of(name):
    """Returns the places of a list, each with a heading: its own, or that to the next place."""
    try:
        if name == "-":
            text = sys.stdin.read()
        else:
            with open(name, encoding="utf-8-sig") as file:
                text = file.read()
    except (OSError, UnicodeDecodeError) as error:
        reason = error.strerror if isinstance(error, OSError) else "it is not a text in UTF-8"
        raise Refusal(f"{name} cannot be read: {reason}") from None
    keys = []
    for number, line in enumerate(text.splitlines(), 1):
        fields = line.partition("#")[0].replace(",", " ").split()
        if fields:
            if len(fields) not in (3, 4):
                raise Refusal(
                    f"{name}, line {number}: a place is X,Y,HEIGHT or X,Y,HEIGHT,HEADING,"
                    f" and not {line.strip()!r}"
                )
            keys.append(key_of(fields, f"{name}, line {number}"))
    if not keys:
        raise Refusal(f"{name} has no places; a place is a line X,Y,HEIGHT or X,Y,HEIGHT,HEADING")
    return headed(keys)


def headed(keys):
    found, last = [], 0.0
    for key, after in zip(keys, keys[1:] + keys[-1:]):
        if key[3] is not None:
            last = key[3]
        elif key[:2] != after[:2]:
            last = math.degrees(math.atan2(after[1] - key[1], after[0] - key[0])) % 360
        found.append((*key[:3], last))
    return found


def fly_places(path, name, count, speed):
    keys = places_of(name)
    path.begin(keys[0])
    for key in keys[1:]:
        if speed is not None:
            count = max(1, round(math.dist(key[:2], path.key[:2]) / UNIT / speed))
        path.fly(count, key)


def fly_around(path, word, count, size, focal):
    fields = word.split(",")
    if len(fields) != 4:
        raise Refusal(f"--around takes X,Y,HEIGHT,RADIUS, as 512,512,128,300, and not {word!r}")
    x, y = (number_of(it, f"{name} of --around") for it, name in zip(fields, "XY"))
    height, radius = fields[2], number_of(fields[3], "RADIUS of --around")
    if radius < 0:
        raise Refusal(f"RADIUS of --around is 0 or more pixels, and not {fields[3]}")
    steps = steps_of(count, 360, ROUND)

    def key(turn):
        """The camera after a part of the round, right of the place at first, and then below it."""
        angle = 2 * math.pi * turn
        across, down = x + radius * math.cos(angle), y + radius * math.sin(angle)
        # With no radius it stays where it is and looks all round.
        heading = (360 * turn + (180 if radius else 0)) % 360
        return key_of([repr(across), repr(down), height, repr(heading)], "--around")

    # The first picture stands where the last one would: the round closes, and a film can be looped.
    path.begin(key(0))
    for step in range(steps):
        begin, end = count * step // steps, count * (step + 1) // steps
        path.fly(end - begin, key(end / count))
    if radius:
        row = path.key[2] / UNIT * focal / radius
        if row > size[1]:
            print(
                (
                    f"{NAME}: note: the place itself lies below the picture; it is in it from a"
                    f" RADIUS of {math.ceil(path.key[2] / UNIT * focal / size[1])} on"
                ),
                file=sys.stderr,
            )


OPTIONS = ("focal", "angle", "places", "around", "pictures", "speed", "output")


def taken(words):
    """Returns the names among the words, and the options with their values."""
    plain, options, rest = [], {}, list(words)
    while rest:
        word = rest.pop(0)
        if not word.startswith("--"):
            plain.append(word)
            continue
        name, equals, value = word[2:].partition("=")
        if name not in OPTIONS:
            every = ", ".join(f"--{it}" for it in OPTIONS)
            raise Refusal(f"there is no option --{name}; the options are {every}")
        if name in options:
            raise Refusal(f"--{name} is given twice; give it once")
        if not equals:
            if not rest:
                raise Refusal(f"--{name} has no value behind it")
            value = rest.pop(0)
        options[name] = value
    return plain, options


def focal_of(options, width):
    if "focal" in options and "angle" in options:
        raise Refusal("--focal and --angle are the same; give one of them")
    if "focal" in options:
        return whole_of(options["focal"], "--focal", 1, MOST_FOCAL)
    if "angle" not in options:
        return max(1, width // 2)
    angle = number_of(options["angle"], "--angle")
    if not 1 <= angle <= 179:
        raise Refusal(f"--angle is from 1 to 179 degrees, and not {options['angle']}")
    focal = round(width / 2 / math.tan(math.radians(angle) / 2))
    if not 1 <= focal <= MOST_FOCAL:
        raise Refusal(
            f"--angle {options['angle']} of {width} columns is a focal length of {focal} pixels,"
            f" and it is at most {MOST_FOCAL}; take a larger angle"
        )
    return focal


def path_of(words):
    """Returns the text of the path, and the name it is to be written to, or None."""
    plain, options = taken(words)
    if not plain:
        raise Refusal("the first word is the size of the pictures, as 320x200")
    size = size_of(plain[0])
    focal = focal_of(options, size[0])
    path = Path(*size, focal)
    ways = [it for it in ("places", "around") if it in options]
    if len(ways) + bool(plain[1:]) > 1:
        given = [f"--{it}" for it in ways] + (["keys"] if plain[1:] else [])
        raise Refusal(
            f"a path is of keys, of --places or of --around, and not of {' and '.join(given)}"
        )
    for name in ("pictures", "speed"):
        if name in options and name == "speed" and ways != ["places"]:
            raise Refusal("--speed is for --places")
        if name in options and not ways:
            raise Refusal(f"--{name} is for --places and --around; between keys stands the number")
    if "pictures" in options and "speed" in options:
        raise Refusal("--pictures and --speed both give the number of pictures; give one of them")
    speed = number_of(options["speed"], "--speed") if "speed" in options else None
    if speed is not None and speed <= 0:
        raise Refusal(f"--speed is more than 0 pixels a picture, and not {options['speed']}")
    usual, least = ("120", 12) if ways == ["around"] else ("30", 1)
    count = whole_of(options.get("pictures", usual), "--pictures", least, MOST_PICTURES)
    if ways == ["places"]:
        fly_places(path, options["places"], count, speed)
    elif ways == ["around"]:
        fly_around(path, options["around"], count, size, focal)
    else:
        fly_keys(path, plain[1:])
    return "".join(f"{line}\n" for line in path.lines), options.get("output")


def main(words):
    if not words or words[0] in ("--help", "-h"):
        print(__doc__.strip().replace("path.py", NAME), file=sys.stdout if words else sys.stderr)
        return 0 if words else 2
    try:
        text, name = path_of(words)
    except Refusal as refusal:
        print(f"{NAME}: {refusal}", file=sys.stderr)
        return 2
    try:
        if name is None:
            sys.stdout.write(text)
            sys.stdout.flush()
        else:
            with open(name, "w", encoding="ascii", newline="\n") as file:
                file.write(text)
    except OSError as error:
        print(
            f"{NAME}: {name or 'the output'} cannot be written: {error.strerror}", file=sys.stderr
        )
        return 3
    return 0


if __name__ == "__main__":
    sys.exit(main(sys.argv[1:]))
