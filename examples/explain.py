#!/usr/bin/env python3
"""Runs vtex, and explains in a sentence why it refused.

    explain.py vtex WORDS..          as: explain.py vtex tile photo.png photo.vts

The program's own lines and status stay as they are. Where the status is not 0, one line more goes
to the error output, `explain: ` with the cause and what to do. It is found from the words and from
the files as they stand after the run. Needs Python 3.9; docs/FORMATS.md has the rules.
"""
import difflib
import os
import re
import subprocess
import sys

# The words of each command, and its options.
COMMANDS = {
    "plain": (("TEXTURE", "PATH", "PREFIX"), ("tile", "filter")),
    "tile": (("TEXTURE", "STORE"), ("tile",)),
    "info": (("STORE",), ()),
    "upgrade": (("STORE", "NEWSTORE"), ()),
    "walk": (
        ("STORE", "PATH", "PREFIX"),
        (
            "frames",
            "samplers",
            "loaders",
            "batch",
            "pinned",
            "journal",
            "table",
            "rows",
            "filter",
            "settled",
        ),
    ),
    "replay": (("STORE", "PATH", "JOURNAL", "PREFIX"), ("filter",)),
    "gen": (("NUMBER", "WIDTH", "HEIGHT", "NAME"), ()),
    "trial": (("NUMBER",), ()),
}
RANGES = {
    "frames": (1, 65535),
    "samplers": (1, 64),
    "loaders": (1, 16),
    "batch": (1, 4096),
    "pinned": (1, 16),
}
NUMBERS = {"NUMBER": (0, 65535), "WIDTH": (1, 8192), "HEIGHT": (1, 8192)}
CHOICES = {
    "tile": ("2", "4", "8", "16", "32", "64", "128"),
    "filter": ("nearest", "bilinear"),
    "table": ("words", "swap"),
    "rows": ("dealt", "shared"),
}
# At most one of these options of a walk may have another value than its default.
MACHINES = {"table": "words", "rows": "dealt", "filter": "nearest"}
MOST_TEXELS = 8388608
# What the words name that is read, and what it has to be.
READ = {
    "TEXTURE": "a PPM texture",
    "STORE": "a tile store",
    "PATH": "a camera path",
    "JOURNAL": "a journal",
}
# The first bytes of a file, and what it is then.
KINDS = (
    (b"P6", "a PPM texture"),
    (b"VTS1", "a tile store"),
    (b"VTS2", "a tile store"),
    (b"size ", "a camera path"),
    (b"map ", "a journal"),
    (b"\x89PNG", "a PNG image"),
    (b"\xff\xd8\xff", "a JPEG image"),
    (b"II*\0", "a TIFF image"),
    (b"MM\0*", "a TIFF image"),
    (b"II+\0", "a BigTIFF image"),
    (b"MM\0+", "a BigTIFF image"),
    (b"GIF8", "a GIF image"),
    (b"RIFF", "a WebP image"),
    (b"BM", "a BMP image"),
    (b"P1", "a PBM image"),
    (b"P2", "a grey PGM image in text"),
    (b"P3", "a PPM image in text"),
    (b"P4", "a PBM image"),
    (b"P5", "a grey PGM image"),
    (b"P7", "a PAM image"),
    (b"\xef\xbb\xbf", "a text that begins with a byte order mark"),
)


def kind_of(name):
    """Returns what a file is, by its first bytes; None where it cannot be read."""
    try:
        with open(name, "rb") as file:
            head = file.read(16)
    except OSError:
        return None
    if not head:
        return "an empty file"
    return next((kind for start, kind in KINDS if head.startswith(start)), "a file of another kind")


def like(word, names, form="{}"):
    near = difflib.get_close_matches(word.lower(), names, 1)
    return f"; did you mean {form.format(near[0])}?" if near else ""


def named(count, word):
    return f"{count} {word}" if count == 1 else f"{count} {word}s"


def flaw_of_number(name, text, least, most):
    if re.fullmatch(r"0|[1-9][0-9]*", text) and least <= int(text) <= most:
        return None
    return f"{name} is a whole number from {least} to {most}, without leading zeros, and not {text}"


def flaw_of_option(name, text):
    if name in RANGES:
        return flaw_of_number(f"--{name}", text, *RANGES[name])
    if name in CHOICES and text not in CHOICES[name]:
        return f"--{name} takes one of {', '.join(CHOICES[name])}, and not {text}"
    return None


class Words:
    """The words of a command: the command, its names and its options; or the first flaw."""

    def __init__(self, words):
        self.command, self.names, self.options = None, {}, {}
        self.flaw = self.take(words)

    def take(self, words):
        if (
            any(
                word in ("--help", "-h", "help", "--version", "-V", "version") for word in words[:1]
            )
            or "--help" in words
            or "-h" in words
        ):
            return (
                "the program prints no help and no version; read the manual: man vtex, or"
                " docs/FORMATS.md"
            )
        if not words:
            return f"no command is given; the commands are {', '.join(COMMANDS)}"
        self.command = words[0]
        if self.command.startswith("-"):
            return (
                "the command comes first, and the options behind it: vtex walk STORE PATH PREFIX"
                " --frames 64"
            )
        if self.command not in COMMANDS:
            return f"there is no command {self.command}" + (
                like(self.command, COMMANDS) or f"; the commands are {', '.join(COMMANDS)}"
            )
        form, known = COMMANDS[self.command]
        plain, rest = [], list(words[1:])
        while rest:
            word = rest.pop(0)
            if not is_text(word):
                return f"a name has to be UTF-8, and {word!r} is not; rename the file"
            if word == "--":
                plain += rest
                break
            if word.startswith("--"):
                flaw = self.take_option(word, rest, known)
                if flaw:
                    return flaw
            elif word.startswith("-") and len(word) > 1:
                return (
                    f"there is no option {word}; the options of {self.command} begin with --, and a"
                    f" name that begins with - stands behind --, as in: vtex {self.command} --"
                    f" {word}"
                )
            else:
                plain.append(word)
        if len(plain) != len(form):
            return (
                f"{self.command} takes {named(len(form), 'word')} ({' '.join(form)}) and got"
                f" {len(plain)}"
                + (f" ({' '.join(plain)})" if plain else "")
                + self.hint(plain, form)
            )
        self.names = dict(zip(form, plain))
        for name, bounds in NUMBERS.items():
            flaw = name in self.names and flaw_of_number(name, self.names[name], *bounds)
            if flaw:
                return flaw
        changed = [
            f"--{name} {self.options[name]}"
            for name, usual in MACHINES.items()
            if self.options.get(name, usual) != usual
        ]
        if len(changed) > 1 and self.command == "walk":
            return (
                "a walk takes one of --table swap, --rows shared and --filter bilinear, and not"
                f" {' and '.join(changed)} together"
            )
        return self.clash()

    def take_option(self, word, rest, known):
        name, has_value, value = word[2:].partition("=")
        if name not in known:
            every = ", ".join(f"--{it}" for it in known) or "none"
            return f"{self.command} has no option --{name}" + (
                like(name, known, "--{}") or f"; its options are {every}"
                if known
                else "; it has none"
            )
        if name in self.options:
            return f"--{name} is given twice; give it once"
        if name == "settled":
            if has_value:
                return "--settled takes no value"
        elif not has_value:
            if not rest:
                return f"--{name} has no value behind it"
            value = rest.pop(0)
        self.options[name] = value
        return flaw_of_option(name, value) if name != "settled" else None

    def hint(self, plain, form):
        if self.options.get("settled") == "" and len(plain) > len(form):
            return "; --settled takes no value"
        return ""

    def clash(self):
        names, command = self.names, self.command
        if command == "tile" and names["TEXTURE"] == names["STORE"]:
            return "the store would be written over the texture; give it another name"
        if command == "upgrade" and names["STORE"] == names["NEWSTORE"]:
            return "the new store would be written over the old one; give it another name"
        if command in ("plain", "walk", "replay"):
            journal = names.get(
                "JOURNAL", self.options.get("journal", "journal.txt") if command == "walk" else None
            )
            read = [names[it] for it in ("TEXTURE", "STORE", "PATH") if it in names]
            picture = re.compile(re.escape(names["PREFIX"]) + r"[0-9]{4}\.ppm", re.DOTALL)
            for name in read + ([journal] if journal else []):
                if picture.fullmatch(name):
                    return (
                        f"{name} is the name of a picture of the prefix {names['PREFIX']}, which"
                        " would be written over it; take another prefix"
                    )
            if journal in read and command in ("walk", "replay"):
                return f"the journal and another file of the command are both named {journal}" + (
                    "; give the journal another name by --journal"
                    if command == "walk"
                    else "; name the walk's own journal"
                )
        return None


def is_text(word):
    try:
        word.encode("utf-8")
    except UnicodeEncodeError:
        return False
    return True


def flaw_of_texels(words):
    """Returns why a walk's frames are refused: F frames of T*T texels are at most 8,388,608."""
    store = words.names.get("STORE")
    if words.command != "walk" or kind_of(store) != "a tile store":
        return None
    with open(store, "rb") as file:
        side = int.from_bytes(file.read(16)[12:16], "big")
    frames = int(words.options.get("frames", 64))
    if side and frames * side * side > MOST_TEXELS:
        return (
            f"the tiles of {store} have a side of {side}, so --frames is at most"
            f" {MOST_TEXELS // side**2}, and not {frames}"
        )
    return None


def near_file(name, kind):
    """Returns the file of this kind in the same folder whose name is most alike, or None."""
    folder = os.path.dirname(name)
    try:
        names = os.listdir(folder or ".")
    except OSError:
        return None
    alike = difflib.get_close_matches(os.path.basename(name), names, 9)
    paths = (os.path.join(folder, it) for it in alike)
    return next((it for it in paths if kind_of(it) == kind), None)


def flaw_of_reading(words):
    """Returns why a file that is read could not be opened."""
    for word in [
        it
        for it in ("PATH", "TEXTURE", "STORE", "JOURNAL")
        if it in words.names and not (words.command == "tile" and it == "STORE")
    ]:
        name = words.names[word]
        if name == "-" and not os.path.exists(name):
            return "- is taken as a file's name; for the standard input write /dev/stdin"
        if not os.path.exists(name):
            near = near_file(name, READ[word])
            return f"there is no file {name}, which was to be {READ[word]}" + (
                f"; did you mean {near}?" if near else ""
            )
        if os.path.isdir(name):
            return f"{name} is a folder, and {READ[word]} is wanted there"
        if not os.access(name, os.R_OK):
            return f"{name} may not be read by this user; see its permissions: ls -l {name}"
    return None


def flaw_of_writing(words):
    """Returns why a file could not be written."""
    made = {
        "tile": ["STORE"],
        "upgrade": ["NEWSTORE"],
        "gen": ["NAME"],
        "plain": ["PREFIX"],
        "walk": ["PREFIX"],
        "replay": ["PREFIX"],
    }.get(words.command, [])
    names = [words.names[it] for it in made]
    if words.command == "walk":
        names.insert(0, words.options.get("journal", "journal.txt"))
    for name in names:
        folder = os.path.dirname(name) or "."
        if not os.path.isdir(folder):
            return f"the folder {folder} is not there; make it: mkdir -p {folder}"
        if os.path.isdir(name) and "PREFIX" not in made:
            return f"{name} is a folder, and a file is to be written there; give another name"
        if os.path.exists(name) and not os.path.isdir(name) and not os.access(name, os.W_OK):
            return f"{name} may not be written by this user"
        if not os.path.exists(name) and not os.access(folder, os.W_OK):
            return f"the folder {folder} may not be written by this user"
        room = os.statvfs(folder)
        if room.f_bavail * room.f_frsize < 65536:
            return f"the disk of {folder} is full"
    try:
        full = os.fstat(1).st_rdev == os.stat("/dev/full").st_rdev
    except OSError:
        full = False
    return "the standard output could not be written: it is full" if full else None


def convert(name):
    return f"; convert it: vips copy {name} photo.ppm, or: convert {name} -depth 8 photo.ppm"


def flaw_of_content(words, line):
    """Returns why a file is outside its format, from the line that the program printed."""
    found = re.search(r"bad input: (.*): (.*)", line)
    if not found:
        return None
    name, flaw = found.groups()
    word = next(
        (it for it in ("PATH", "TEXTURE", "STORE", "JOURNAL") if words.names.get(it) == name), None
    )
    wanted, kind = READ.get(word, "another file"), kind_of(name)
    form = " ".join(COMMANDS[words.command][0])
    if flaw in ("bad magic", "bad line 1") and kind not in (
        wanted,
        "a file of another kind",
        "an empty file",
        "a text that begins with a byte order mark",
    ):
        cure = (
            convert(name)
            if word == "TEXTURE" and kind.endswith(("image", "text"))
            else f"; the order is: vtex {words.command} {form}"
        )
        return f"{name} is {kind}, and {wanted} is wanted there{cure}"
    if kind == "an empty file":
        return f"{name} is an empty file, and {wanted} is wanted there"
    if word == "PATH" and flaw.startswith(("bad line", "no key", "too many")):
        return flaw_of_path(name, flaw)
    if flaw == "bad magic":
        return (
            f"{name} is {wanted} by no means: its first bytes are not"
            f" {'P6' if word == 'TEXTURE' else 'VTS1 or VTS2'}"
            + (convert(name) if word == "TEXTURE" else "")
        )
    if flaw == "bad size":
        most = 8192 if words.command == "plain" else 16384
        return (
            f"a side of {name} is 0 or more than {most} texels, the most that"
            f" {words.command} takes; make it smaller: vips resize {name} small.ppm 0.5"
        )
    if flaw == "bad maximum":
        return f"the maximum of the samples in the header of {name} is not from 1 to 65535"
    if flaw.startswith("bad header"):
        return (
            f"the header of {name} is P6, then width, height and maximum as whole numbers without a"
            " sign; at the byte that is named it is not"
        )
    if flaw.startswith("raster"):
        have, want = re.findall(r"\d+", flaw)
        return (
            f"{name} is cut off: it has {have} bytes behind its header, which asks for {want};"
            " write or download it again"
        )
    if flaw.startswith("sample over"):
        return (
            f"a sample of {name} is more than the maximum that its header names; the header or the"
            " samples are wrong, so convert the image again"
        )
    if flaw.startswith("too many pages"):
        return (
            f"with this tile side {name} has more than 262,144 pages; take a larger one: --tile 64"
        )
    if flaw == "already wide":
        return f"{name} has two bytes a sample already, so there is nothing to upgrade"
    if flaw.startswith("length"):
        have, want = map(int, re.findall(r"\d+", flaw))
        return (
            f"{name} has {have} bytes where its header asks for {want}: it is"
            f" {'cut off' if have < want else 'longer than it should be'}; write or download it"
            " again"
        )
    if flaw == "bad geometry":
        return f"the header of {name} names sides or a tile side that no store has; it was damaged"
    if word == "JOURNAL":
        return (
            f"{name} is not the journal of a walk of this store and path at the line that is named"
            f" ({flaw}); take the journal.txt of that walk"
        )
    return None


def flaw_of_path(name, flaw):
    with open(name, "rb") as file:
        lines = file.read().split(b"\n")
    if flaw == "too many pictures":
        return f"{name} has more than 9,999 pictures, the most of a path; cut it in two"
    number = int(re.search(r"\d+", flaw).group())
    if flaw.startswith("no key"):
        return (
            f"line {number} of {name} goes on from a camera, and there is none before it; the first"
            " key is an at"
        )
    line = lines[number - 1] if number <= len(lines) else b""
    text = line.decode("utf-8", "replace")
    at = f"line {number} of {name}"
    form = {1: "size WIDTH HEIGHT", 2: "focal F"}.get(number, "at U V H C S, or to N U V H C S")
    if number >= len(lines):
        return f"{at} has to be {form}, and " + (
            "the file ends before it"
            if not line
            else "its line feed is missing; end the last line: echo >>" + name
        )
    if b"\r" in line:
        return (
            f"{at} ends with a carriage return; a path has line feeds alone: sed -i 's/\\r$//'"
            f" {name}"
        )
    if line.startswith(b"\xef\xbb\xbf"):
        return (
            f"{name} begins with a byte order mark; take it out: sed -i '1s/^\\xef\\xbb\\xbf//'"
            f" {name}"
        )
    if text.lstrip().startswith(("#", "//", ";")):
        return f"{at} is a comment; a path has none"
    if not text.strip():
        return f"{at} is empty; a path has no empty lines"
    if "\t" in text or "  " in text or text != text.strip():
        return f"{at} has to have one blank between its fields, and none before or behind them"
    word, *fields = text.split(" ")
    bounds = {
        "size": [(1, 2048)] * 2,
        "focal": [(1, 4096)],
        "at": [(-(2**31), 2**31)] * 2 + [(1, 2**24)] + [(-16384, 16384)] * 2,
    }
    bounds["to"] = [(1, 9999)] + bounds["at"]
    letters = {
        "size": ["width", "height"],
        "focal": ["the focal number"],
        "at": list("uvhcs"),
        "to": list("nuvhcs"),
    }
    right = {1: ("size",), 2: ("focal",)}.get(number, ("at", "to"))
    if word not in right:
        return f"{at} has to be {form}, and begins with {word}" + like(word, right)
    if len(fields) != len(bounds[word]):
        return (
            f"{at} has to have {named(len(bounds[word]), 'number')} behind {word} ({form}), and has"
            f" {len(fields)}"
        )
    for letter, field, (least, most) in zip(letters[word], fields, bounds[word]):
        if not re.fullmatch(r"0|-?[1-9][0-9]*", field):
            return (
                f"{at}: {letter} is {field}, and has to be a whole number without + or leading"
                " zeros (u, v and h are in 1/256 texel, c and s in 1/16384)"
            )
        if not least <= int(field) <= most:
            return f"{at}: {letter} is {field}, and has to be from {least} to {most}"
    return None


def flaw_of_frames(line):
    found = re.search(r"(\d+) frames, pinned pages need (\d+)", line)
    if found:
        return (
            f"--frames is at least the number of pinned pages, {found.group(2)}; raise it, or lower"
            " --pinned"
        )
    found = re.search(r"picture (\d+) wants (\d+) pages, room for (\d+)", line)
    if found:
        frames = int(found.group(2)) - int(found.group(3))
        return (
            f"picture {found.group(1)} needs {frames} frames more than there are, so raise --frames"
            f" by {frames} or more; a walk without --settled draws it with coarser pages"
        )
    return None


def explain(words, status, line):
    """Returns the cause of a status in a sentence, and what to do, or None where none is seen."""
    taken = Words(words)
    if status == 2:
        return taken.flaw or flaw_of_texels(taken)
    if taken.flaw:
        return None
    if status == 3:
        return (
            flaw_of_reading(taken)
            or flaw_of_writing(taken)
            or "the output was closed before all was written, or a disk failed"
        )
    if status == 4:
        return flaw_of_content(taken, line)
    if status == 5:
        return flaw_of_frames(line)
    if status == 1:
        return (
            "the system had no memory left; take fewer frames or a smaller texture, or close other"
            " programs"
        )
    return None


def main(words):
    if not words or words[0] in ("-h", "--help"):
        name = os.path.basename(sys.argv[0])
        print(__doc__.strip().replace("explain.py", name), file=sys.stderr)
        return 2
    try:
        ran = subprocess.run(words, stderr=subprocess.PIPE)
    except OSError as error:
        print(
            (
                f"explain: {words[0]} does not run: {error.strerror}; install it: sh"
                " dist/install.sh ~/.local"
            ),
            file=sys.stderr,
        )
        return 127
    sys.stderr.buffer.write(ran.stderr)
    sys.stderr.flush()
    if ran.returncode < 0:
        print(f"explain: the program was ended by signal {-ran.returncode}", file=sys.stderr)
        return 128 - ran.returncode
    if ran.returncode:
        cause = explain(words[1:], ran.returncode, ran.stderr.decode("utf-8", "replace"))
        unknown = "no cause is seen from outside; docs/FORMATS.md has the causes of each status"
        print(f"explain: {cause or unknown}", file=sys.stderr)
    return ran.returncode


if __name__ == "__main__":
    sys.exit(main(sys.argv[1:]))
