#!/usr/bin/env python3
"""Compares dist/ with the sources and with what the gate built.

usage: check.py                     checks the files of dist/, in a second
       check.py --modules           also builds the viewer's modules anew, and compares them
       check.py --release           the same, and fails where dist/ is behind or was not compared
       check.py --make [--log FILE ..]
                                    makes the files of dist/ from what the gate built

It fails where a file is not the one of SHA256SUMS, and where the sources are those of SOURCES and a
file differs from what was built here, or the toolchain is another one than that of PROVED. Where
dist/ is behind the sources, it names the crates that changed since, and passes.

--make takes the verdict lines from the logs of `rt ci` and `rt lib`. Without a line in the logs it
runs `rt check` in that crate, which takes some minutes.

Needs git and Python 3.9. The toolchain is asked for its version where it is installed.
"""
import hashlib
import os
import re
import shutil
import subprocess
import sys
import tempfile

DIST = os.path.dirname(os.path.abspath(__file__))
TOP = os.path.dirname(DIST)


class Artefact:
    """A file that is handed out: its path, what the gate builds it as, and what it is made of."""

    def __init__(self, path, built, crate, others=()):
        self.path, self.built, self.crate, self.others = path, built, crate, others
        # As SHA256SUMS has it, whose sums are checked in dist/.
        self.name = os.path.relpath(f"{TOP}/{path}", DIST)

    def sources(self):
        """Returns the paths of the sources, as `git ls-tree` takes them."""
        parts = [
            f"crates/{it}/{part}"
            for it in crates_of(self.crate)
            for part in ("src", "specs", "proofs")
        ]
        return ["HANDLES", "crates.txt", *self.others, *parts]


VIEWER = ("examples/viewer/build.py", "examples/viewer/heap.c")
ARTEFACTS = [
    Artefact("dist/vtex", "crates/vtex/out/vtex", "vtex"),
    Artefact("dist/libvtex_c.a", "crates/vtex_c/out/libvtex_c.a", "vtex_c", ("dist/heap.c",)),
    Artefact("examples/viewer/vtex.wasm", None, "vtex_c", VIEWER),
    Artefact("examples/viewer/vtex32.wasm", None, "vtex_c", VIEWER),
]
# What a verdict says besides of how it came about, as `incremental=`, is the same for each check.
VERDICT = re.compile(r"(logic=proved functions=.*?)(?: incremental=\S*)?$")
MADE = ("SHA256SUMS", "SOURCES", "PROVED")


class Flaw(Exception):
    """A reason why a step could not be done."""


def sum_of(path):
    with open(path, "rb") as file:
        return hashlib.sha256(file.read()).hexdigest()


def run(*words, cwd=TOP):
    done = subprocess.run(words, cwd=cwd, stdout=subprocess.PIPE, stderr=subprocess.PIPE, text=True)
    if done.returncode != 0:
        raise Flaw(f"{' '.join(words[:3])}: {done.stderr.strip() or 'failed'}")
    return done.stdout


def uses():
    """Returns the libraries that each crate lists in crates.txt."""
    found = {}
    with open(f"{TOP}/crates.txt", encoding="utf-8") as file:
        for line in file:
            name, colon, libraries = line.split("#")[0].partition(":")
            if colon:
                found[name.split()[0]] = libraries.split()
    return found


def crates_of(top):
    """Returns a crate and those of the repository below it."""
    listed, found, left = uses(), set(), [top]
    while left:
        crate = left.pop()
        if crate in listed and crate not in found:
            found.add(crate)
            left += listed[crate]
    return sorted(found)


def toolchain():
    """Returns the toolchain's line, or None where there is no toolchain."""
    if shutil.which("rt") is None:
        return None
    return "toolchain: " + run("rt", "version").strip()


def kit():
    """Returns the folder of the toolchain."""
    return os.path.dirname(run("rt", "doc").strip().splitlines()[-1])


def sums_of_sources(paths):
    """Returns git's sum of each file and folder as it stands in the work tree, by its path."""
    with tempfile.TemporaryDirectory() as room:
        # An index and a store of objects of its own: what is not committed counts, and the
        # repository stays as it is.
        objects = run("git", "rev-parse", "--path-format=absolute", "--git-path", "objects").strip()
        os.mkdir(f"{room}/objects")
        surroundings = dict(
            os.environ,
            GIT_INDEX_FILE=f"{room}/index",
            GIT_OBJECT_DIRECTORY=f"{room}/objects",
            GIT_ALTERNATE_OBJECT_DIRECTORIES=objects,
        )
        there = [path for path in paths if os.path.exists(f"{TOP}/{path}")]

        def git(*words):
            done = subprocess.run(
                ["git", "-C", TOP, *words],
                env=surroundings,
                stdout=subprocess.PIPE,
                stderr=subprocess.PIPE,
                text=True,
            )
            if done.returncode != 0:
                raise Flaw(f"git {words[0]}: {done.stderr.strip()}")
            return done.stdout

        git("add", "--", *there)
        tree = git("write-tree").strip()
        found = {}
        for line in git("ls-tree", tree, *there).splitlines():
            about, path = line.split("\t")
            found[path] = about.split()[2]
    return found


def all_sources():
    return sums_of_sources(sorted({path for it in ARTEFACTS for path in it.sources()}))


def read_sums(name):
    """Returns the sums of a file of dist/ by their paths; none where the file is not there."""
    path, found = f"{DIST}/{name}", {}
    if os.path.isfile(path):
        with open(path, encoding="utf-8") as file:
            for line in file.read().splitlines():
                sum, gap, path = line.partition("  ")
                if not gap:
                    raise Flaw(f"dist/{name} has a line that is no sum and no path: {line}")
                found[os.path.normpath(path)] = sum
    return found


def with_heap(library, to):
    """Writes the library that the gate built, with heap.c in it.

    The toolchain's own clang compiles it, so the bytes are the same everywhere.
    """
    tools = f"{kit()}/toolchain/bin"
    with tempfile.TemporaryDirectory() as room:
        shutil.copyfile(f"{DIST}/heap.c", f"{room}/heap.c")
        shutil.copyfile(library, f"{room}/libvtex_c.a")
        run(
            f"{tools}/clang",
            "--no-default-config",
            "--target=x86_64-unknown-linux-gnu",
            "-march=x86-64",
            "-std=c11",
            "-O2",
            "-fPIC",
            "-ffreestanding",
            "-nostdinc",
            "-Wall",
            "-Wextra",
            "-Werror",
            "-c",
            "heap.c",
            "-o",
            "vtex_heap.o",
            cwd=room,
        )
        run(f"{tools}/llvm-ar", "rcsD", "libvtex_c.a", "vtex_heap.o", cwd=room)
        shutil.copyfile(f"{room}/libvtex_c.a", to)


def as_built(artefact):
    """Returns the sum of what the gate built, or None where it has not built it here."""
    built = artefact.built and f"{TOP}/{artefact.built}"
    if not built or not os.path.isfile(built):
        return None
    if artefact.path != "dist/libvtex_c.a":
        return sum_of(built)
    if shutil.which("rt") is None:
        return None
    with tempfile.TemporaryDirectory() as room:
        with_heap(built, f"{room}/made")
        return sum_of(f"{room}/made")


def verdicts(logs):
    """Returns the verdict line of the program and of the library that the logs have."""
    found = {}
    for name in logs:
        with open(name, encoding="utf-8", errors="replace") as file:
            about = None
            for line in file.read().splitlines():
                if line.startswith("== "):
                    about = line.split()[1]
                elif verdict := VERDICT.search(line):
                    found[about] = verdict.group(1)
    return found


def proved_now(crate):
    """Proves a crate, and returns its verdict line. Takes some minutes."""
    print(f"dist: the logs have no verdict line of {crate}, so it is proved again", flush=True)
    found = VERDICT.findall(run("rt", "check", cwd=f"{TOP}/crates/{crate}"))
    if not found:
        raise Flaw(f"`rt check` in crates/{crate} printed no verdict line")
    return found[-1]


def make_modules():
    """Makes the viewer's WebAssembly modules of the library as it was proved."""
    if shutil.which("wasm-opt") is None:
        raise Flaw("wasm-opt is not installed (Debian: binaryen), so vtex32.wasm cannot be made")
    run(sys.executable, "examples/viewer/build.py")
    for it in ARTEFACTS:
        if it.built is None:
            os.chmod(f"{TOP}/{it.path}", 0o644)


def make(logs):
    """Makes the artefacts of dist/."""
    for it in ARTEFACTS:
        if it.built and not os.path.isfile(f"{TOP}/{it.built}"):
            raise Flaw(f"{it.built} is not there: run `rt ci`, then `rt lib` in crates/vtex_c")
    line = toolchain()
    if line is None:
        raise Flaw("rt is not installed: a release is made with the toolchain alone")
    found = verdicts(logs)
    proved = {name: found.get(name) or proved_now(name) for name in ("vtex", "vtex_c")}
    make_modules()
    shutil.copyfile(f"{TOP}/crates/vtex/out/vtex", f"{DIST}/vtex")
    os.chmod(f"{DIST}/vtex", 0o755)
    with_heap(f"{TOP}/crates/vtex_c/out/libvtex_c.a", f"{DIST}/libvtex_c.a")
    write("SHA256SUMS", [f"{sum_of(f'{TOP}/{it.path}')}  {it.name}" for it in ARTEFACTS])
    write("SOURCES", [f"{sum}  {path}" for path, sum in sorted(all_sources().items())])
    write("PROVED", [line, *[f"{name}: {verdict}" for name, verdict in proved.items()]])
    print(f"dist: made {version()}")


def version():
    return "".join(read_lines("VERSION")[:1])


def read_lines(name):
    path = f"{DIST}/{name}"
    if not os.path.isfile(path):
        return []
    with open(path, encoding="utf-8") as file:
        return file.read().splitlines()


def write(name, lines):
    with open(f"{DIST}/{name}", "w", encoding="utf-8") as file:
        file.write("\n".join(lines) + "\n")


def numbers():
    """Returns the places that have another version than VERSION, each as a sentence."""
    of, wrong = version(), []
    if not re.fullmatch(r"\d+\.\d+\.\d+", of):
        wrong.append(f"dist/VERSION has no number of three parts: {of!r}")
    places = [
        ("include/vtex.h", r'^#define VTEX_VERSION "([^"]*)"'),
        ("examples/viewer/package.json", r'^\s*"version": "([^"]*)"'),
        ("CHANGELOG.md", r"^## \[?([0-9.]+)\]?"),
    ]
    for path, form in places:
        if not os.path.isfile(f"{TOP}/{path}"):
            wrong.append(f"{path} is not there")
            continue
        with open(f"{TOP}/{path}", encoding="utf-8") as file:
            found = re.search(form, file.read(), re.MULTILINE)
        if not found:
            wrong.append(f"{path} has no version")
        elif found.group(1) != of:
            wrong.append(f"{path} has version {found.group(1)}, dist/VERSION has {of}")
    return wrong


def files_amiss(sums):
    """Returns what is wrong with the files as they stand, each as a sentence."""
    wrong = []
    for it in ARTEFACTS:
        if not os.path.isfile(f"{TOP}/{it.path}"):
            wrong.append(f"{it.path} is missing")
        elif it.name not in sums:
            wrong.append(f"SHA256SUMS has no line for {it.path}")
        elif sums[it.name] != sum_of(f"{TOP}/{it.path}"):
            wrong.append(f"{it.path} is not the file of SHA256SUMS")
    foreign = sorted(set(sums) - {it.name for it in ARTEFACTS})
    wrong += [f"SHA256SUMS names {name}, which is not handed out" for name in foreign]
    proved = read_lines("PROVED")
    for name in ("toolchain", "vtex", "vtex_c"):
        if not any(line.startswith(name + ": ") for line in proved):
            wrong.append(f"PROVED has no line for {name}")
    return wrong


def modules_amiss():
    """Builds the viewer's modules anew. Returns what is wrong with them, as a list of sentences."""
    words = [sys.executable, f"{TOP}/examples/viewer/build.py", "--check"]
    ran = subprocess.run(words, stdout=subprocess.PIPE, stderr=subprocess.STDOUT, text=True)
    last = (ran.stdout.strip().splitlines() or ["build.py --check printed nothing"])[-1]
    return [] if ran.returncode == 0 else [f"examples/viewer: {last}"]


def check(is_release, has_modules):
    """Checks the artefacts of dist/. Returns the exit status."""
    sums = read_sums("SHA256SUMS")
    if not any(os.path.exists(f"{DIST}/{name}") for name in ("vtex", "libvtex_c.a", *MADE)):
        print("dist: no release has been made")
        return 1 if is_release else 0
    wrong = files_amiss(sums)
    then, now = read_sums("SOURCES"), all_sources()
    changed = sorted(path for path in {*then, *now} if then.get(path) != now.get(path))
    line, compared = toolchain(), 0
    is_other = line is not None and line not in read_lines("PROVED")
    # The files that stand as SOURCES has them; where a source is gone, none does.
    of_now = [it for it in ARTEFACTS if not set(changed) & {*it.sources()} and {*changed} <= {*now}]
    for it in [] if is_other else of_now:
        made = as_built(it)
        if made is not None:
            compared += 1
            if made != sums.get(it.name):
                wrong.append(
                    f"{it.path} differs from {it.built}, which was built from the same sources"
                )
        elif is_release and it.built:
            wrong.append(f"{it.built} was not built here")
    if has_modules and line and not is_other and any(it.built is None for it in of_now):
        wrong += modules_amiss()
        compared += 2
    if changed:
        crates = {path.split("/")[1] if path.startswith("crates/") else path for path in changed}
        print(f"dist: behind the sources; changed since {version()}: {', '.join(sorted(crates))}")
        if is_release:
            wrong.append("dist is behind the sources")
    if is_other and changed:
        print(f"dist: made by another toolchain than the one installed here, {line}")
    elif is_other:
        # Another toolchain makes other bytes from the same sources.
        wrong.append(f"PROVED does not name the toolchain that is installed here, {line}")
    if is_release:
        wrong += numbers()
    for it in wrong:
        print(f"dist: {it}")
    count = f"{len(ARTEFACTS)} files, {compared} compared with what was built here"
    print(f"dist: {version()}, {count}, {len(wrong)} wrong")
    return 1 if wrong else 0


def main(words):
    """Runs the command of these words. Returns the exit status."""
    if words in ([], ["--modules"], ["--release"]):
        return check(words == ["--release"], words != [])
    if words[:1] == ["--make"] and (len(words) == 1 or words[1] == "--log" and len(words) > 2):
        make(words[2:])
        return 0
    print(__doc__.split("\n\n")[1], file=sys.stderr)
    return 2


if __name__ == "__main__":
    try:
        sys.exit(main(sys.argv[1:]))
    except (Flaw, OSError) as flaw:
        print(f"dist: {flaw}", file=sys.stderr)
        sys.exit(1)
