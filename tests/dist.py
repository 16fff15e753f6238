#!/usr/bin/env python3
"""Tests dist/check.py and dist/install.sh over a small repository of their own.

The repository has four crates and stand-ins for what the gate builds; `rt` is a script that prints
the toolchain's line, its folder and a verdict. So each flaw can be made: a byte more in each file,
a source that changed, another toolchain, a library or a program that the gate built otherwise.
Needs git and gcc.
"""
import os
import shutil
import stat
import subprocess
import sys
import tempfile

TOP = os.path.dirname(os.path.dirname(os.path.abspath(__file__)))
RT = """#!/bin/sh
case $1 in
version) echo "rattle-kit-1 logic 0123" ;;
doc) echo "$(dirname "$0")/kit/START-HERE.md" ;;
ci) cat "$(dirname "$0")/gate.log" ;;
lib) ;;
check) echo "logic=proved functions=5 of=$(basename "$PWD") incremental=trusted" ;;
*) exit 1 ;;
esac
"""
# The toolchain's clang takes an option that gcc does not know, and two that gcc takes otherwise.
CLANG = """#!/bin/bash
for it; do
    case $it in --no-default-config|--target=*|-nostdinc) ;; *) words+=("$it") ;; esac
done
exec gcc "${words[@]}"
"""
# Stands in for examples/viewer/build.py.
BUILD = """import os, sys
here = os.path.dirname(os.path.abspath(__file__))
wrong = 0
for name in ("vtex.wasm", "vtex32.wasm"):
    if sys.argv[1:] != ["--check"]:
        open(f"{here}/{name}", "w").write(name)
    wrong += open(f"{here}/{name}").read() != os.environ.get("FRESH", name)
print(f"{wrong} modules differ from a fresh build")
sys.exit(1 if wrong else 0)
"""
GATE = """== vt_low
logic=proved functions=3 sum=77 native=nat
rt: vt_low proved
== vtex
logic=proved functions=8 sum=88 native=nat
rt: vtex proved
== vtex_c
logic=proved functions=9 sum=99 native=nat
rt: vtex_c proved
"""
# The program stands in for vtex: what install.sh runs to see whether it works here.
PROGRAM = '#!/bin/sh\necho "trial $2 differ 0"\n'
ENGINE = """#include <vtex.h>
#include <stdio.h>
int main(void) { printf("%d\\n", vtex_answer(20)); return 0; }
"""
LIBRARY = """#include <stddef.h>
struct memory { _Bool is_given; void *at; };
struct memory rattle_alloc(size_t size, size_t alignment);
void rattle_dealloc(void *memory, size_t size, size_t alignment);
int inner_answer(void) { return 2; }
int vtex_answer(int n) {
    struct memory memory = rattle_alloc(sizeof(int), _Alignof(int)), wide = rattle_alloc(64, 64);
    int answer = memory.is_given && !wide.is_given && n == 20 ? 42 : 0;
    if (memory.is_given) rattle_dealloc(memory.at, sizeof(int), _Alignof(int));
    return answer;
}
"""
passed, failed = 0, 0


def say(good, what):
    global passed, failed
    passed, failed = passed + bool(good), failed + (not good)
    if not good:
        print("failed: " + what)


def write(path, text):
    os.makedirs(os.path.dirname(path), exist_ok=True)
    with open(path, "w", encoding="utf-8") as file:
        file.write(text)


def more(path, byte=b"x"):
    with open(path, "ab") as file:
        file.write(byte)


def exchange(path, old, new):
    with open(path, "rb") as file:
        data = file.read()
    assert old in data
    with open(path, "wb") as file:
        file.write(data.replace(old, new))


def executable(path, text):
    write(path, text)
    os.chmod(path, 0o755)


class Trial:
    """A repository of two crates in a folder of its own."""

    def __init__(self, room):
        self.top, self.tools = os.path.join(room, "repository"), os.path.join(room, "tools")
        executable(f"{self.tools}/rt", RT)
        tools = f"{self.tools}/kit/toolchain/bin"
        os.makedirs(tools)
        executable(f"{tools}/clang", CLANG)
        executable(f"{tools}/llvm-ar", '#!/bin/sh\nexec ar "$@"\n')
        self.surroundings = dict(os.environ, PATH=f"{self.tools}:{os.environ['PATH']}", HOME=room)
        for name in ("check.py", "install.sh", "release.sh", "heap.c"):
            os.makedirs(f"{self.top}/dist", exist_ok=True)
            shutil.copy2(f"{TOP}/dist/{name}", f"{self.top}/dist/{name}")
        write(f"{self.top}/dist/VERSION", "1.2.3\n")
        write(f"{self.top}/HANDLES", "Handles allowed: Threads.\n")
        write(
            f"{self.top}/crates.txt",
            "vt_low:\nvt_other: vt_low\nvtex: vt_low\nvtex_c staticlib: vt_low\n",
        )
        for crate in ("vt_low", "vt_other", "vtex", "vtex_c"):
            write(f"{self.top}/crates/{crate}/src/lib.rt", f"// {crate}\n")
        write(f"{self.top}/crates/vt_low/specs/Lib.antt", "-- definitions\n")
        write(
            f"{self.top}/include/vtex.h", '#define VTEX_VERSION "1.2.3"\nint vtex_answer(int n);\n'
        )
        write(f"{self.top}/CHANGELOG.md", "# Changes\n\n## 1.2.3\n\n- All.\n")
        write(f"{self.top}/docs/vtex.1", ".TH VTEX 1\n")
        write(f"{self.top}/examples/viewer/package.json", '{\n  "version": "1.2.3"\n}\n')
        write(f"{self.top}/examples/viewer/build.py", BUILD)
        write(f"{self.top}/examples/viewer/heap.c", "/* The modules' heap. */\n")
        executable(f"{self.tools}/wasm-opt", "#!/bin/sh\n")
        for name in ("vtex.wasm", "vtex32.wasm"):
            write(f"{self.top}/examples/viewer/{name}", name)
        write(f"{self.top}/.gitignore", "crates/*/out/\n")
        executable(f"{self.top}/crates/vtex/out/vtex", PROGRAM)
        write(f"{room}/library.c", LIBRARY)
        os.makedirs(f"{self.top}/crates/vtex_c/out")
        subprocess.run(
            ["gcc", "-O2", "-fPIC", "-c", f"{room}/library.c", "-o", f"{room}/library.o"],
            check=True,
        )
        subprocess.run(
            ["ar", "rcsD", f"{self.top}/crates/vtex_c/out/libvtex_c.a", f"{room}/library.o"],
            check=True,
        )
        write(f"{self.tools}/gate.log", GATE)
        write(f"{self.top}/test", 'echo "1 passed, 0 failed"\n')
        write(f"{self.top}/tests/plain_machine.sh", "git ls-files dist\n")
        for words in (
            ["init", "-q"],
            ["config", "user.name", "t"],
            ["config", "user.email", "t"],
            ["add", "-A"],
            ["commit", "-qm", "Begin"],
        ):
            subprocess.run(["git", "-C", self.top, *words], check=True)
        self.log = f"{self.tools}/gate.log"

    def check(self, *words, fresh=None):
        more_surroundings = {"FRESH": fresh} if fresh else {}
        ran = subprocess.run(
            [sys.executable, f"{self.top}/dist/check.py", *words],
            env=dict(self.surroundings, **more_surroundings),
            stdout=subprocess.PIPE,
            stderr=subprocess.STDOUT,
            text=True,
        )
        return ran.returncode, ran.stdout

    def fails(self, words, what, *said, fresh=None):
        status, text = self.check(*words, fresh=fresh)
        say(
            status == 1 and all(it in text for it in said),
            f"{what}: status {status}, {text.strip()}",
        )

    def passes(self, words, what, *said):
        status, text = self.check(*words)
        say(
            status == 0 and all(it in text for it in said),
            f"{what}: status {status}, {text.strip()}",
        )


def kept(path, change):
    """Changes a file, and gives back what puts it as it was."""
    with open(path, "rb") as file:
        before, mode = file.read(), os.stat(path).st_mode
    change(path)

    def back():
        with open(path, "wb") as file:
            file.write(before)
        os.chmod(path, stat.S_IMODE(mode))

    return back


def try_check(trial):
    top = trial.top
    trial.passes([], "no release", "no release has been made")
    trial.fails(["--release"], "no release, --release")
    trial.passes(["--make"], "no log", "no verdict line of vtex", "made 1.2.3")
    with open(f"{top}/dist/PROVED", encoding="utf-8") as file:
        proved = file.read().splitlines()[1:]
    again = [f"{name}: logic=proved functions=5 of={name}" for name in ("vtex", "vtex_c")]
    say(proved == again, f"PROVED without a log: {proved}")
    trial.passes(["--make", "--log", trial.log], "made", "made 1.2.3")
    with open(f"{top}/dist/PROVED", encoding="utf-8") as file:
        proved = file.read()
    wanted = [
        "toolchain: rattle-kit-1 logic 0123",
        "vtex: logic=proved functions=8 sum=88 native=nat",
        "vtex_c: logic=proved functions=9 sum=99 native=nat",
    ]
    say(proved.splitlines() == wanted, "PROVED: " + proved)
    with open(f"{top}/dist/SOURCES", encoding="utf-8") as file:
        named = [line.split("  ")[1] for line in file.read().splitlines()]
    wanted = [
        "HANDLES",
        "crates.txt",
        "crates/vt_low/specs",
        "crates/vt_low/src",
        "crates/vtex/src",
        "crates/vtex_c/src",
        "dist/heap.c",
        "examples/viewer/build.py",
        "examples/viewer/heap.c",
    ]
    say(named == wanted, f"SOURCES: {named}")
    trial.passes([], "whole", "2 compared", "0 wrong")
    trial.passes(["--modules"], "whole, --modules", "4 compared", "0 wrong")
    for words in (["--modules"], ["--release"]):
        trial.fails(words, f"other modules, {words}", "2 modules differ", fresh="other")
    trial.passes([], "other modules, which are not built anew", "2 compared")
    trial.passes(["--release"], "whole, --release", "0 wrong")
    subprocess.run(["git", "-C", top, "add", "-A"], check=True)
    say(
        subprocess.run(["git", "-C", top, "commit", "-qm", "Release"]).returncode == 0,
        "the release can be committed",
    )
    trial.passes(["--release"], "committed", "0 wrong")
    for name in (
        "dist/vtex",
        "dist/libvtex_c.a",
        "examples/viewer/vtex.wasm",
        "examples/viewer/vtex32.wasm",
    ):
        back = kept(f"{top}/{name}", more)
        trial.fails([], f"a byte more in {name}", f"{name} is not the file of SHA256SUMS")
        back()
        os.rename(f"{top}/{name}", f"{top}/gone")
        trial.fails([], f"no {name}", f"{name} is missing")
        os.rename(f"{top}/gone", f"{top}/{name}")
    for name, change in (
        ("vtex/out/vtex", more),
        ("vtex_c/out/libvtex_c.a", lambda path: exchange(path, b"inner_answer", b"inner_answes")),
    ):
        back = kept(f"{top}/crates/{name}", change)
        trial.fails(
            [], f"another byte in what the gate built, {name}", f"differs from crates/{name}"
        )
        back()
    back = kept(f"{top}/dist/SHA256SUMS", lambda path: more(path, b"00  vtex.o\n"))
    trial.fails([], "a sum too many", "which is not handed out")
    back()
    back = kept(f"{top}/dist/PROVED", lambda path: write(path, proved.replace("kit-1", "kit-2")))
    trial.fails([], "another toolchain", "PROVED does not name the toolchain")
    back()
    back = kept(
        f"{top}/dist/PROVED", lambda path: write(path, proved.replace("vtex_c: ", "other: "))
    )
    trial.fails([], "no verdict of the library", "PROVED has no line for vtex_c")
    back()
    # A source that changed: dist/ is behind, which is no failure, and what the gate built is
    # another program then.
    changes = (
        ("crates/vt_low/src/lib.rt", "vt_low"),
        ("crates.txt", "crates.txt"),
        ("dist/heap.c", "dist/heap.c"),
        ("HANDLES", "HANDLES"),
    )
    for path, named in changes:
        back = kept(f"{top}/{path}", more)
        trial.passes([], f"{path} changed", f"changed since 1.2.3: {named}")
        trial.fails(["--release"], f"{path} changed, --release", "dist is behind the sources")
        back()
    back = kept(f"{top}/crates/vt_low/src/lib.rt", more)
    also = kept(f"{top}/crates/vtex/out/vtex", more)
    trial.passes([], "another source, another program", "0 compared")
    damage = kept(f"{top}/dist/vtex", more)
    trial.fails([], "behind, and a byte more", "dist/vtex is not the file of SHA256SUMS")
    for undo in (damage, also, back):
        undo()
    # Only what the program stands on is looked at for it.
    back = kept(f"{top}/crates/vtex_c/src/lib.rt", more)
    also = kept(f"{top}/crates/vtex/out/vtex", more)
    trial.fails(
        [],
        "the library's source changed, and the program differs",
        "dist/vtex differs from crates/vtex/out/vtex",
    )
    also()
    back()
    back = kept(f"{top}/crates/vt_other/src/lib.rt", more)
    trial.passes(["--release"], "a crate that neither stands on", "0 wrong")
    back()
    for path, text in (
        ("include/vtex.h", '#define VTEX_VERSION "1.2.4"\n'),
        ("CHANGELOG.md", "## 1.2.2\n"),
        ("examples/viewer/package.json", '{\n  "version": "1.0"\n}\n'),
    ):
        back = kept(f"{top}/{path}", lambda at: write(at, text))
        trial.passes([], f"{path} of another version", "0 wrong")
        trial.fails(["--release"], f"{path} of another version, --release", path)
        back()
    shutil.move(f"{top}/crates/vtex/out/vtex", f"{top}/gone")
    trial.passes([], "the program was not built", "1 compared")
    trial.fails(["--release"], "the program was not built, --release", "was not built here")
    shutil.move(f"{top}/gone", f"{top}/crates/vtex/out/vtex")
    say(
        subprocess.run(
            ["git", "-C", top, "status", "--porcelain"], stdout=subprocess.PIPE, text=True
        ).stdout
        == "",
        "the check leaves the repository as it is",
    )
    status, text = trial.check("--mak")
    say(status == 2 and "usage" in text, "a wrong word")


def install(trial, *words, **more_surroundings):
    surroundings = dict(trial.surroundings, **more_surroundings)
    ran = subprocess.run(
        ["sh", f"{trial.top}/dist/install.sh", *words],
        env=surroundings,
        stdout=subprocess.PIPE,
        stderr=subprocess.STDOUT,
        text=True,
    )
    return ran.returncode, ran.stdout


def stands(trial, name, text):
    """A folder for PATH in which this program says this."""
    folder = os.path.join(trial.tools, name + "-" + str(abs(hash(text))))
    executable(f"{folder}/{name}", f"#!/bin/sh\n{text}\n")
    return f"{folder}:{trial.surroundings['PATH']}"


def try_install(trial, room):
    top = trial.top
    status, text = install(trial)
    say(
        status == 0 and "trial 7 differ 0" in text and f"{top}/dist/vtex" in text,
        f"without a prefix: {status} {text}",
    )
    refused = [
        (
            {"PATH": stands(trial, "uname", "echo Darwin")},
            "the program is for Linux; this is Darwin",
        ),
        (
            {
                "PATH": stands(
                    trial, "uname", "case $1 in -s) echo Linux ;; *) echo aarch64 ;; esac"
                )
            },
            "this is aarch64",
        ),
        ({"PATH": stands(trial, "getconf", "echo glibc 2.33")}, "this system has glibc 2.33"),
        ({"PATH": stands(trial, "getconf", "echo glibc 1.99")}, "this system has glibc 1.99"),
        ({"PATH": stands(trial, "getconf", "exit 1")}, "this system has another C library"),
    ]
    write(f"{room}/old", "flags : fpu sse2 ssse3 cx16 lahf_lm sse4_1 popcnt\n")
    refused.append(({"VTEX_CPUINFO": f"{room}/old"}, "this one has no sse4_2"))
    prefix = f"{room}/prefix"
    for surroundings, said in refused:
        status, text = install(trial, prefix, **surroundings)
        say(status == 1 and said in text and not os.path.exists(prefix), f"{said}: {status} {text}")
    status, text = install(trial, VTEX_CPUINFO=f"{room}/none")
    say(status == 0, f"a machine whose processor is not known: {text}")
    for version in ("2.34", "2.100", "3.0"):
        status, text = install(trial, PATH=stands(trial, "getconf", f"echo glibc {version}"))
        say(status == 0, f"glibc {version}: {text}")
    for name in ("vtex", "libvtex_c.a", "../examples/viewer/vtex.wasm"):
        back = kept(f"{top}/dist/{name}", more)
        status, text = install(trial, prefix)
        say(
            status == 1 and f"{name}: FAILED" in text and not os.path.exists(prefix),
            f"a byte more in {name}: {status} {text}",
        )
        back()
    status, text = install(trial, prefix)
    say(
        status == 0 and f"installed vtex 1.2.3 below {prefix}" in text and "export PATH" in text,
        f"installed: {status} {text}",
    )
    names = [
        "bin/vtex",
        "include/vtex.h",
        "lib/libvtex.so",
        "lib/libvtex.so.1",
        "lib/libvtex_c.a",
        "lib/pkgconfig/vtex.pc",
        "lib/cmake/vtex/vtexConfig.cmake",
        "lib/cmake/vtex/vtexConfigVersion.cmake",
        "share/man/man1/vtex.1",
        "share/vtex/viewer/vtex.wasm",
        "share/vtex/installed",
    ]
    for name in names:
        say(os.path.isfile(f"{prefix}/{name}"), f"{name} is installed")
    write(f"{room}/engine.c", ENGINE)
    builds = [
        ("static", ["-I" + prefix + "/include", f"{prefix}/lib/libvtex_c.a"], {}),
        (
            "shared",
            ["-I" + prefix + "/include", "-L" + prefix + "/lib", "-lvtex"],
            {"LD_LIBRARY_PATH": f"{prefix}/lib"},
        ),
        ("pie", ["-pie", "-fPIE", "-I" + prefix + "/include", f"{prefix}/lib/libvtex_c.a"], {}),
        ("fixed", ["-static", "-I" + prefix + "/include", f"{prefix}/lib/libvtex_c.a"], {}),
    ]
    for name, words, surroundings in builds:
        runs(name, room, words, surroundings)
    if shutil.which("pkg-config"):
        moved = f"{room}/moved"
        shutil.copytree(prefix, moved, symlinks=True)
        words = subprocess.run(
            ["pkg-config", "--cflags", "--libs", "vtex"],
            env=dict(os.environ, PKG_CONFIG_PATH=f"{moved}/lib/pkgconfig"),
            stdout=subprocess.PIPE,
            text=True,
        )
        say(
            words.returncode == 0 and moved in words.stdout and prefix not in words.stdout,
            f"pkg-config after a move: {words.stdout}",
        )
        runs("pkg-config", room, words.stdout.split(), {})
        shutil.rmtree(moved)
    shown = subprocess.run(
        ["nm", "-D", "--defined-only", f"{prefix}/lib/libvtex.so"],
        stdout=subprocess.PIPE,
        text=True,
    ).stdout
    say(
        [line.split()[2] for line in shown.splitlines()] == ["vtex_answer"],
        f"the shared library exports the header's names alone: {shown}",
    )
    # Again over what is there, without a compiler: nothing of the earlier one is left.
    status, text = install(trial, prefix, CC="no-such-compiler")
    say(
        status == 0
        and "the shared library is left out" in text
        and not os.path.lexists(f"{prefix}/lib/libvtex.so"),
        f"without a compiler: {status} {text}",
    )
    write(f"{prefix}/bin/other", "kept\n")
    status, text = install(trial, "--uninstall", prefix)
    left = [os.path.join(folder, name) for folder, _, names in os.walk(prefix) for name in names]
    say(status == 0 and left == [f"{prefix}/bin/other"], f"uninstalled: {status} {text} {left}")
    status, text = install(trial, "--uninstall", prefix)
    say(status == 1 and "nothing of vtex is below" in text, f"uninstalled twice: {status} {text}")
    status, text = install(trial, "/usr", DESTDIR=f"{room}/package")
    say(status == 0 and os.path.isfile(f"{room}/package/usr/bin/vtex"), f"DESTDIR: {status} {text}")
    write(f"{room}/file", "")
    status, text = install(trial, f"{room}/file/below")
    say(status == 1 and "cannot write to" in text, f"a prefix below a file: {status} {text}")
    for words in (["--prefix"], ["a", "b"], [""]):
        status, text = install(trial, *words)
        say(status == 2 and "sh dist/install.sh" in text, f"{words}: {status} {text}")


def try_release(trial):
    """Tries dist/release.sh: what it refuses, and a release."""
    top = trial.top

    def release(*words):
        ran = subprocess.run(
            ["sh", f"{top}/dist/release.sh", *words],
            env=trial.surroundings,
            stdout=subprocess.PIPE,
            stderr=subprocess.STDOUT,
            text=True,
        )
        return ran.returncode, ran.stdout

    refused = [
        ([], 2, "sh dist/release.sh VERSION"),
        (["1.3"], 1, "a version has three numbers, as 1.0.0; this is 1.3"),
        (["1.3.0"], 1, "CHANGELOG.md has no entry '## 1.3.0'"),
    ]
    for words, wanted, text in refused:
        status, output = release(*words)
        say(status == wanted and text in output, f"release {words}: {status} {output}")
    write(f"{top}/CHANGELOG.md", "# Changes\n\n## 1.3.0\n\n- More.\n\n## 1.2.3\n\n- All.\n")
    status, output = release("1.3.0")
    say(status == 1 and "commit or put away" in output, f"changes: {status} {output}")
    more(f"{top}/crates/vt_low/src/lib.rt", b"// more\n")
    subprocess.run(["git", "-C", top, "commit", "-qam", "Change it"], check=True)
    status, output = release("1.3.0")
    say(status == 0 and "1.3.0 is made and committed" in output, f"release: {status} {output}")
    say("dist/libvtex_c.a\n" in output, "the clean machine has the committed release")
    trial.passes(["--release"], "after the release", "dist: 1.3.0", "0 wrong")
    with open(f"{top}/include/vtex.h", encoding="utf-8") as file:
        say('#define VTEX_VERSION "1.3.0"\n' in file.read(), "the header has the version")
    with open(f"{top}/examples/viewer/package.json", encoding="utf-8") as file:
        say('"version": "1.3.0"' in file.read(), "the viewer has the version")
    left = subprocess.run(
        ["git", "-C", top, "status", "--porcelain"], stdout=subprocess.PIPE, text=True
    )
    say(left.stdout == "", f"the release leaves nothing behind: {left.stdout}")


def runs(name, room, words, surroundings):
    made = subprocess.run(
        ["gcc", "-Wall", "-Werror", f"{room}/engine.c", *words, "-o", f"{room}/{name}"],
        stdout=subprocess.PIPE,
        stderr=subprocess.STDOUT,
        text=True,
    )
    say(made.returncode == 0, f"{name} is linked: {made.stdout}")
    if made.returncode == 0:
        ran = subprocess.run(
            [f"{room}/{name}"],
            env=dict(os.environ, **surroundings),
            stdout=subprocess.PIPE,
            text=True,
        )
        say(ran.stdout == "42\n", f"{name} runs: {ran.stdout}")


def main():
    missing = [name for name in ("git", "gcc", "ar", "nm") if shutil.which(name) is None]
    if missing:
        print(f"left out: {', '.join(missing)} is not installed")
        print("0 passed, 0 failed")
        return 0
    with tempfile.TemporaryDirectory() as room:
        trial = Trial(room)
        try_check(trial)
        try_install(trial, room)
        try_release(trial)
    print(f"{passed} passed, {failed} failed")
    return 1 if failed else 0


if __name__ == "__main__":
    sys.exit(main())
