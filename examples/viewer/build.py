#!/usr/bin/env python3
"""Makes vtex.wasm and vtex32.wasm, the page cache for web pages, of the proved library crates/vtex_c.

usage: build.py [--to FOLDER | --check]

1. `rt lib` proves crates/vtex_c, if that is not done yet, and hands its LLVM module for x86-64 to the toolchain's clang. It runs from a folder of
   links to the toolchain, in which clang is a script that keeps a copy of the module.
2. Of the module's text the lines of data layout and triple are those of wasm64 then, and three attributes of x86-64 are taken out. Nothing else is
   changed. Both targets have addresses of 64 bits, the lowest byte first, and the same alignments.
3. The toolchain's clang and linker make vtex.wasm of it and of heap.c, the allocator. It exports the calls of include/vtex.h and three of heap.c,
   but not those of the shared table, which is for many threads: a page has one.
4. wasm-opt (of binaryen) makes vtex32.wasm of vtex.wasm, for browsers without 64-bit memories. It has the same calls. Without wasm-opt it is left out.

FOLDER is the one of this script where it is left out. `rt lib` proves what is not proved yet in this checkout: that takes from seconds to an hour.

--check writes nothing, but compares the modules beside this script with those of a fresh build. The last line has the result. The status is 0 where they
are the same, 1 where they differ, and 2 where rt or wasm-opt, and so a fresh build of one or both, is missing.
"""
import argparse
import os
import re
import shutil
import subprocess
import sys
import tempfile

HERE = os.path.dirname(os.path.abspath(__file__))
CRATE = os.path.join(os.path.dirname(os.path.dirname(HERE)), "crates", "vtex_c")
OWN = ["vtex_malloc", "vtex_free", "vtex_held"]
TARGET = ["--target=wasm64-unknown-unknown", "-O3", "-mcpu=lime1", "-ffunction-sections", "-fdata-sections", "-nostdlib", "-ffreestanding", "--no-default-config"]
LAYOUT = 'target datalayout = "e-m:e-p:64:64-p10:8:8-p20:8:8-i64:64-i128:128-n32:64-S128-ni:1:10:20"'
TRIPLE = 'target triple = "wasm64-unknown-unknown"'
# Holds the compiler to the order of the words' steps; it stands for no instruction, on either target.
BARRIER = 'call void asm sideeffect "", "~{memory}"()'
ATTRIBUTES = ' "probe-stack"="inline-asm" "stack-probe-size"="3072" "target-cpu"="x86-64-v2"'
LOWERING = ["--enable-memory64", "--enable-bulk-memory", "--enable-nontrapping-float-to-int", "--enable-sign-ext", "--enable-mutable-globals", "--memory64-lowering"]
KEEPER = """#!/bin/sh
for word in "$@"; do
    if [ "$word" = module.bc ]; then cp module.bc %s; fi
done
exec %s "$@"
"""


def stop(line):
    sys.exit("build.py: " + line)


def run(*words, **how):
    ran = subprocess.run(words, stdout=subprocess.PIPE, stderr=subprocess.STDOUT, text=True, errors="replace", **how)
    if ran.returncode:
        stop("%s failed:\n%s" % (" ".join(words[:3]), ran.stdout[-3000:]))
    return ran.stdout


def links(source, folder, but=()):
    """A folder with a link to each thing of another, but for these."""
    os.makedirs(folder, exist_ok=True)
    for name in os.listdir(source):
        if name not in but:
            os.symlink(os.path.join(source, name), os.path.join(folder, name))


def module_of(kit, room):
    """Builds the library, and returns the name of a copy of its LLVM module."""
    copy, kept = os.path.join(room, "kit"), os.path.join(room, "kept.bc")
    links(kit, copy, ["bin", "toolchain"])
    links(os.path.join(kit, "bin"), os.path.join(copy, "bin"), ["rt", "rtlib.py", "__pycache__"])
    for name in ("rt", "rtlib.py"):
        shutil.copy2(os.path.join(kit, "bin", name), os.path.join(copy, "bin", name))
    links(os.path.join(kit, "toolchain"), os.path.join(copy, "toolchain"), ["bin"])
    links(os.path.join(kit, "toolchain", "bin"), os.path.join(copy, "toolchain", "bin"), ["clang"])
    clang = os.path.join(copy, "toolchain", "bin", "clang")
    with open(clang, "w") as file:
        file.write(KEEPER % (kept, os.path.join(kit, "toolchain", "bin", "clang")))
    os.chmod(clang, 0o755)
    print("rt lib in crates/vtex_c, which first proves what is not proved yet", flush=True)
    told = run(os.path.join(copy, "bin", "rt"), "lib", "--jobs", "1", cwd=CRATE)
    proved = re.findall(r"(?m)^logic=proved .*", told)
    if not proved or not os.path.exists(kept):
        stop("rt lib left no module of the proved library:\n" + told[-2000:])
    print(proved[-1].split(" sum=")[0])
    return kept


def for_wasm(text):
    """The module's text for wasm64: other first lines, and no attributes of x86-64."""
    for pattern, line in ((r"(?m)^target datalayout = .*", LAYOUT), (r"(?m)^target triple = .*", TRIPLE)):
        text, count = re.subn(pattern, line, text)
        if count != 1:
            stop("the module has %d lines %s" % (count, pattern))
    text = text.replace(ATTRIBUTES, "")
    left = re.search(r'"(?:target-cpu|probe-stack|target-features)"=.*|.*\basm\b.*|.*@llvm\.x86\..*', text.replace(BARRIER, ""))
    if left:
        stop("the module has more of x86-64 than is known here: " + left[0][:200])
    return text


def exports_of(text):
    return sorted(set(re.findall(r"(?m)^define [^@]*@(vtex_(?!table_|reader_)[a-z_]+)", text)))


def make(kit, to, room):
    clang = os.path.join(kit, "toolchain", "bin", "clang")
    module, written = module_of(kit, room), os.path.join(room, "module.ll")
    run(clang, "--target=x86_64-unknown-linux-gnu", "-S", "-emit-llvm", "-x", "ir", "-Xclang", "-disable-llvm-passes", module, "-o", written)
    with open(written) as file:
        text = for_wasm(file.read())
    with open(written, "w") as file:
        file.write(text)
    objects = [os.path.join(room, name) for name in ("module.o", "heap.o")]
    run(clang, *TARGET, "-c", "-x", "ir", written, "-o", objects[0])
    run(clang, *TARGET, "-c", os.path.join(HERE, "heap.c"), "-o", objects[1])
    made = [os.path.join(to, "vtex.wasm")]
    exports = ["--export=" + name for name in exports_of(text) + OWN]
    link(clang, made[0], objects, exports)
    if lowered(made[0], os.path.join(to, "vtex32.wasm")):
        made.append(os.path.join(to, "vtex32.wasm"))
    print("%d exports" % len(exports))
    for name in made:
        print("%s: %d bytes" % (os.path.relpath(name), os.path.getsize(name)))
    return objects


def link(clang, to, objects, exports, stack=262144):
    """Links a WebAssembly module; the toolchain's clang is its linker too, under that name."""
    words = ["wasm-ld", "-mwasm64", "--no-entry", "--stack-first", "-z", "stack-size=%d" % stack, "--gc-sections", *exports, *objects, "-o", to]
    run(*words, executable=clang)


def lowered(name, to):
    """Makes the form for 32-bit memories, and returns whether there is a wasm-opt to do so."""
    if shutil.which("wasm-opt") is None:
        print("no wasm-opt here (Debian: binaryen): no " + os.path.basename(to))
        return False
    run("wasm-opt", *LOWERING, name, "-o", to)
    return True


def kit():
    """The toolchain's folder."""
    if shutil.which("rt") is None:
        stop("this wants rt, the tool of the Rattle toolchain")
    return os.path.dirname(run("rt", "doc").strip())


def check():
    """Compares the modules beside this script with those of a fresh build, prints how they compare, and returns the status."""
    if shutil.which("rt") is None:
        print("build.py: not checked, since rt, the tool of the Rattle toolchain, is not installed")
        return 2
    with tempfile.TemporaryDirectory(prefix="vtex-wasm-") as room:
        made = os.path.join(room, "made")
        os.mkdir(made)
        make(kit(), made, room)
        fresh = sorted(os.listdir(made))
        differing = [name for name in fresh if not is_same(os.path.join(made, name), os.path.join(HERE, name))]
    if differing:
        print("build.py: not those of a fresh build, so run build.py: %s" % ", ".join(differing))
        return 1
    if len(fresh) < 2:
        print("build.py: vtex.wasm is that of a fresh build; vtex32.wasm is not checked, since wasm-opt is not installed (Debian: binaryen)")
        return 2
    print("build.py: %s are those of a fresh build" % " and ".join(fresh))
    return 0


def is_same(one, other):
    """Whether two files are there and have the same bytes."""
    if not os.path.exists(other):
        return False
    with open(one, "rb") as first, open(other, "rb") as second:
        return first.read() == second.read()


def main():
    parser = argparse.ArgumentParser(description=__doc__, formatter_class=argparse.RawDescriptionHelpFormatter)
    parser.add_argument("--to", default=HERE)
    parser.add_argument("--check", action="store_true")
    words = parser.parse_args()
    if words.check:
        return check()
    with tempfile.TemporaryDirectory(prefix="vtex-wasm-") as room:
        make(kit(), os.path.abspath(words.to), room)
    return 0


if __name__ == "__main__":
    sys.exit(main())
