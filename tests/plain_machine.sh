#!/usr/bin/env bash
# Tries the release as its users have it: in a clean Debian 12 without the toolchain, with git,
# compilers, CMake, pkg-config and Python alone.
#
# usage: plain_machine.sh [--keep] [ROOM]
#
# Makes the system by debootstrap in ROOM (a new folder where it is left out; some 700 MB), clones
# what is committed here into it, and runs there `sh dist/install.sh`, the flight of README.md, a
# program over the library by pkg-config, by CMake and from Python, and `bash test`. Needs root,
# debootstrap and a mirror (MIRROR, http://deb.debian.org/debian where it is not set). By hand, and
# before each release. The status is 0 where all held. --keep leaves ROOM for the next run.
set -eu
top=$(cd "$(dirname "$0")/.." && pwd)
keep=
[ "${1-}" != --keep ] || { keep=yes; shift; }
fail() {
    echo "plain_machine.sh: $*" >&2
    exit 1
}
command -v debootstrap >/dev/null || fail "debootstrap is not installed"
[ "$(id -u)" = 0 ] || fail "run it as root"
room=${1-$(mktemp -d)}
mkdir -p "$room"
leave() {
    umount -l "$room/proc" "$room/dev/shm" 2>/dev/null || :
    [ -n "$keep" ] || rm -rf --one-file-system "$room"
}
trap leave EXIT
if [ ! -x "$room/bin/bash" ]; then
    packages=ca-certificates,git,gcc,g++,make,cmake,pkg-config,python3,man-db
    if ! debootstrap --variant=minbase --include=$packages bookworm "$room" \
        "${MIRROR-http://deb.debian.org/debian}" >"$room.log" 2>&1; then
        tail -20 "$room.log" >&2
        fail "debootstrap failed"
    fi
fi
mount -t proc proc "$room/proc"
mount -t tmpfs tmpfs "$room/dev/shm"
rm -rf "$room/home/reader" && mkdir -p "$room/home/reader"
git clone -q "$top" "$room/home/reader/vtex"

cat >"$room/home/reader/run.sh" <<'END'
set -eu
cd ~/vtex
say() { printf '\n$ %s\n' "$*"; }
do_it() { say "$*"; "$@"; }
command -v rt && { echo "the toolchain is here"; exit 1; }
do_it sh dist/install.sh
do_it sh dist/install.sh ~/.local
export PATH=~/.local/bin:$PATH
mkdir ~/flight && cd ~/flight

# The flight of README.md: its first block with a walk. The image converter is not installed here,
# so a texture is made in place of a photograph.
say "the flight of README.md"
python3 - ~/vtex/README.md >commands <<'PYTHON'
import re, sys
text = open(sys.argv[1], encoding="utf-8").read()
block = r"^```[a-z]*\n(.*?)^```|^((?: {4}[^\n]*\n)+)"
blocks = ["".join(found) for found in re.findall(block, text, re.DOTALL | re.MULTILINE)]
for line in next(it for it in blocks if "vtex walk" in it).splitlines():
    if line.strip().startswith(("convert ", "vips ", "magick ")):
        line = "vtex gen 7 2048 1024 photo.ppm"
    print(re.split(r" {2,}#", line.strip())[0])
PYTHON
cat commands
set -x; . ./commands; set +x
ls
MANPATH=~/.local/share/man man vtex | head -5

say "a program by pkg-config, and by CMake"
export PKG_CONFIG_PATH=~/.local/lib/pkgconfig
cat >engine.c <<'C'
#include <stdio.h>
#include <vtex.h>
int main(void) {
    vtex_shape shape = { 4, 4, 2 };
    uint32_t pages = 0;
    int status = vtex_page_count(&shape, &pages);
    printf("%d %u\n", status, pages);
    return status != VTEX_DONE || pages != 5;
}
C
do_it cc -Wall -Wextra engine.c $(pkg-config --cflags --libs vtex) -o by_pkg_config
do_it ./by_pkg_config
do_it cc -Wall -Wextra -static engine.c $(pkg-config --cflags --libs vtex) -o fixed
do_it ./fixed
cat >CMakeLists.txt <<'CMAKE'
cmake_minimum_required(VERSION 3.18)
project(engine C)
find_package(vtex 1 REQUIRED)
add_executable(by_cmake engine.c)
target_link_libraries(by_cmake vtex::vtex)
add_executable(by_cmake_shared engine.c)
target_link_libraries(by_cmake_shared vtex::shared)
CMAKE
do_it cmake -S . -B built -DCMAKE_PREFIX_PATH="$HOME/.local" -DCMAKE_BUILD_TYPE=Release
do_it cmake --build built
do_it built/by_cmake
do_it built/by_cmake_shared

say "the library from Python"
LD_LIBRARY_PATH=~/.local/lib python3 - <<'PYTHON'
import ctypes
library = ctypes.CDLL("libvtex.so.1")
class Shape(ctypes.Structure):
    _fields_ = [(name, ctypes.c_uint32) for name in ("width", "height", "tile")]
pages = ctypes.c_uint32()
status = library.vtex_page_count(ctypes.byref(Shape(4, 4, 2)), ctypes.byref(pages))
print(status, pages.value)
assert (status, pages.value) == (0, 5)
PYTHON
cd ~/vtex
do_it bash test
do_it python3 dist/check.py
do_it sh dist/install.sh --uninstall ~/.local
[ -z "$(git status --porcelain)" ] || { git status --short; exit 1; }
echo "all of it held"
END
chroot "$room" env -i HOME=/home/reader PATH=/usr/bin:/bin LANG=C.UTF-8 TERM=dumb \
    bash /home/reader/run.sh
