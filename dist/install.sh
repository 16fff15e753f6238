#!/bin/sh
# Installs vtex: sh dist/install.sh [PREFIX]
#
#   sh dist/install.sh           checks the files, runs the program once from where it stands, and
#                                installs nothing
#   sh dist/install.sh PREFIX    also copies program, library, header, man page and viewer below
#                                PREFIX, as ~/.local or /usr/local
#   sh dist/install.sh --uninstall PREFIX
#                                removes what it has put below PREFIX
#
# Needs a POSIX shell and sha256sum. With a C compiler (CC, or cc) it also makes the shared library.
# DESTDIR is put before PREFIX, for packages.
set -eu

fail() {
    echo "install.sh: $*" >&2
    exit 1
}

usage() {
    sed -n '2,12s/^# \{0,1\}//p' "$0" >&2
    exit 2
}

here=$(cd "$(dirname "$0")" && pwd)
top=$(dirname "$here")

# Removes what the list of an earlier installation names, and the folders that this leaves empty.
uninstall() {
    list=$1/share/vtex/installed
    [ -f "$list" ] || fail "nothing of vtex is below $1: $list is not there"
    while read -r name; do rm -f "$1/$name"; done <"$list"
    rm -f "$list"
    for folder in share/vtex/viewer share/vtex share/man/man1 share/man share \
        lib/cmake/vtex lib/cmake lib/pkgconfig lib include bin; do
        rmdir "$1/$folder" 2>/dev/null || :
    done
    echo "removed vtex from $1"
}

case ${1-} in
--uninstall) [ $# -eq 2 ] || usage ; uninstall "${DESTDIR-}$2"; exit ;;
-*) usage ;;
esac
[ $# -le 1 ] || usage

# The machine: the program is for Linux on x86-64-v2 (processors since 2009) with glibc 2.34 or
# later.
[ "$(uname -s)" = Linux ] || fail "the program is for Linux; this is $(uname -s)"
[ "$(uname -m)" = x86_64 ] || fail "the program is for x86-64 processors; this is $(uname -m)"
cpuinfo=${VTEX_CPUINFO-/proc/cpuinfo}
for flag in cx16 lahf_lm popcnt sse4_1 sse4_2 ssse3; do
    [ ! -r "$cpuinfo" ] || grep -qw "$flag" "$cpuinfo" ||
        fail "the program needs an x86-64-v2 processor; this one has no $flag"
done
libc=$(getconf GNU_LIBC_VERSION 2>/dev/null || :)
case $libc in
"glibc "*) ;;
*) fail "the program needs glibc 2.34 or later; this system has another C library" ;;
esac
major=${libc#glibc } major=${major%%.*} minor=${libc#glibc *.} minor=${minor%%.*}
[ "$major" -gt 2 ] || { [ "$major" -eq 2 ] && [ "$minor" -ge 34 ]; } ||
    fail "the program needs glibc 2.34 or later; this system has $libc"

# The files.
[ -f "$here/SHA256SUMS" ] && [ -f "$here/vtex" ] ||
    fail "no release is in $here: SHA256SUMS or vtex is missing"
if ! (cd "$here" && sha256sum -c SHA256SUMS >/dev/null 2>&1); then
    (cd "$here" && sha256sum -c SHA256SUMS 2>&1 | grep -v ': OK$' >&2) || :
    fail "a file is not the one that was released; get the release again"
fi

program=$here/vtex
if [ $# -eq 1 ]; then
    case $1 in
    '') usage ;;
    /*) to=${DESTDIR-}$1 ;;
    *) to=${DESTDIR-}$PWD/$1 ;;
    esac
    version=$(cat "$here/VERSION")
    mkdir -p "$to" 2>/dev/null && [ -w "$to" ] || fail "cannot write to $to"
    [ ! -f "$to/share/vtex/installed" ] || uninstall "$to" >/dev/null
    mkdir -p "$to/share/vtex"
    : >"$to/share/vtex/installed"

    # Copies a file below PREFIX: its mode, where it is, its name there.
    put() {
        mkdir -p "$to/$(dirname "$3")"
        cp "$2" "$to/$3.new" && chmod "$1" "$to/$3.new" && mv -f "$to/$3.new" "$to/$3" ||
            fail "cannot write $to/$3"
        echo "$3" >>"$to/share/vtex/installed"
    }

    put 755 "$here/vtex" bin/vtex
    for name in explain path; do
        [ ! -f "$top/examples/$name.py" ] || put 755 "$top/examples/$name.py" "bin/vtex-$name"
    done
    put 644 "$here/libvtex_c.a" lib/libvtex_c.a
    put 644 "$top/include/vtex.h" include/vtex.h
    put 644 "$top/docs/vtex.1" share/man/man1/vtex.1
    for name in "$top"/examples/viewer/*; do
        case $name in */build.py | */heap.c) continue ;; esac # what the modules are made of
        [ ! -f "$name" ] || put 644 "$name" "share/vtex/viewer/$(basename "$name")"
    done

    room=$(mktemp -d)
    trap 'rm -rf "$room"' EXIT
    # Both files find the prefix from where they stand, so the folder can be moved.
    cat >"$room/vtex.pc" <<END
prefix=\${pcfiledir}/../..
Name: vtex
Description: Page cache for virtual texturing
Version: $version
Cflags: -I\${prefix}/include
Libs: -L\${prefix}/lib -lvtex_c
END
    cat >"$room/vtexConfig.cmake" <<'END'
get_filename_component(_vtex_prefix "${CMAKE_CURRENT_LIST_DIR}/../../.." ABSOLUTE)
if(NOT TARGET vtex::vtex)
  add_library(vtex::vtex STATIC IMPORTED)
  set_target_properties(vtex::vtex PROPERTIES
    IMPORTED_LOCATION "${_vtex_prefix}/lib/libvtex_c.a"
    INTERFACE_INCLUDE_DIRECTORIES "${_vtex_prefix}/include")
endif()
if(NOT TARGET vtex::shared AND EXISTS "${_vtex_prefix}/lib/libvtex.so")
  add_library(vtex::shared SHARED IMPORTED)
  set_target_properties(vtex::shared PROPERTIES
    IMPORTED_LOCATION "${_vtex_prefix}/lib/libvtex.so"
    IMPORTED_SONAME "libvtex.so.${vtex_VERSION_MAJOR}"
    INTERFACE_INCLUDE_DIRECTORIES "${_vtex_prefix}/include")
endif()
unset(_vtex_prefix)
END
    cat >"$room/vtexConfigVersion.cmake" <<END
set(PACKAGE_VERSION "$version")
if(PACKAGE_FIND_VERSION VERSION_GREATER PACKAGE_VERSION
    OR NOT PACKAGE_FIND_VERSION_MAJOR EQUAL ${version%%.*})
  set(PACKAGE_VERSION_COMPATIBLE FALSE)
else()
  set(PACKAGE_VERSION_COMPATIBLE TRUE)
  if(PACKAGE_FIND_VERSION STREQUAL PACKAGE_VERSION)
    set(PACKAGE_VERSION_EXACT TRUE)
  endif()
endif()
END
    put 644 "$room/vtex.pc" lib/pkgconfig/vtex.pc
    put 644 "$room/vtexConfig.cmake" lib/cmake/vtex/vtexConfig.cmake
    put 644 "$room/vtexConfigVersion.cmake" lib/cmake/vtex/vtexConfigVersion.cmake

    compiler=${CC-cc}
    shared=libvtex.so.${version%%.*}
    if command -v "$compiler" >/dev/null 2>&1; then
        echo '{ global: vtex_*; local: *; };' >"$room/exports"
        "$compiler" -shared -o "$room/$shared" -Wl,-soname,"$shared" \
            -Wl,--version-script,"$room/exports" \
            -Wl,--whole-archive "$here/libvtex_c.a" -Wl,--no-whole-archive ||
            fail "$compiler could not make the shared library"
        put 755 "$room/$shared" "lib/$shared"
        ln -sf "$shared" "$to/lib/libvtex.so"
        echo lib/libvtex.so >>"$to/share/vtex/installed"
    else
        echo "no C compiler: the shared library is left out"
    fi
    program=$to/bin/vtex
fi

"$program" trial 7 || fail "$program does not run on this machine"
if [ $# -eq 1 ]; then
    echo "installed vtex $version below $to"
    case :$PATH: in
    *":$to/bin:"*) ;;
    *) echo "to call it as vtex: export PATH=\"$to/bin:\$PATH\"" ;;
    esac
else
    echo "the program is $program; to install it: sh dist/install.sh ~/.local"
fi
