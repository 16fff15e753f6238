"""Finds the program and the library for the tests: those of dist/, or newer ones built here."""
import os
import subprocess

TOP = os.path.dirname(os.path.dirname(os.path.abspath(__file__)))
PROGRAMS = (os.path.join(TOP, "dist", "vtex"), os.path.join(TOP, "crates", "vtex", "out", "vtex"))
RELEASED = os.path.join(TOP, "dist", "libvtex_c.a")
LIBRARIES = (RELEASED, os.path.join(TOP, "crates", "vtex_c", "out", "libvtex_c.a"))


def newest(paths):
    """Returns the newest of the files that are there, or None."""
    return max((path for path in paths if os.path.isfile(path)), key=os.path.getmtime, default=None)


def program():
    """Returns the path of the program, or None where there is none."""
    return newest(PROGRAMS)


def library():
    """Returns the path of the library for C, or None where there is none."""
    return newest(LIBRARIES)


def library_words(folder):
    """Returns what a C compiler links for the library.

    The gate's library has no heap in it, so dist/heap.c is compiled into the folder for it.
    """
    path = library()
    if path is None:
        raise SystemExit(
            "no library: a release has it in dist/, and `rt lib` in crates/vtex_c builds it"
        )
    if path == RELEASED:
        return [path]
    heap, source = os.path.join(folder, "heap.o"), os.path.join(TOP, "dist", "heap.c")
    warnings = ["-Wall", "-Wextra", "-Werror"]
    words = ["gcc", "-std=c11", "-O2", "-fPIC", *warnings, "-c", source, "-o", heap]
    subprocess.run(words, check=True)
    return [path, heap]
