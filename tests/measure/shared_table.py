#!/usr/bin/env python3
"""Measures the calls on a shared table and prints the tables of docs/PERFORMANCE.md; by hand, on a machine that does nothing else.

usage: shared_table.py [SECONDS]

Builds shared_table.cpp by g++ over the library of dist/, or of crates/vtex_c/out if that is newer, and runs its three
parts: each call alone; readers that hold for one run of texels beside a writer that publishes without a pause; and readers that hold for a
picture. Each row takes SECONDS, 1 where they are left out: some two minutes in all.
"""
import os
import subprocess
import sys
import tempfile

HERE = os.path.dirname(os.path.abspath(__file__))
TOP = os.path.dirname(os.path.dirname(HERE))
sys.path.insert(0, os.path.dirname(HERE))
import artefacts  # noqa: E402


def main():
    seconds = sys.argv[1] if len(sys.argv) > 1 else "1"
    with tempfile.TemporaryDirectory() as work:
        program = os.path.join(work, "shared_table")
        source = os.path.join(HERE, "shared_table.cpp")
        subprocess.run(["g++", "-std=c++17", "-O2", "-I" + os.path.join(TOP, "include"), source, *artefacts.library_words(work), "-pthread", "-o", program], check=True)
        for what in ("calls", "rows", "pictures"):
            subprocess.run([program, what, seconds], check=True)
            print(flush=True)


if __name__ == "__main__":
    main()
