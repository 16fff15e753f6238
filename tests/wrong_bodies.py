#!/usr/bin/env python3
"""Wrong bodies that contracts refuse and that the gate does not try, since each is dear: those of tests/wrong_bodies/CRATE.

    python3 tests/wrong_bodies.py             tries all
    python3 tests/wrong_bodies.py CRATE ..    tries those of these crates

They are must-fail edits like those of the gate. While it runs they lie in crates/CRATE/must-fail, so nothing else is to run rt in this tree. It
proves each crate first, unless `rt check` kept that, and ends with status 1 where an edit is not refused.
"""
import os
import shutil
import subprocess
import sys

TOP = os.path.join(os.path.dirname(os.path.abspath(__file__)), "..")
KEPT = os.path.join(TOP, "tests", "wrong_bodies")


def try_crate(crate):
    """Lays the edits of a crate beside the gate's, tries them, and takes them away again; tells whether all were refused."""
    folder = os.path.join(TOP, "crates", crate, "must-fail")
    was_there = os.path.isdir(folder)
    os.makedirs(folder, exist_ok=True)
    names = sorted(os.listdir(os.path.join(KEPT, crate)))
    for name in names:
        if os.path.exists(os.path.join(folder, name)):
            sys.exit(f"wrong_bodies: {crate}/must-fail has {name} too")
    try:
        for name in names:
            shutil.copy(os.path.join(KEPT, crate, name), folder)
        return subprocess.run(["rt", "must-fail", crate], cwd=TOP, stdin=subprocess.DEVNULL).returncode == 0
    finally:
        for name in names:
            os.remove(os.path.join(folder, name))
        if not was_there:
            os.rmdir(folder)


def main():
    known = sorted(os.listdir(KEPT))
    crates = sys.argv[1:] or known
    for crate in crates:
        if crate not in known:
            sys.exit(f"wrong_bodies: no edits of {crate}: there are those of {', '.join(known)}")
    refused = [try_crate(crate) for crate in crates]
    sys.exit(0 if all(refused) else 1)


main()
