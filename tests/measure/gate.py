#!/usr/bin/env python3
"""What a gate costs, crate by crate, in processor seconds.

    python3 tests/measure/gate.py run LOG      runs `rt ci --anew` at the top of the repository, which takes nothing that earlier runs
                                               kept; LOG gets what it prints, and a line of time for each check
    python3 tests/measure/gate.py on LOG       runs `rt ci`, which does what changed since, and logs it likewise
    python3 tests/measure/gate.py table LOG..  prints the table of such logs, the sums, and the longest chain of crates; crates that
                                               take less than a fortieth stand in one row, and with `all` behind the logs in their own.
                                               Below it stand the crates whose edits are more than their proof allows. Of several logs
                                               the first is a whole gate, and what a later one did again counts in place of what it was
    python3 tests/measure/gate.py page LOG..   puts what `table LOG..` prints into tests/measure/history.md, in place of what stands there

Nothing else is to be at work on the machine. The checks are watched twice a second, so a figure may lack half a second. The check of
a crate's first must-fail edit proves the whole crate a second time: of its time what is above the mean of the other edits counts as
"again for edits", and so does the last look at the crate. Tests are proved, linked and built; that they run costs next to nothing.
Machines differ by more than twice, so the gate's price is also told as a ratio: its processor seconds over those of two proofs.
"""
import contextlib
import glob
import io
import os
import re
import subprocess
import sys
import textwrap
import time

from uses import TOP, crates

TICKS = os.sysconf("SC_CLK_TCK")
KINDS = ("proof", "again for edits", "edits", "tests")
# What the gate's price is measured by: the proofs of these crates.
UNIT = ("vt_outside", "vt_ppm")
# The limit of the gate, in units and in minutes of four processors: the same on a machine where a unit takes so many seconds.
LIMIT, MINUTES = 32, 45
EVEN = MINUTES * 60 * 4 / LIMIT
# A crate whose own proof takes more seconds than this on such a machine has at most so many must-fail edits.
LONG, FEW = 60, 2
# Where the page has the table: from its head to the end of the lines on the longest chain.
PAGE, PLACE = f"{TOP}/tests/measure/history.md", re.compile(r"^\| crate \| proof .*?^The longest chain takes .*?\n(?=\n)", re.DOTALL | re.MULTILINE)


def processes():
    """The parent, processor seconds (with those of its children that have ended) and start of each process."""
    found = {}
    for name in os.listdir("/proc"):
        if name.isdigit():
            try:
                with open(f"/proc/{name}/stat") as it:
                    fields = it.read().rpartition(")")[2].split()
            except OSError:
                continue
            found[int(name)] = int(fields[1]), sum(int(it) for it in fields[11:15]) / TICKS, int(fields[19]) / TICKS
    return found


def alone(process):
    """The processor seconds of a process without those of its children."""
    try:
        with open(f"/proc/{process}/stat") as it:
            fields = it.read().rpartition(")")[2].split()
    except OSError:
        return 0.0
    return (int(fields[11]) + int(fields[12])) / TICKS


def words_of(process):
    try:
        with open(f"/proc/{process}/cmdline", "rb") as it:
            return it.read().decode(errors="replace").split("\0")[:-1]
    except OSError:
        return []


def is_check(words):
    return len(words) > 1 and os.path.basename(words[0]) == "rattle" and words[1] in ("check", "build")


def after(words, flag):
    return words[words.index(flag) + 1] if flag in words else ""


def what_is(words, folder):
    """The kind of a check and, of an edit, the folder that it shares with the other edits of its crate."""
    if "--test" in words:
        return "tests", ""
    if os.path.basename(folder).startswith("rt-edit-"):
        return "edit", os.path.basename(after(words, "--incremental"))
    return "proof", ""


class Watch:
    """The checks below a process: for each its crate, its kind, its start and end, and its processor seconds. Beside them those of the
    process alone."""

    def __init__(self, top):
        self.top = top
        self.checks = {}
        self.alone = 0.0

    def look(self):
        table = processes()
        self.alone = max(self.alone, alone(self.top))
        children = {}
        for process, (parent, _, _) in table.items():
            children.setdefault(parent, []).append(process)
        left = [self.top]
        while left:
            process = left.pop()
            words = words_of(process)
            if is_check(words):
                self.note(process, words, table, children)
            else:
                left += children.get(process, [])

    def note(self, process, words, table, children):
        key = process, table[process][2]
        if key not in self.checks:
            try:
                folder = os.readlink(f"/proc/{process}/cwd")
            except OSError:
                return
            kind, shared = what_is(words, folder)
            self.checks[key] = [after(words, "--crate-name"), kind, shared or "-", time.time(), 0.0, 0.0]
        spent, left = 0.0, [process]
        while left:
            one = left.pop()
            spent += table[one][1]
            left += children.get(one, [])
        check = self.checks[key]
        check[4], check[5] = time.time(), max(check[5], spent)


def run(log, words):
    """Runs the gate, and returns its status."""
    began = time.time()
    with open(log, "w") as out:
        gate = subprocess.Popen(["rt", "ci", *words], stdin=subprocess.DEVNULL, stdout=out, stderr=subprocess.STDOUT)
        watch = Watch(gate.pid)
        while gate.poll() is None:
            watch.look()
            time.sleep(0.5)
    used = os.times()
    with open(log, "a") as out:
        for crate, kind, shared, first, last, spent in sorted(watch.checks.values(), key=lambda it: it[3]):
            print(f"time: {crate} {kind} {shared} {first - began:.1f} {last - began:.1f} {spent:.2f}", file=out)
        print(f"time: all {time.time() - began:.1f} {used.children_user + used.children_system:.1f} {watch.alone:.1f}", file=out)
    return gate.returncode


def read(log):
    """The checks of a log, and the seconds and processor seconds of the whole gate and of rt's own process."""
    checks, whole = [], (0.0, 0.0, 0.0)
    with open(log, errors="replace") as it:
        for line in it:
            found = re.fullmatch(r"time: (\w+) (proof|tests|edit) (\S+) (\S+) (\S+) (\S+)\n", line)
            if found:
                checks.append((found[1], found[2], found[3], *map(float, found.groups()[3:])))
            elif line.startswith("time: all "):
                whole = tuple(map(float, line.split()[2:]))
    return checks, whole


def read_all(logs):
    """The checks of the crates that stand, as the last of these logs that has them says, and the figures of the first log's gate."""
    last, whole = {}, None
    for log in logs:
        checks, figures = read(log)
        whole = whole or figures
        own = {}
        for check in checks:
            own.setdefault((check[0], check[1]), []).append(check)
        last.update(own)
    standing = crates()
    return [check for (crate, _), found in last.items() if crate in standing for check in found], whole


def edits_of(checks):
    """The processor seconds of a crate's edits: what was proved again, and what the edits took."""
    shared = [spent for _, _, folder, _, _, spent in checks if folder != "-"]
    alone = [spent for _, _, folder, _, _, spent in checks if folder == "-"]
    if len(shared) < 3:
        return 0.0, sum(shared) + sum(alone)
    first, *middle, last = shared
    mean = sum(middle) / len(middle)
    return max(first - mean, 0) + last, min(first, mean) + sum(middle) + sum(alone)


def rows_of(checks):
    rows = {}
    for crate in sorted({it[0] for it in checks}):
        mine = [it for it in checks if it[0] == crate]
        again, edits = edits_of([it for it in mine if it[1] == "edit"])
        count = len(glob.glob(f"crates/{crate}/must-fail/*.edit"))
        proof = sum(it[5] for it in mine if it[1] == "proof")
        rows[crate] = proof, again, edits, sum(it[5] for it in mine if it[1] == "tests"), count
    return rows


def longest_chain(checks, libraries):
    """The chain of crates whose proofs take longest, one after the other, with the seconds of each."""
    took = {}
    for crate, kind, _, first, last, _ in checks:
        if kind == "proof":
            took[crate] = took.get(crate, 0) + last - first
    best = {}

    def chain(crate):
        if crate not in best:
            before = max((chain(it) for it in libraries.get(crate, []) if it in libraries), key=lambda it: it[0], default=(0, []))
            best[crate] = before[0] + took.get(crate, 0), [*before[1], (crate, took.get(crate, 0))]
        return best[crate]

    return max((chain(it) for it in libraries), key=lambda it: it[0])


def sum_of(rows):
    return [sum(row[i] for row in rows) for i in range(5)]


def say_row(title, row):
    proof, again, edits, tests, count = row
    number = lambda it: f"{it:.0f}" if it >= 0.5 else ""
    tried = f"{number(edits)} ({count})" if count else ""
    print(f"| {title} | {number(proof)} | {number(again)} | {tried} | {number(tests)} | {sum(row[:4]):.0f} |")


def show(logs, least=0.025):
    """The table of logs; crates that take less than this part of the whole stand in one row."""
    checks, (seconds, spent, own) = read_all(logs)
    rows = rows_of(checks)
    whole = sum_of(rows.values())
    small = {crate for crate, row in rows.items() if sum(row[:4]) < least * sum(whole[:4])}
    print("| crate | proof | again for edits | edits | tests | together |\n|---|---|---|---|---|---|")
    for crate, row in sorted(rows.items(), key=lambda it: -sum(it[1][:4])):
        if crate not in small:
            say_row(crate, row)
    if small:
        say_row(f"{len(small)} others", sum_of([rows[crate] for crate in small]))
    say_row("all", whole)
    print()
    say = lambda text: print(textwrap.fill(text, 150))
    say(
        f"{'The first gate' if logs[1:] else 'The gate'} took {seconds / 60:.1f} minutes and {spent:.0f} processor seconds, those of what is "
        f"run and linked among them, and {own:.0f} of rt's own process."
    )
    if logs[1:]:
        spent += sum(whole[:4]) - sum(check[5] for check in read(logs[0])[0])
        say(f"What was done again since is in the table: with it these are {spent:.0f}.")
    unit = sum(rows[crate][0] for crate in UNIT if crate in rows)
    if unit:
        say(
            f"That is {spent / unit:.1f} times the {unit:.0f} seconds of the proofs of {' and '.join(UNIT)}. Where {LIMIT} of these are "
            f"{MINUTES} minutes of four processors, it is {spent / unit * EVEN / 240:.0f} minutes."
        )
    long = LONG * (unit or EVEN) / EVEN
    many = sorted(crate for crate, row in rows.items() if row[0] > long and row[4] > FEW)
    if many:
        say(f"More than {FEW} edits, and a proof of more than {long:.0f} seconds: {', '.join(many)}.")
    together, chain = longest_chain(checks, crates())
    say(f"The longest chain takes {together:.0f} seconds by the clock: " + ", ".join(f"{crate} {took:.0f}" for crate, took in chain) + ".")


def put_page(logs):
    with contextlib.redirect_stdout(io.StringIO()) as printed:
        show(logs)
    with open(PAGE) as it:
        text, count = PLACE.subn(lambda _: printed.getvalue(), it.read())
    with open(PAGE, "w") as it:
        it.write(text)
    return 0 if count == 1 else 1


def main(words):
    if len(words) == 2 and words[0] in ("run", "on"):
        return run(words[1], ["--anew"] if words[0] == "run" else [])
    if len(words) >= 2 and words[0] == "page":
        return put_page(words[1:])
    logs = [it for it in words[1:] if it != "all"]
    if logs and words[0] == "table":
        show(logs, 0 if "all" in words[1:] else 0.025)
        return 0
    print(__doc__, end="", file=sys.stderr)
    return 2


if __name__ == "__main__":
    sys.exit(main(sys.argv[1:]))
