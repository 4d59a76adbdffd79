#!/usr/bin/env python3
"""Runs the gate from nothing, and puts what each crate took: processor seconds of its proof, its tests, its
must-fail edits, and of compiling and running, beside its lines.

usage: bench/gate.py [NAME..]     (every crate where none are named; else these and those below them)

Times are those of the processes that `rt ci` starts, read from /proc five times a second. A process is of the
crate that it names or in whose folder it runs. What ended between two readings is missing from the rows, and
is in the last line. Linux alone.
"""

import os
import resource
import subprocess
import sys
import time
from collections import namedtuple
from pathlib import Path

TOP = Path(__file__).resolve().parent.parent
CRATES = TOP / "crates"
TICKS = os.sysconf("SC_CLK_TCK")
KINDS = ("proof", "tests", "edits", "other")

Process = namedtuple("Process", "parent seconds begun")


def processes():
    """Each process by its number: its parent, its own processor seconds, and when it began."""
    found = {}
    for entry in os.listdir("/proc"):
        if entry.isdigit():
            try:
                stat = Path("/proc", entry, "stat").read_text()
            except OSError:
                continue
            fields = stat[stat.rindex(")") + 2 :].split()
            seconds = (int(fields[11]) + int(fields[12])) / TICKS
            found[int(entry)] = Process(int(fields[1]), seconds, fields[19])
    return found


def below(root, found):
    """The numbers of a process and of all that it started, parents first."""
    children = {}
    for pid, process in found.items():
        children.setdefault(process.parent, []).append(pid)
    pending, all_below = [root], []
    while pending:
        pid = pending.pop()
        all_below.append(pid)
        pending += children.get(pid, [])
    return [pid for pid in all_below if pid in found]


def row_of(pid, parents_row):
    """The crate and the kind of work of a process, where they can be told."""
    try:
        words = Path("/proc", str(pid), "cmdline").read_text().split("\0")
        folder = Path(os.readlink(f"/proc/{pid}/cwd"))
    except OSError:
        return None
    if "--crate-name" in words:
        crate = words[words.index("--crate-name") + 1]
        # an edit is tried on a copy
        if folder.name.startswith("rt-edit"):
            return crate, "edits"
        if "--test" in words:
            return crate, "tests"
        return crate, "other" if "--backend" in words else "proof"
    crate = folder.name if folder.parent.name == "crates" else parents_row and parents_row[0]
    return (crate, "other") if crate else None


def lines(crate, folder, suffix):
    return sum(len(file.read_text().splitlines()) for file in (CRATES / crate / folder).glob(f"**/*.{suffix}"))


def measure(names):
    """The processor seconds of each crate and kind, those of all processes, the seconds that passed and the status."""
    begun = time.time()
    gate = subprocess.Popen(["rt", "ci", "--anew", *names], cwd=TOP, stdout=sys.stderr)
    seen, rows = {}, {}
    while gate.poll() is None:
        found = processes()
        for pid in below(gate.pid, found):
            # a number may be given to a later process too
            key = (pid, found[pid].begun)
            parent = found.get(found[pid].parent)
            above = rows.get((found[pid].parent, parent.begun)) if parent else None
            rows[key] = row_of(pid, above) or rows.get(key)
            seen[key] = found[pid].seconds
        time.sleep(0.2)
    usage = resource.getrusage(resource.RUSAGE_CHILDREN)
    times = {}
    for key, seconds in seen.items():
        if rows[key]:
            times[rows[key]] = times.get(rows[key], 0) + seconds
    return times, usage.ru_utime + usage.ru_stime, time.time() - begun, gate.returncode


def put_row(name, counts, seconds):
    total = sum(seconds)
    rate = total / 60 / (sum(counts) / 1000) if sum(counts) else 0
    cells = [f"`{name}`", *(f"{n:,}" for n in counts), *(f"{n:,.0f}" for n in seconds), f"{total / 60:.1f}", f"{rate:.1f}"]
    print("| " + " | ".join(cells) + " |")


def main():
    times, whole, passed, status = measure(sys.argv[1:])
    print("| Crate | Code | Definitions | Proofs | Proof, s | Tests, s | Edits, s | Other, s | Minutes | Minutes a 1,000 lines |")
    print("|---|---|---|---|---|---|---|---|---|---|")
    crates = sorted({crate for crate, _ in times})
    table = {}
    for crate in crates:
        counts = [lines(crate, "src", "rt"), lines(crate, "specs", "antt"), lines(crate, "proofs", "antt")]
        table[crate] = (counts, [times.get((crate, kind), 0) for kind in KINDS])
        put_row(crate, *table[crate])
    put_row("all", *([sum(column) for column in zip(*(row[part] for row in table.values()))] for part in (0, 1)))
    print(f"\n{whole / 60:.1f} processor minutes in all, {passed / 60:.1f} minutes on {os.cpu_count()} processors")
    return status


sys.exit(main())
