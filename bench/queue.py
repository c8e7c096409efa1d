#!/usr/bin/env python3
"""Measures the store of the queue over a spool in memory that holds entries already.

Use: bench/queue.py [PROGRAM], which is crates/bench as it was built (`rt run -- control 1` there). For
0, 1,000 and 10,000 entries it prints how many messages a session commits a second, and by how many calls
of the spool each; for 1,000, 10,000 and 20,000 entries how long it takes to open them, and how much
memory beside that of the spool. Each is the best of five runs, without what the same run takes with one
message or one opening. This is no part of the gate.
"""

import os
import subprocess
import sys
import time
from pathlib import Path

RUNS = 5
COMMITS = 2000
OPENINGS = 5


def run(command):
    """Seconds, kilobytes at most, and what was printed."""
    begun = time.monotonic()
    process = subprocess.Popen(command, stdout=subprocess.PIPE, stdin=subprocess.DEVNULL)
    said = process.stdout.read().decode()
    _, status, used = os.wait4(process.pid, 0)
    if status != 0:
        sys.exit(f"{' '.join(command)}: status {status}")
    return time.monotonic() - begun, used.ru_maxrss, said


def best(program, what, entries, rounds):
    """The least time and memory of some runs, and what they printed."""
    runs = [run([program, what, str(entries), str(rounds)]) for _ in range(RUNS)]
    return min(it[0] for it in runs), min(it[1] for it in runs), runs[0][2]


def commits(program, entries):
    once, _, first = best(program, "commits", entries, 1)
    taken, _, said = best(program, "commits", entries, COMMITS + 1)
    calls = int(said) - int(first)
    a_second = COMMITS / max(taken - once, 1e-9)
    each = calls / COMMITS
    print(f"{entries} entries: {a_second:,.0f} commits a second, {each:.2f} calls each")


def opening(program, entries):
    _, empty, _ = best(program, "opening", entries, 0)
    once, held, _ = best(program, "opening", entries, 1)
    taken, _, said = best(program, "opening", entries, OPENINGS + 1)
    if int(said) != entries:
        sys.exit(f"opening {entries} entries: {said}")
    a_run = (taken - once) / OPENINGS * 1000
    print(f"{entries} entries: opened in {a_run:.1f} ms, {(held - empty) / 1024:.1f} MB more")


def main():
    built = Path(__file__).resolve().parent.parent / "crates/bench/out/bench"
    program = sys.argv[1] if len(sys.argv) > 1 else str(built)
    for entries in (0, 1_000, 10_000):
        commits(program, entries)
    for entries in (1_000, 10_000, 20_000):
        opening(program, entries)
    return 0


sys.exit(main())
