#!/usr/bin/env python3
"""Runs the gate and tells what it took, by proofs, tests and edits.

    python3 tools/gate.py              as .ci/run does
    python3 tools/gate.py --anew       from nothing, whatever earlier runs on this machine kept

Its last lines are two tables, which it also writes into docs/proving/COSTS.md between the marks
there, where the gate passed. Processor time is read from /proc twice a second: a check of the
prover counts as an edit where it runs in a folder of edits, as tests where it reads tests, and else
as a proof; what is left of the whole run's time (builds, programs, rt itself) is the rest. The
gate's own output goes to standard error.
"""

import datetime
import os
import re
import resource
import subprocess
import sys
import threading
import time
from collections import defaultdict

KINDS = ("proofs", "tests", "edits")
# The seconds of a processor above which a crate has a row of its own.
DEAR = 300
TICK = os.sysconf("SC_CLK_TCK")
TOP = os.path.dirname(os.path.dirname(os.path.abspath(__file__)))
PAGE = f"{TOP}/docs/proving/COSTS.md"
MARKS = "<!-- gate: begin -->\n", "<!-- gate: end -->\n"


def read(path):
    """The bytes of a file of /proc, or none where its process has ended."""
    try:
        with open(path, "rb") as it:
            return it.read()
    except OSError:
        return b""


def check_of(pid):
    """The crate and kind of a check of the prover, and None for any other process."""
    words = read(f"/proc/{pid}/cmdline").decode(errors="replace").split("\0")
    if not words[0].endswith("/rattle") or "--crate-name" not in words:
        return None
    crate = words[words.index("--crate-name") + 1]
    try:
        folder = os.readlink(f"/proc/{pid}/cwd")
    except OSError:
        return None
    if "/rt-edit" in folder:
        return crate, "edits"
    return crate, "tests" if "--test" in words else "proofs"


class Watch:
    """The processor seconds of each check that was seen, by its process."""

    def __init__(self, group):
        self.group, self.of, self.took, self.over = group, {}, {}, False

    def look(self):
        for pid in filter(str.isdigit, os.listdir("/proc")):
            stat = read(f"/proc/{pid}/stat").decode(errors="replace").rpartition(") ")[2].split()
            if len(stat) < 20 or stat[3] != str(self.group):
                continue
            process = pid, stat[19]
            if process not in self.of:
                self.of[process] = check_of(pid)
            if self.of[process]:
                self.took[process] = (int(stat[11]) + int(stat[12])) / TICK

    def run(self):
        while not self.over:
            self.look()
            time.sleep(0.5)

    def sums(self):
        crates = defaultdict(lambda: dict.fromkeys(KINDS, 0.0))
        for process, seconds in self.took.items():
            crate, kind = self.of[process]
            crates[crate][kind] += seconds
        return crates


def table(head, rows):
    lines = [head, ["---"] + ["---:"] * (len(head) - 1), *rows]
    return "".join(f"| {' | '.join(row)} |\n" for row in lines)


def minutes(seconds):
    return f"{seconds / 60:.1f}"


def machine():
    cpus = re.findall(r"cpu MHz\s*: ([0-9.]+)", read("/proc/cpuinfo").decode())
    memory = int(re.search(r"MemTotal:\s*([0-9]+)", read("/proc/meminfo").decode())[1]) / 2**20
    return f"{len(cpus)} processors of {float(cpus[0]) / 1000:.2f} GHz, {memory:.0f} GB"


def page(crates, clock, spent, said):
    sums = {kind: sum(of[kind] for of in crates.values()) for kind in KINDS}
    counts = [r"(\d+) of the (\d+) proofs", r"(\d+) of the (\d+) must-fail edits"]
    kept = any(match and match[1] != match[2] for match in (re.search(it, said) for it in counts))
    named = ["git", "rev-parse", "--short", "HEAD"]
    commit = subprocess.run(named, cwd=TOP, capture_output=True, text=True)
    how = "over what earlier runs kept" if kept else "from nothing"
    rows = [[kind, minutes(sums[kind])] for kind in KINDS]
    rows += [["the rest", minutes(spent - sum(sums.values()))], ["**all**", minutes(spent)]]
    rows += [["**by the clock**", minutes(clock)]]
    dearest = [
        [crate, *(minutes(of[kind]) for kind in KINDS)]
        for crate, of in sorted(crates.items(), key=lambda it: -sum(it[1].values()))
        if sum(of.values()) > DEAR
    ]
    day = datetime.date.today().strftime("%-d %B %Y")
    return (
        f"{machine()}; {day}; commit `{commit.stdout.strip()}`, {how}: `{said.splitlines()[-1]}`.\n\n"
        + table(["Of the gate", "Processor minutes"], rows)
        + f"\nThe same of each crate that takes more than {DEAR // 60}:\n\n"
        + table(["Crate", *KINDS], dearest)
    )


def main():
    began = time.monotonic()
    words = ["rt", "ci", *sys.argv[1:]]
    how = {"stdout": subprocess.PIPE, "stderr": subprocess.STDOUT, "text": True}
    gate = subprocess.Popen(words, cwd=TOP, start_new_session=True, **how)
    watch = Watch(gate.pid)
    looking = threading.Thread(target=watch.run)
    looking.start()
    said = ""
    for line in gate.stdout:
        said += line
        print(line, end="", file=sys.stderr, flush=True)
    status = gate.wait()
    watch.over = True
    looking.join()
    used = resource.getrusage(resource.RUSAGE_CHILDREN)
    text = page(watch.sums(), time.monotonic() - began, used.ru_utime + used.ru_stime, said)
    print(text, end="")
    with open(PAGE, encoding="utf-8") as it:
        old = it.read()
    if not status and all(mark in old for mark in MARKS):
        front, back = old.split(MARKS[0])[0], old.split(MARKS[1])[1]
        with open(PAGE, "w", encoding="utf-8") as it:
            it.write(f"{front}{MARKS[0]}{text}{MARKS[1]}{back}")
    return status


if __name__ == "__main__":
    sys.exit(main())
