#!/usr/bin/env python3
"""Plays the devices in memory with each allocation failing in turn.

Use: bench/in_memory.py [TESTS]. The tables of crates/tests_edge play a spawner, a dialer and a
floor, and hold what each did against one that lacks no memory and whose calls are listed to fail: a
call that finds no memory answers failure, is counted as a fault, is told as the contract says, and
later calls go on. This runs each table with its first allocation failing, then with its second, and
so on, until none is left. A run must pass, where the memory was the device's, or end with NoMemory,
where it was the test's own, which shows nothing. It prints how many there were of each, and ends
with status 1 where a run ends otherwise, or no memory was the device's. Build the tests first, by
`rt test` in crates/tests_edge; it wants cc. This is no part of the gate.
"""

import os
import shutil
import subprocess
import sys
import tempfile
from pathlib import Path

TOP = Path(__file__).resolve().parents[1]
BUILT = TOP / "crates/tests_edge/out/tests_edge_tests"
TABLES = {
    "spawner": "spawners::children_live_as_their_lives_and_the_list_say",
    "dialer": "dialers::peers_say_their_pieces_and_the_list_decides",
    "floor": "floors::a_script_is_played_as_its_steps_and_lists_say",
}


class Strange(Exception):
    """A run that ended as none may."""


class Table:
    """A test of the program, and the shim under it."""

    def __init__(self, program, name, folder):
        self.command = [program, name]
        self.shim, self.mark = folder / "fail.so", folder / "failed"

    def passes(self, number):
        """Whether the run passes whose allocation of that number fails: else it lacked its own."""
        self.mark.unlink(missing_ok=True)
        more = {"FAIL_AT": str(number), "FAIL_MARK": str(self.mark), "LD_PRELOAD": str(self.shim)}
        ran = subprocess.run(
            self.command, env=os.environ | more, capture_output=True, timeout=60, check=False
        )
        if ran.returncode == 0 and b"test result: ok" in ran.stdout:
            return True
        if ran.returncode == 101 and b"error: NoMemory\n" in ran.stderr:
            return False
        said = (ran.stdout + ran.stderr).decode(errors="replace").strip()
        raise Strange(f"allocation {number}: status {ran.returncode}, {said}")

    def play(self):
        """How many allocations there are, and how many of them are the device's."""
        number, devices = 1, 0
        while True:
            passed = self.passes(number)
            if not self.mark.exists():
                break
            number, devices = number + 1, devices + passed
        if not passed or not devices:
            raise Strange(f"{devices} of {number - 1} allocations were the device's")
        return number - 1, devices


def is_shown(device, table):
    """Plays a table, and says how that went."""
    try:
        number, devices = table.play()
    except (Strange, subprocess.TimeoutExpired) as strange:
        print(f"{device}: {strange}")
        return False
    print(f"{device}: {number} allocations, each failed in turn, {devices} of the device")
    return True


def main():
    program = Path(sys.argv[1] if len(sys.argv) > 1 else BUILT).resolve()
    if not program.exists() or shutil.which("cc") is None:
        print("skipped: no tests, which `rt test` builds, or no cc")
        return 2
    with tempfile.TemporaryDirectory() as name:
        folder = Path(name)
        source = TOP / "bench/no_memory/fail.c"
        shim = folder / "fail.so"
        subprocess.run(["cc", "-shared", "-fPIC", "-O1", "-o", shim, source], check=True)
        shown = [is_shown(device, Table(program, test, folder)) for device, test in TABLES.items()]
    return 0 if all(shown) else 1


sys.exit(main())
