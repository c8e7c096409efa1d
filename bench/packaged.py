#!/usr/bin/env python3
"""Installs the built program as a site would, and tries what was installed.

Use: bench/packaged.py [--only WORD] [PROGRAM]

`install` puts it below a folder and takes it away again. `pages` shows each manual page without a
warning. `checks` asks sendmail-check about configurations with each kind of fault. `units` has
systemd-analyze verify each unit. `server`, `parts`, `sockets` and `inetd` run the very commands of
the units and of the line for inetd, at port 25 with /etc, /var/mail and /var/spool of their own (by
`unshare`, which wants root): clients send while the server is stopped and started again, and what
was acknowledged must be in the boxes. `package` has dpkg-buildpackage make the Debian package,
which is installed, tried, removed and purged over the files of this system, of which none is
changed (by an overlay). `minutes` types docs/TEN_MINUTES.md there, from the installation on.
`clone`, which is played by that very word alone, types all of it, with the clone of this checkout's
last commit and its `make run`: hours, or some minutes where the gate proved that on this machine.
What isn't there is skipped, and named. The script ends with status 1 at the first thing that isn't
so. Build the program first, by `make run`. This is no part of the gate.
"""

import argparse
import os
import sys
import tempfile
from pathlib import Path

sys.dont_write_bytecode = True
# In place of this folder, whose queue.py would stand for that of Python.
PLACE = Path(__file__).resolve().parent
sys.path[:1] = [str(PLACE / name) for name in ("packaged", "served")]

import checks  # noqa: E402
import installing  # noqa: E402
import minutes  # noqa: E402
import package  # noqa: E402
import running  # noqa: E402
from sites import BUILT, Strange  # noqa: E402

PARTS = {
    "install": installing.comes_and_goes,
    "pages": installing.pages,
    "checks": checks.play,
    "units": installing.units,
    "server": running.server,
    "parts": running.parts,
    "sockets": running.sockets,
    "inetd": running.by_inetd,
    "package": package.play,
    "minutes": minutes.play,
    "clone": minutes.whole,
}
# What is played where it is named alone.
ASKED = {"clone"}


def words():
    parser = argparse.ArgumentParser()
    parser.add_argument("--only", default="")
    parser.add_argument("program", nargs="?", default=BUILT)
    return parser.parse_args()


def main():
    said = words()
    program = Path(said.program).resolve()
    if not program.exists() and said.only not in ASKED:
        print("build the program first: make run")
        return 2
    for name, part in PARTS.items():
        if said.only not in name or name in ASKED and said.only != name:
            continue
        with tempfile.TemporaryDirectory() as folder:
            os.chmod(folder, 0o755)
            try:
                print(f"{name}: {part(program, Path(folder))}", flush=True)
            except Strange as why:
                print(f"{name}, wrong: {why}")
                return 1
    return 0


sys.exit(main())
