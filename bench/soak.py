#!/usr/bin/env python3
"""Keeps the built program busy for minutes as a mail server, and says what became of each message.

Use: bench/soak.py [--seconds N] [--clients N] [--seed N] [PROGRAM], 60 seconds a part and 50 clients
where no other numbers are given. Clients send all the time, to a program, to peers by SMTP and LMTP,
to a peer that stalls, to one that refuses, to users who aren't there, and to some who are served the
second time only. The parts, over one queue:

`plain`: one process serves all of it. Its descriptors at the end must be those of the beginning, but
for a line to the peer that stalls, which it dials again and again, and its memory must have grown by
at most 3,000 bytes for each entry that came.
`descriptors`: it may have 40 descriptors, so sessions and mailers want more than there are.
`disk`: the queue's disk, a small tmpfs (which wants root), is full for a third of the time.
`end`: no client sends; the queue is run to its end, and what still waits for the peer that stalls is
in the listing with its note, and is then returned.

The server is started anew whenever it ends, as a unit does it; in the first part it must not end, and
never by another status than 75. Then each recipient of each message that was acknowledged must have
been delivered or returned, with the text that was sent, and in parts where no process ended none
twice. It prints numbers, and ends with status 1 where something isn't so. Build the program first, by
`make run`. This is no part of the gate.
"""

import argparse
import os
import random
import shutil
import sys
import tempfile
from pathlib import Path

sys.dont_write_bytecode = True
# In place of this folder, whose queue.py would stand for that of Python.
PLACE = Path(__file__).resolve().parent
sys.path[:1] = [str(PLACE / name) for name in ("soak", "served", "peers", "clients")]

import parts  # noqa: E402
from ground import Ground  # noqa: E402
from sites import BUILT, Strange  # noqa: E402

INSIDE = "SOAK_INSIDE"


def words():
    parser = argparse.ArgumentParser()
    parser.add_argument("--seconds", type=float, default=60)
    parser.add_argument("--clients", type=int, default=50)
    parser.add_argument("--seed", type=int, default=random.randrange(2**32))
    parser.add_argument("program", nargs="?", default=BUILT)
    return parser.parse_args()


def enter():
    """Goes on in a namespace, where a disk of its own can be mounted, and all ends with it."""
    if os.environ.get(INSIDE) or os.geteuid() != 0 or shutil.which("unshare") is None:
        return
    os.environ[INSIDE] = "yes"
    command = ["unshare", "-mpf", "--kill-child", "--mount-proc", sys.executable, *sys.argv]
    os.execvp(command[0], command)


def main():
    said = words()
    if not Path(said.program).exists():
        print("build the program first: make run")
        return 2
    enter()
    print(f"seed {said.seed}", flush=True)
    with tempfile.TemporaryDirectory(ignore_cleanup_errors=True) as folder:
        Path(folder).chmod(0o755)
        ground = Ground(Path(said.program).resolve(), Path(folder), bool(os.environ.get(INSIDE)))
        try:
            parts.play(ground, said.seconds, said.clients, random.Random(said.seed))
        except Strange as why:
            print(f"wrong: {why}")
            if ground.errors.exists() and (text := ground.errors.read_text()):
                print("the server's last words:", *text.splitlines()[-3:])
            return 1
        finally:
            ground.close()
    return 0


sys.exit(main())
