#!/usr/bin/env python3
"""Runs the built program as a mail server, and compares what comes out with what went in.

Use: bench/served.py [--kills N] [--terms N] [--seed N] [--only WORD] [PROGRAM]

One message at a time goes through `-bs`, `-q` and `-bp`: to a program, by SMTP and by LMTP to
servers of this script's own, deferred, warned of, and returned; and `-bd` ends behind its last
session once its children are over. Then `-bd` takes a hundred messages over ten sessions at once,
from Python's smtplib and from swaks, each for a program, for Dovecot's LMTP and for Postfix's
smtp-sink, and some for nobody; where one of these isn't there, a server of this script's own stands
in. They are looked for in the system, and in the folder of unpacked packages (`dpkg -x`) that the
environment variable UNPACKED names. Then `-bd` is ended under load, 200 times by SIGKILL and 50
times by SIGTERM where no other numbers are given, each time at a random moment, and begun again: no
message that was acknowledged may be lost, no text may be changed, and each comes again at most as
often as an attempt of it was under way at such an end. It prints counts, and ends with status 1
where something isn't so. Build the program first, by `make run`. This is no part of the gate.
"""

import argparse
import random
import sys
import tempfile
from collections import Counter
from contextlib import ExitStack
from pathlib import Path

sys.dont_write_bytecode = True
# In place of this folder, whose queue.py would stand for that of Python.
PLACE = Path(__file__).resolve().parent
sys.path[:1] = [str(PLACE / name) for name in ("served", "peers", "clients")]

import kills  # noqa: E402
import sessions  # noqa: E402
import walk  # noqa: E402
from peers import Peer, Sink, dovecot, has_dovecot, has_sink  # noqa: E402
from sites import BUILT, Site, Strange  # noqa: E402


def walk_all(program, folder, _words):
    """One message after the other, over servers of this script's own."""
    peer, box = Peer(), Peer(folder / "box")
    site = Site(program, folder, peer.place, box.place)
    for part in (walk.came_out, walk.warned, walk.stops):
        site.clear()
        part(site)
        print(f"as it must be: {part.__doc__.partition(':')[0].rstrip('.').lower()}", flush=True)
    return Counter(messages=3)


def hand_in_all(program, folder, _words):
    """A hundred messages over the servers that are there."""
    with ExitStack() as ends:
        peer = Sink(folder / "sink") if has_sink() else Peer()
        ends.callback(peer.close)
        box = Peer(folder / "box")
        if has_dovecot():
            box = ends.enter_context(dovecot(folder / "dovecot", sessions.NAMES))
        site = Site(program, folder, peer.place, box.place)
        return sessions.play(site, [peer, box], folder)


def kill_all(program, folder, words):
    """Ends under load, over servers of this script's own."""
    peer, box = Peer(), Peer(folder / "box")
    site = Site(program, folder, peer.place, box.place)
    print(f"seed {words.seed}", flush=True)
    return kills.play(site, [peer, box], words.kills, words.terms, random.Random(words.seed))


PARTS = {"walk": walk_all, "sessions": hand_in_all, "kills": kill_all}


def words():
    parser = argparse.ArgumentParser()
    parser.add_argument("--kills", type=int, default=200)
    parser.add_argument("--terms", type=int, default=50)
    parser.add_argument("--seed", type=int, default=random.randrange(2**32))
    parser.add_argument("--only", default="")
    parser.add_argument("program", nargs="?", default=BUILT)
    return parser.parse_args()


def main():
    said = words()
    if not Path(said.program).exists():
        print("build the program first: make run")
        return 2
    counts = Counter()
    for name, part in PARTS.items():
        if said.only not in name:
            continue
        with tempfile.TemporaryDirectory() as folder:
            Path(folder).chmod(0o755)
            try:
                counts += part(said.program, Path(folder), said)
            except Strange as why:
                print(f"wrong: {why}")
                return 1
    print(", ".join(f"{count} {name}" for name, count in counts.items()), "and nothing is lost")
    return 0


sys.exit(main())
