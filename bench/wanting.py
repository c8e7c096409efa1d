#!/usr/bin/env python3
"""Runs the queue with each allocation failing in turn, over mail for programs and for peers.

Use: bench/wanting.py [PROGRAM]. An entry of the queue has recipients of a program, of a peer by SMTP
and of one by LMTP. A queue run over it has its first allocation fail, the next run over the same
entry its second, and so on, until a run has none left. Each must end with status 71 or 0. Behind it
each recipient stands once: what was delivered is no row that waits, but where the run ended for want
of memory before its record; and what wasn't is one. Then runs without a fault empty the queue, and
each recipient has the text, once, and twice only where the delivery was made and not recorded. It
prints how the runs ended, and fails at the first that is otherwise. Build the program first, by `make
run`; it wants cc. This is no part of the gate.
"""

import os
import re
import shutil
import subprocess
import sys
import tempfile
from collections import Counter
from contextlib import closing
from pathlib import Path

sys.dont_write_bytecode = True
# In place of this folder, whose queue.py would stand for that of Python.
PLACE = Path(__file__).resolve().parent
sys.path[:1] = [str(PLACE / name) for name in ("served", "peers", "clients")]

from peers import Peer  # noqa: E402
from sites import BUILT, Site, Strange, expect  # noqa: E402

ROW = re.compile(r"^R\w*:<?(?P<user>[^>\n]*)>?\ne(?P<state>\w)", re.MULTILINE)
USERS = ("ann@mx.example", "ann@peer.example", "ann@box.example")


class Ground:
    """A site, its two peers, and the entry that each run begins with."""

    def __init__(self, program, folder, peer, box):
        self.site, self.peers = Site(program, folder, peer.place, box.place), (peer, box)
        self.folder, self.mark = folder, folder / "failed"
        self.shim = folder / "fail.so"
        source = PLACE / "no_memory/fail.c"
        subprocess.run(["cc", "-shared", "-fPIC", "-O1", "-o", self.shim, source], check=True)
        self.fill()

    def fill(self):
        """Hands the message over, which delivers nothing."""
        command = self.site.command("-fbob@c.example") + list(USERS)
        subprocess.run(command, input=b"Subject: hi\n\nhello\n", timeout=120, check=True)
        shutil.copytree(self.folder / "queue", self.folder / "entry")

    def clear(self):
        self.site.clear()
        shutil.copytree(self.folder / "entry", self.folder / "queue", dirs_exist_ok=True)
        self.mark.unlink(missing_ok=True)
        for peer in self.peers:
            peer.kept.clear()

    def run(self, number):
        """The status of a queue run whose allocation of that number fails."""
        more = {"FAIL_AT": str(number), "FAIL_MARK": str(self.mark), "LD_PRELOAD": str(self.shim)}
        command = self.site.command("-q")
        ran = subprocess.run(
            command, env=os.environ | more, capture_output=True, timeout=120, check=False
        )
        self.site.settle()
        return ran.returncode, ran.stderr

    def taken(self):
        """How often each recipient has the text."""
        texts = [kept for peer in self.peers for kept in peer.boxes()] + self.site.boxes()
        return Counter(kept.user for kept in texts)

    def waiting(self):
        """The recipients whose rows wait."""
        texts = [path.read_text("latin-1") for path in (self.folder / "queue").glob("qf*")]
        return {row["user"] for text in texts for row in ROW.finditer(text) if row["state"] == "Q"}


def tried(ground, number):
    """One run and what comes behind it: how it ended, and what came again."""
    ground.clear()
    status, errors = ground.run(number)
    taken, waiting = ground.taken(), ground.waiting()
    if status not in (0, 71):
        raise Strange(f"allocation {number}: status {status}, {errors!r}")
    unrecorded = waiting & set(taken)
    if status == 0 and unrecorded:
        raise Strange(f"allocation {number}: {unrecorded} have it, and wait")
    expect(f"allocation {number}: who has it or waits", set(taken) | waiting, set(USERS))
    ground.site.run_out()
    wanted = Counter(USERS) + Counter(unrecorded)
    expect(f"allocation {number}: who has it in the end", ground.taken(), wanted)
    kind = f"status {status}, {len(taken)} of {len(USERS)} delivered"
    return kind + (f", {len(unrecorded)} of them again later" if unrecorded else "")


def main():
    program = sys.argv[1] if len(sys.argv) > 1 else BUILT
    if not Path(program).exists() or shutil.which("cc") is None:
        print("skipped: no program, which `make run` builds, or no cc")
        return 2
    with tempfile.TemporaryDirectory(dir="/var/lib") as name:
        folder = Path(name)
        with closing(Peer()) as peer, closing(Peer(folder / "box")) as box:
            ground, kinds, number = Ground(program, folder, peer, box), Counter(), 1
            while True:
                kind = tried(ground, number)
                if not ground.mark.exists():
                    break
                kinds[kind] += 1
                number += 1
    print(f"-q: {number - 1} allocations, each failed in turn")
    for kind, count in sorted(kinds.items()):
        print(f"  {count:4} runs: {kind}")
    return 0


sys.exit(main())
