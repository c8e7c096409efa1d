#!/usr/bin/env python3
"""Measures the built program beside Sendmail's own and Postfix, as servers, in turns in one run.

Use: UNPACKED=FOLDER bench/speed.py [--messages N] [--rounds N] [--queue N,N] [--entries N,N]
[--slow MS] [--place DIR] [--only WORD] [--write] [PROGRAM], as root. FOLDER has Debian's packages
of both peers, of Dovecot and of what they stand on, as bench/speed/unpack.sh puts them there; what
isn't there is skipped. The parts are receipt, slow, four, delivery, memory, start, turn and mode.
Each server is run by its own daemon, over a queue of its own in a new folder of DIR (the root),
with all of its syncs; none writes a log. Nothing is removed before the end: ext4 makes files slowly
where it lost many of late, and where it is mounted with `discard` a removal and a renaming wait for
the disk. Mail comes from Postfix's smtp-source. While receipt is measured none delivers: here the
one runner is held by a program that doesn't end, Sendmail has DeliveryMode=queue, and Postfix has
no queue manager. A queue is then delivered by a queue run (of Postfix, from the master's start)
with 20 runners at most, to a program that does nothing, to smtp-sink, and to Dovecot by LMTP. A
start is one until the port is listened at, over a queue of which no entry is due, and a turn a
queue run over such a one. In `slow` each sync takes MS (4) longer, by a library that all load first
(it wants cc); in `four` mail goes to four of the program at once, each with a queue of its own
(docs/MANY.md), as it does to one of the peers. In `mode` 20,000 lines of address test mode are
answered over a file that m4 makes. The last column is how many times better the program does than
the better of its peers. With `--write` the table stands between its marks in docs/BENCHMARKS.md.
This is no part of the gate.
"""

import argparse
import os
import shutil
import subprocess
import sys
import tempfile
import time
from contextlib import ExitStack, contextmanager
from pathlib import Path

sys.dont_write_bytecode = True
# In place of this folder, whose queue.py would stand for that of Python.
PLACE = Path(__file__).resolve().parent
sys.path[:1] = [str(PLACE / name) for name in ("speed", "served", "peers", "clients")]

import rows  # noqa: E402
from installed import is_there  # noqa: E402
from peers import Sink, dovecot, has_dovecot, has_sink  # noqa: E402
from servers import Four, Postfix, Server, installed  # noqa: E402
from sites import BUILT, Strange  # noqa: E402

PAGE = PLACE.parent / "docs/BENCHMARKS.md"
MARKS = "<!-- speed.py -->\n", "<!-- /speed.py -->\n"
SESSIONS = (1, 10, 50)
SIZES = (1000, 100_000)
OPEN = 64
LARGE = 16_000_000
LINES = 20_000


class Table:
    """A row for each thing that was measured."""

    def __init__(self, names):
        self.names, self.rows = names, []

    def add(self, what, unit, values, is_more_better):
        """Values by server, the best of those that were seen. One that isn't there is None."""
        peers = [values[name] for name in self.names[1:] if values.get(name) is not None]
        own, told = values.get(self.names[0]), "-"
        if own and peers:
            best = max(peers) if is_more_better else min(peers)
            told = f"{own / best if is_more_better else best / own:.2f}"
        cells = [shown(values.get(name)) for name in self.names]
        self.rows.append(f"| {what} | {unit} | {' | '.join(cells)} | {told} |")
        print(self.rows[-1], flush=True)

    def text(self, head):
        names = " | ".join(name.capitalize() for name in self.names)
        top = f"| What | Unit | {names} | Better by |\n|{'---|' * (len(self.names) + 3)}\n"
        return head + "\n" + top + "\n".join(self.rows) + "\n"


def shown(value):
    if value is None:
        return "-"
    return f"{value:,.0f}" if value >= 100 else f"{value:.3g}"


def taken(servers, rounds, measures, is_more_better):
    """The best of some rounds of each server, in turns. What fails is told, and left out."""
    found = {}
    for _ in range(rounds):
        for server in servers:
            try:
                value = measures(server)
                found.setdefault(server.name, []).append(value)
            except Strange as why:
                print(f"left out: {why}", flush=True)
    best = max if is_more_better else min
    return {name: best(values) for name, values in found.items()}


def receipts(table, servers, words, sizes=SIZES, besides="", least=1):
    for size in sizes:
        for sessions in (it for it in SESSIONS if it >= least):
            for is_kept in (False, True):
                how = "kept connections" if is_kept else "a connection a message"
                values = taken(
                    servers,
                    words.rounds,
                    lambda it: rows.receipt(it, words, sessions, size, is_kept),
                    True,
                )
                what = f"receipt, {size // 1000} kB, {sessions} sessions, {how}{besides}"
                table.add(what, "messages a second", values, True)


@contextmanager
def slowed(words, folder):
    """While it lasts, each sync of each server takes longer. Gives what the rows say of it."""
    Server.slow, Server.slow_sync = folder / "slow.so", folder / "sync"
    build = ["cc", "-O1", f"-DMICROS={int(words.slow * 1000)}L", "-o"]
    subprocess.run(
        [*build, Server.slow, "-shared", "-fPIC", PLACE / "speed/slow.c"], check=True
    )
    subprocess.run([*build, Server.slow_sync, PLACE / "speed/slow_sync.c"], check=True)
    try:
        yield f", each sync {words.slow:g} ms longer"
    finally:
        Server.slow = Server.slow_sync = None


def slow_receipts(table, servers, words):
    if shutil.which("cc") is None:
        print("skipped: no cc")
        return
    with slowed(words, servers[0].folder) as besides:
        receipts(table, servers, words, SIZES[:1], besides)


def four(table, servers, words):
    """In the column of the program stand four of it."""
    own = servers[0]
    both = [Four(own.program, own.folder / "four", own.box, own.peer), *servers[1:]]
    receipts(table, both, words, SIZES[:1], ", four daemons here", 4)
    if shutil.which("cc") is not None:
        with slowed(words, own.folder) as besides:
            receipts(table, both, words, SIZES[:1], f", four daemons here{besides}", 4)


def deliveries(table, servers, words):
    to = {"a program": "ann@mx.example"}
    to |= {"smtp-sink": "ann@peer.example"} if has_sink() else {}
    to |= {"Dovecot by LMTP": "ann@box.example"} if has_dovecot() else {}
    for entries in map(int, words.queue.split(",")):
        for name, user in to.items():
            rounds = words.rounds if entries <= 1000 else 1
            values = taken(servers, rounds, lambda it: rows.delivery(it, entries, user), False)
            table.add(f"a queue of {entries:,} to {name}", "seconds", values, False)


def memories(table, servers, _words):
    found = {server.name: rows.memories(server, OPEN) for server in servers}
    for at, what in enumerate(("memory without work", f"memory with {OPEN} sessions")):
        values = {name: both[at] for name, both in found.items()}
        table.add(what, "KiB", values, False)
    values = taken(servers, 1, lambda it: rows.body(it, LARGE), False)
    table.add(f"memory with a body of {LARGE // 1_000_000} MB under way", "KiB", values, False)


def starts(table, servers, words):
    """Postfix's queue files have names by their inodes, so it isn't given a large queue."""
    able = [server for server in servers if not isinstance(server, Postfix)]
    values_of = ("start", "seconds"), ("memory", "KiB"), ("processor without mail", "ms a second")
    for entries in map(int, words.entries.split(",")):
        found = {server.name: rows.large(server, entries) for server in able}
        for at, (what, unit) in enumerate(values_of):
            values = {name: all_of[at] for name, all_of in found.items()}
            table.add(f"{what}, {entries:,} entries that wait", unit, values, False)


def turns(table, servers, words):
    able = [server for server in servers if not isinstance(server, Postfix)]
    for entries in map(int, words.entries.split(",")):
        values = taken(able, 1, lambda it: rows.turn_over(it, entries), False)
        table.add(f"queue run, {entries:,} entries that wait", "seconds", values, False)


def modes(table, servers, words):
    """Postfix has no such mode."""
    able = [server for server in servers if not isinstance(server, Postfix)]
    if not is_there("usr/bin/m4") or not is_there("usr/share/sendmail/cf/m4/cf.m4"):
        return
    config = rows.configuration(servers[0].folder)
    found = {}
    for _ in range(words.rounds):
        for server in able:
            both = rows.answers(server, config, LINES)
            found.setdefault(server.name, []).append(both)
    values_of = (f"`-bt`, {LINES:,} lines over m4's file", "seconds"), ("`-bt`, its memory", "KiB")
    for at, (what, unit) in enumerate(values_of):
        values = {name: min(both[at] for both in each) for name, each in found.items()}
        table.add(what, unit, values, False)


PARTS = {
    "receipt": receipts,
    "slow": slow_receipts,
    "four": four,
    "delivery": deliveries,
    "memory": memories,
    "start": starts,
    "turn": turns,
    "mode": modes,
}


def head_of(folder, words):
    """What the table is of."""
    made, file, name, replaced, removed = rows.probe(folder)
    cpu = next(line for line in open("/proc/cpuinfo", encoding="ascii") if "model name" in line)
    load = os.getloadavg()[0]
    return (
        f"Taken on {time.strftime('%d %B %Y', time.gmtime())}, on {os.cpu_count()} processors "
        f"({cpu.partition(': ')[2].strip()}) with a load of {load:.1f}.\nIn the middle the making of "
        f"a file took {made:.2f} ms, its sync with 1 kB {file:.2f}, one of a directory {name:.2f},\n"
        f"a renaming over a file {replaced:.2f}, a removal {removed:.2f}.\n"
        f"The best of {words.rounds} rounds, {words.messages} messages a round.\n"
    )


def write(text):
    """Puts the table between its marks."""
    page = PAGE.read_text()
    if MARKS[0] not in page:
        page += f"\n## As servers: `bench/speed.py`\n\n{MARKS[0]}{MARKS[1]}"
    front, _, rest = page.partition(MARKS[0])
    PAGE.write_text(front + MARKS[0] + text + MARKS[1] + rest.partition(MARKS[1])[2])


def parsed():
    parser = argparse.ArgumentParser(description=__doc__.splitlines()[0])
    parser.add_argument("--messages", type=int, default=2000)
    parser.add_argument("--rounds", type=int, default=3)
    parser.add_argument("--queue", default="500,10000")
    parser.add_argument("--slow", type=float, default=4)
    parser.add_argument("--place", default="/")
    parser.add_argument("--entries", default="10,10000,100000")
    parser.add_argument("--only", default="")
    parser.add_argument("--write", action="store_true")
    parser.add_argument("program", nargs="?", default=BUILT)
    return parser.parse_args()


def measured(words, folder, ends):
    """Runs all, and gives the table's text."""
    sink, box = 1, folder / "none"
    if has_sink():
        it = Sink(folder / "sink")
        ends.callback(it.close)
        sink = it.place
    if has_dovecot():
        box = ends.enter_context(dovecot(folder / "dovecot", ("ann",))).place
    servers = list(installed(words.program, folder, box, sink))
    table = Table([server.name for server in servers])
    head = head_of(folder, words)
    print(head, flush=True)
    for name, part in PARTS.items():
        if words.only in name:
            part(table, servers, words)
    return table.text(head)


def main():
    words = parsed()
    if not Path(words.program).exists() or not is_there(rows.SOURCE):
        print("skipped: no smtp-source, or no program, which `make run` builds")
        return 2
    with tempfile.TemporaryDirectory(dir=words.place) as folder, ExitStack() as ends:
        Path(folder).chmod(0o755)
        text = measured(words, Path(folder), ends)
    print(text)
    if words.write:
        write(text)
    return 0


sys.exit(main())
