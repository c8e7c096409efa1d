#!/usr/bin/env python3
"""Measures a queue run over one entry of many recipients.

Use: bench/rows.py [--runs N] [--rows N,..] [--hosts N,..] [--deferred N,..] [PROGRAM]

`-q` runs over a queue of one message, whose files this script writes. First all its recipients go to
one host, in one batch: a mailer is started once, and there is one record. Then each goes to a host
of its own, so that there are as many starts of `/bin/true`, and as many records, each of which writes
the whole control text. Then each is deferred by its ruleset, so that there are as many records and
nothing is started; its control text is longer, by a note a row. For each number of recipients it
prints milliseconds of the processor, the least of five runs, without those of the program's
children and of a run over an empty queue; how many times those of the first number they are; what
they are for each row, record, or start and record; the bytes that a run writes; and nanoseconds
for each of these. It ends with status 1 where a recipient isn't sent to or deferred. Build the
program first, by `make run`. The queue is in the folder of temporary files. This is no part of the
gate.
"""

import argparse
import os
import shutil
import subprocess
import sys
import tempfile
import time
from dataclasses import dataclass
from pathlib import Path

BUILT = Path(__file__).resolve().parent.parent / "crates/sendmail/out/sendmail"
ID = "w000000000001"
# Seconds that the runs of one number may take before the next number is left out.
MOST = 600

CONFIG = r"""Dwmx
Djmx.example
O QueueDirectory=@DIR@/queue
O OperatorChars=.:%@!^/[]+
Mone, P=@DIR@/takes, F=mDFMn, r=10000, A=takes $u
Meach, P=/bin/true, F=mDFMn, r=10000, A=true $u
Scanonify=3
R$* < $+ > $*	$2
R$+ @ $+	$: $1 < @ $2 >
Sparse=0
R$+ < @ one.example >	$#one $@ one.example $: $1
R$+ < @ $- . each.example >	$#each $@ $2 . each.example $: $1
R$*	$#error $@ 4.0.0 $: 450 later
Sfinal=4
R$+ < @ $+ >	$1 @ $2
"""
TAKES = "#!/bin/sh\nexec cat > /dev/null\n"
TEXT = """V1
v1
gmqueue
T{}
K0
N0
P{}
c0
S<bob@c.example>
$rSMTP
$sc.example
${{client_addr}}127.0.0.1
{}HSubject: hi
.
"""


class Wrong(Exception):
    """A run that doesn't do what it must."""


@dataclass(frozen=True)
class Kind:
    """Recipients: what they are told as, the host of each, and the state that they come to."""

    told: str
    host: str
    state: str
    unit: str


ONE = Kind("one host", "one.example", "eS\n", "row")
EACH = Kind("a host each", "h{:05}.each.example", "eS\n", "start and record")
LATER = Kind("a host each, deferred", "h{:05}.later.example", "eQ later\n", "record")


@dataclass(frozen=True)
class Taken:
    """Nanoseconds of the processor, bytes written, and seconds by the clock."""

    processor: int
    written: int
    clock: float


class Queue:
    """A folder with a configuration and a queue."""

    def __init__(self, program, folder):
        self.folder, self.queue = folder, folder / "queue"
        self.command = [str(program), "-q", f"-C{folder}/rows.cf"]
        (folder / "rows.cf").write_text(CONFIG.replace("@DIR@", str(folder)))
        (folder / "takes").write_text(TAKES)
        (folder / "takes").chmod(0o755)

    def fill(self, kind, rows):
        """A new queue, with a message for so many recipients, or none."""
        shutil.rmtree(self.queue, ignore_errors=True)
        self.queue.mkdir(mode=0o700)
        if not rows:
            return
        users = (f"u{place:05}@{kind.host.format(place)}" for place in range(rows))
        text = "".join(f"RPFD:<{user}>\neQ\n" for user in users)
        self.write("df", "hello\r\n")
        self.write("qf", TEXT.format(int(time.time()), 30_000 * rows + 22, text))

    def write(self, kind, text):
        path = self.queue / f"{kind}{ID}"
        path.write_bytes(text.encode())
        path.chmod(0o600)

    def run(self):
        """What a queue run takes, by what the system tells of a process that has ended and that
        nobody has waited for yet."""
        begun = time.monotonic()
        process = subprocess.Popen(self.command, stdin=subprocess.DEVNULL)
        os.waitid(os.P_PID, process.pid, os.WEXITED | os.WNOWAIT)
        clock = time.monotonic() - begun
        place = Path(f"/proc/{process.pid}")
        processor = int((place / "schedstat").read_text().split()[0])
        said = dict(line.split(": ") for line in (place / "io").read_text().splitlines())
        if process.wait() != 0:
            raise Wrong(f"status {process.returncode}")
        return Taken(processor, int(said["wchar"]), clock)

    def check(self, kind, rows):
        """Each recipient came to its state."""
        found = [path.read_text() for path in self.queue.glob(f"[qs]f{ID}")]
        if len(found) != 1 or found[0].count(kind.state) != rows:
            raise Wrong(f"{rows} recipients, {kind.told}: not all came to {kind.state!r}")


def best(queue, kind, rows, runs):
    """The least of so many runs."""
    taken = []
    for _ in range(runs):
        queue.fill(kind, rows)
        taken.append(queue.run())
        if rows:
            queue.check(kind, rows)
    return min(taken, key=lambda it: it.processor), sum(it.clock for it in taken)


def measure(queue, kind, numbers, runs, empty):
    print(f"{kind.told}:")
    first = None
    for rows in numbers:
        taken, clock = best(queue, kind, rows, runs)
        processor = taken.processor - empty
        first = first or processor
        print(
            f"  {rows:6,} rows: {processor / 1e6:,.1f} ms, {processor / first:.1f} times the first;"
            f" {processor / rows / 1000:,.1f} us a {kind.unit};"
            f" {taken.written / 1e6:,.1f} MB written, {processor / taken.written:,.2f} ns a byte;"
            f" {taken.clock:,.1f} s by the clock",
            flush=True,
        )
        if clock > MOST:
            break


def numbers(text):
    return [int(word) for word in text.split(",") if word]


def words():
    parser = argparse.ArgumentParser()
    parser.add_argument("--runs", type=int, default=5)
    parser.add_argument("--rows", type=numbers, default=[1000, 2000, 5000, 10_000])
    parser.add_argument("--hosts", type=numbers, default=[300, 1000, 2000])
    parser.add_argument("--deferred", type=numbers, default=[300, 1000, 2000, 10_000])
    parser.add_argument("program", nargs="?", default=BUILT)
    return parser.parse_args()


def main():
    said = words()
    if not Path(said.program).exists():
        print("build the program first: make run")
        return 2
    with tempfile.TemporaryDirectory() as folder:
        queue = Queue(Path(said.program).resolve(), Path(folder))
        try:
            empty = best(queue, ONE, 0, said.runs)[0].processor
            print(f"an empty queue: {empty / 1e6:.1f} ms")
            measure(queue, ONE, said.rows, said.runs, empty)
            measure(queue, EACH, said.hosts, said.runs, empty)
            measure(queue, LATER, said.deferred, said.runs, empty)
        except Wrong as why:
            print(f"wrong: {why}")
            return 1
    return 0


sys.exit(main())
