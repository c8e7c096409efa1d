#!/usr/bin/env python3
"""Shows that nothing leaves the program before what it promises is on the disk.

Use: bench/syncs.py [--messages N] [--sessions N] [--keep FILE] [PROGRAM], or bench/syncs.py
--record FILE, or bench/syncs.py --self-test. It runs the program by `-bd` under `strace -f`, over a
queue of two directories below the home folder, while N messages (10,000) come over N sessions at
once (50), for a program, for a peer by SMTP and one by LMTP, some in several parts, some for
nobody; it waits until the queue is empty, and reads what strace wrote down (or a record that was
kept). Then this must be so of each entry, whose files are df (the body), tf (a control text that
has no name yet), qf and sf (a control text, of an entry that waits or is finished), all in one
directory of the queue:

1. A file is *synced* where an fsync or fdatasync of it came back with 0 behind its last write, and
   a name where an fsync of its directory did so behind its renaming; both also where a child that
   runs `sync` came back with 0 from a syncfs that began behind that. A sync that failed, or that
   hasn't come back, is none.
2. Before tf is renamed to qf, tf is synced, and df, if it was written.
3. An entry *stands* where its df is synced, its tf was renamed to qf, and its name is synced.
4. Before a final 250 (`250 2.0.0 ID`) is sent to a session, the entry ID stands.
5. Before a child is started (vfork, clone3), but for `sync`, or a peer is dialled (connect),
   the entry whose body was read last stands, with the control text that it has now: so whatever
   was recorded of it before can't be forgotten and tried again.
6. Where a control text names a parent and its revision (a part of a message, a bounce, a warning),
   its entry stands before the parent's text of that revision is renamed, which decides for all.
7. Before df is removed, qf was renamed to sf, and the name of the last control text is synced.
8. Where a name changed in a directory, that is synced before anything changes in another one.

What comes behind 1 to 7 is tidying, which the next opening would do again: neither the renaming to
sf nor the removal of df has to be synced for itself; 8 keeps them in order. An entry that was there
before the record began stands. A sync that covers several changes is counted for the last of them.
The script prints how many syncs each step took and its calls that touch the disk, in order, and
ends with status 1 where a rule is broken. `--self-test` tries it over a record by hand, from which
lines are taken out. Build the program first, by `make run`. It wants strace. This is no part of the
gate.
"""

import argparse
import os
import shutil
import subprocess
import sys
import tempfile
import threading
import time
from collections import Counter
from pathlib import Path

sys.dont_write_bytecode = True
# In place of this folder, whose queue.py would stand for that of Python.
PLACE = Path(__file__).resolve().parent
sys.path[:1] = [str(PLACE / name) for name in ("syncs", "served", "peers", "clients")]

import peers  # noqa: E402
from rules import Watch  # noqa: E402
from samples import wrong_samples  # noqa: E402
from sites import BUILT, Site, Strange, is_heard, wait_for  # noqa: E402

CALLS = (
    "open,openat,creat,write,writev,pwrite64,fsync,fdatasync,syncfs,rename,renameat,renameat2,"
    "unlink,unlinkat,accept,accept4,connect,sendto,sendmsg,vfork,fork,clone,clone3,execve,execveat"
)
BOB = "bob@mx.example"
# Whom the messages are for, in turn: four recipients go into one entry, more into several.
USERS = (
    ["ann@mx.example"],
    ["ann@mx.example", "dan@peer.example"],
    ["fay@box.example"],
    [f"{name}@mx.example" for name in ("ann", "cid", "dan", "eve", "fay", "guy")],
    ["dan@peer.example"],
    ["ann@mx.example", "gone@peer.example"],
)
SIZES = (40, 40, 3000, 40, 100_000)
MOST_SHOWN = 20


class Client(threading.Thread):
    """A session that hands over so many messages."""

    def __init__(self, site, numbers):
        super().__init__(daemon=True)
        self.site, self.numbers, self.why = site, numbers, None

    def run(self):
        try:
            with self.site.session() as session:
                session.ehlo()
                for number in self.numbers:
                    body = "x" * 70 + "\r\n"
                    body *= SIZES[number % len(SIZES)] // 72 + 1
                    text = f"Subject: message {number}\r\n\r\n{body}"
                    session.sendmail(BOB, USERS[number % len(USERS)], text)
        except Exception as why:  # Told by the thread that waits.
            self.why = why


def load(site, words):
    """Hands over all messages at once, and waits for an empty queue."""
    numbers = range(words.messages)
    clients = [Client(site, numbers[own :: words.sessions]) for own in range(words.sessions)]
    begun = time.monotonic()
    for client in clients:
        client.start()
    for client in clients:
        client.join()
        if client.why:
            raise Strange(f"a session broke: {client.why!r}")
    print(f"{words.messages} messages came in {time.monotonic() - begun:.0f} seconds", flush=True)
    until = time.monotonic() + words.seconds
    while waiting(site) and time.monotonic() < until:
        time.sleep(1)
    left = waiting(site)
    print(f"{left} entries are left after {time.monotonic() - begun:.0f} seconds", flush=True)


def waiting(site):
    """How many entries wait."""
    queues = (site.folder / "queue", site.folder / "boxes")
    return sum(name.startswith("qf") for queue in queues for name in os.listdir(queue))


def configured(folder):
    """A mailer that takes no time, and a queue group with a directory of its own for boxes."""
    config = folder / "served.cf"
    group = f"Qboxes, P={folder}/boxes, R=4, I=1s\nMbox, P=[IPC], Q=boxes, "
    text = config.read_text().replace(f"P={folder}/keeper", "P=/bin/true")
    config.write_text(text.replace("Mbox, P=[IPC], ", group))
    (folder / "boxes").mkdir()


def traced(words, folder, record):
    """Runs the program under load, and strace over it."""
    peers.SLOWEST = 0
    peer, box = peers.Peer(), peers.Peer(folder / "box")
    site = Site(words.program, folder, peer.place, box.place)
    configured(folder)
    command = ["strace", "-f", "--seccomp-bpf", "-y", "-s", "512", "-o", record, "-e"]
    command += [f"trace={CALLS}", *site.command("-bd"), "-q5s"]
    run = subprocess.Popen(command, stdin=subprocess.DEVNULL)
    try:
        wait_for("a port that is listened at", lambda: is_heard(site.port))
        load(site, words)
    finally:
        inner = Path(f"/proc/{run.pid}/task/{run.pid}/children").read_text().split()
        for number in inner:
            os.kill(int(number), 15)
        run.wait()


def tell(watch):
    """What was seen. Gives the status."""
    steps = Counter()
    for (step, _), count in watch.trails.items():
        steps[step] += count
    for step, total in steps.items():
        kinds = Counter()
        for (other, trail), count in watch.trails.items():
            if other == step:
                for call in trail:
                    if call.startswith(("fsync", "fdatasync", "syncfs")):
                        kinds[call] += count
        told = ", ".join(f"{kind} {count / total:.2f}" for kind, count in sorted(kinds.items()))
        print(f"{step}: {total} times, {kinds.total() / total:.2f} syncs each: {told}")
        found = [(count, trail) for (other, trail), count in watch.trails.items() if other == step]
        for count, trail in sorted(found, reverse=True)[:3]:
            print(f"    {count} times: {', '.join(trail)}")
    print(", ".join(f"{count} {name}" for name, count in watch.counts.items()))
    for text in watch.wrong[:MOST_SHOWN]:
        print(f"wrong: {text}")
    print(f"{len(watch.wrong)} things left too early")
    return 1 if watch.wrong or not watch.counts["final 250s"] else 0


def self_test():
    wrong = list(wrong_samples())
    print(*wrong, sep="\n", end="\n" if wrong else "")
    print("each sample is judged as it must be" if not wrong else f"{len(wrong)} samples are wrong")
    return 1 if wrong else 0


def parsed():
    parser = argparse.ArgumentParser(description=__doc__.splitlines()[0])
    parser.add_argument("--messages", type=int, default=10_000)
    parser.add_argument("--sessions", type=int, default=50)
    parser.add_argument("--seconds", type=int, default=3600, help="how long the queue may take")
    parser.add_argument("--keep", help="where strace's record is kept")
    parser.add_argument("--record", help="a record that was kept, which is judged alone")
    parser.add_argument("--self-test", action="store_true")
    parser.add_argument("program", nargs="?", default=BUILT)
    return parser.parse_args()


def main():
    words = parsed()
    if words.self_test:
        return self_test()
    if words.record:
        with open(words.record, encoding="latin-1") as lines:
            return tell(Watch().go_through(lines))
    if not Path(words.program).exists() or shutil.which("strace") is None:
        print("skipped: no strace, or no program, which `make run` builds")
        return 2
    with tempfile.TemporaryDirectory(dir=Path.home()) as folder:
        Path(folder).chmod(0o755)
        record = words.keep or f"{folder}/record"
        try:
            traced(words, Path(folder), record)
        except Strange as why:
            print(f"wrong: {why}")
            return 1
        with open(record, encoding="latin-1") as lines:
            return tell(Watch().go_through(lines))


sys.exit(main())
