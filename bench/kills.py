#!/usr/bin/env python3
"""Kills the built program while it takes messages into a queue, and opens the queue again.

Use: bench/kills.py [RUNS [SEED [PROGRAM]]], 1,000 runs where the number is left out. Each run serves a
session of several messages over a queue in a real directory. From a random moment behind its first
reply on it is killed (SIGKILL) as soon as files of a commit are seen that isn't done, and a little
later, or at its end. Then a run with QUIT alone opens the queue. After it each message
that was acknowledged since the queue was new must be there with its body, each control file must end
with its line of a dot and have its body beside it, and nothing else may be there. It prints a summary,
and ends with status 1 at the first run after which that isn't so. Build the program first, by `make
run`. This is no part of the gate.
"""

import os
import random
import re
import select
import shutil
import subprocess
import sys
import tempfile
import time
from pathlib import Path

MESSAGES = 6
RUNS_A_QUEUE = 25
CALIBRATIONS = 5
REPLY = re.compile(rb"^250 2\.0\.0 w(\d{12}) Message accepted", re.MULTILINE)
SUBJECT = re.compile(rb"^HSubject: (.*)$", re.MULTILINE)


class Message:
    """A message whose subject says which body it has."""

    def __init__(self, name, chance):
        self.name = name.encode()
        lines = chance.choice([1, 3, 40, 400])
        self.body = b"".join(b"line %d of %s\r\n" % (line, self.name) for line in range(lines))

    def asked(self):
        head = b"MAIL FROM:<bob@c.example>\r\nRCPT TO:<ann@mx.example>\r\nDATA\r\n"
        return head + b"Subject: " + self.name + b"\r\n\r\n" + self.body + b".\r\n"


class Lost(Exception):
    """What a queue must not be."""


class Session:
    """A run of the program over a queue, with what it has written so far."""

    def __init__(self, command):
        pipe = subprocess.PIPE
        self.process = subprocess.Popen(command, stdin=pipe, stdout=pipe, stderr=pipe, bufsize=0)
        self.ends = self.process.stdin.fileno(), self.process.stdout.fileno()
        self.written = b""

    def is_ready(self):
        """Waits for its first reply."""
        return bool(select.select(self.ends[1:], [], [], 60)[0])

    def feed(self, text, is_time):
        """Writes and reads until it is time, or until the program has written all, and gives what
        wasn't written."""
        os.set_blocking(self.ends[0], False)
        while not is_time():
            wanted = self.ends[:1] if text else []
            readable, writable, _ = select.select(self.ends[1:], wanted, [], 0.0002)
            if writable:
                text = text[os.write(self.ends[0], text[:65536]) :]
            if readable and not self.read():
                break
        return text

    def read(self):
        more = os.read(self.ends[1], 65536)
        self.written += more
        return more

    def close(self, kills):
        """The status, after the rest is read."""
        if kills:
            self.process.kill()
        self.process.stdin.close()
        while self.read():
            pass
        self.process.stdout.close()
        self.process.stderr.close()
        return self.process.wait()


class Queue:
    """A queue, and the messages that it must hold since it was new."""

    def __init__(self, program, folder):
        self.path = folder / "queue"
        shutil.rmtree(self.path, ignore_errors=True)
        self.path.mkdir()
        config = folder / "queue.cf"
        config.write_text(f"O QueueDirectory={self.path}\nMlocal, P=/nonexistent/mail, A=mail -d $u\nS0\nR$*\t$#local $: $1\n")
        self.command = [program, "-bs", f"-C{config}"]
        self.told = {}
        self.bodies = {}

    def serve(self, messages, delay, further=None):
        """Gives a run these messages. So long after its first reply it waits for a commit that is
        under way, and kills the run so much further on, if it is to."""
        self.bodies.update((message.name, message.body) for message in messages)
        session = Session(self.command)
        text = b"HELO c.example\r\n" + b"".join(map(Message.asked, messages)) + b"QUIT\r\n"
        if not session.is_ready():
            raise Lost("a run says nothing for a minute")
        begun = time.monotonic()
        rest = session.feed(text, lambda: time.monotonic() >= begun + delay)
        if further is not None:
            session.feed(rest, lambda: is_half(self.names()))
            time.sleep(further)
        status = session.close(further is not None)
        ids = REPLY.findall(session.written)
        self.told.update(zip(ids, messages))
        if len(ids) != len(set(ids)):
            raise Lost("an id was given twice")
        return status, len(ids), time.monotonic() - begun

    def names(self):
        return {path.name for path in self.path.iterdir()}

    def open(self):
        """Opens the queue by a run that takes no message."""
        ran = subprocess.run(self.command, input=b"QUIT\r\n", capture_output=True, timeout=120, check=False)
        if ran.returncode != 0:
            raise Lost(f"opening ends with status {ran.returncode}: {ran.stderr.decode()}")

    def check(self):
        """Each acknowledged message is there, and whatever is there is whole."""
        names = self.names()
        controls = {name[2:] for name in names if name.startswith("qf")}
        if names != {kind + entry for kind in ("qf", "df") for entry in controls}:
            raise Lost(f"files that are no entry's: {sorted(names)}")
        for entry in controls:
            self.check_entry(entry)
        for number, message in self.told.items():
            entry = "w" + number.decode()
            if entry not in controls or self.subject(entry) != message.name:
                raise Lost(f"the acknowledged message {entry} isn't there")

    def subject(self, entry):
        return SUBJECT.search((self.path / f"qf{entry}").read_bytes())[1]

    def check_entry(self, entry):
        control = (self.path / f"qf{entry}").read_bytes()
        if not control.startswith(b"V1\n") or not control.endswith(b"\n.\n"):
            raise Lost(f"qf{entry} is half a control text")
        if (self.path / f"df{entry}").read_bytes() != self.bodies[self.subject(entry)]:
            raise Lost(f"df{entry} isn't the body of its message")


class Tally:
    """What came of the runs so far."""

    def __init__(self):
        self.runs = self.killed = self.midway = self.told = 0

    def add(self, status, told, was_half):
        self.runs += 1
        self.killed += status == -9
        self.midway += was_half
        self.told += told

    def show(self):
        print(f"{self.runs} runs, {self.killed} killed before their end, {self.midway} in mid-commit")
        print(f"{self.told} messages acknowledged, none lost, no half file")


def messages_of(run, chance):
    return [Message(f"{run}-{place}", chance) for place in range(MESSAGES)]


def is_half(names):
    """Whether a commit was under way: a draft, or a body without its control file."""
    bodies = {name[1:] for name in names if name.startswith("df")}
    return any(name.startswith("tf") for name in names) or any("q" + body not in names for body in bodies)


def usual_time(program, folder, chance):
    """How long a run goes on behind its first reply."""
    times = []
    for run in range(CALIBRATIONS):
        queue = Queue(program, folder)
        status, told, taken = queue.serve(messages_of(f"calibration{run}", chance), 60)
        queue.open()
        queue.check()
        if (status, told) != (0, MESSAGES):
            raise Lost(f"a run that isn't killed ends with status {status} and {told} messages")
        times.append(taken)
    return sorted(times)[len(times) // 2]


def kill_all(program, folder, runs, chance):
    tally = Tally()
    usual = usual_time(program, folder, chance)
    for run in range(runs):
        if run % RUNS_A_QUEUE == 0:
            queue = Queue(program, folder)
        delay, further = chance.uniform(0, usual), chance.choice([0, 0, chance.uniform(0, 0.002)])
        status, told, _taken = queue.serve(messages_of(run, chance), delay, further)
        was_half = is_half(queue.names())
        queue.open()
        queue.check()
        tally.add(status, told, was_half)
    return tally


def main():
    words = sys.argv[1:]
    runs = int(words[0]) if words else 1000
    seed = int(words[1]) if len(words) > 1 else random.randrange(2**32)
    built = Path(__file__).resolve().parent.parent / "crates/sendmail/out/sendmail"
    program = words[2] if len(words) > 2 else str(built)
    print(f"seed {seed}")
    with tempfile.TemporaryDirectory() as folder:
        try:
            kill_all(program, Path(folder), runs, random.Random(seed)).show()
        except Lost as why:
            print(f"wrong: {why}")
            return 1
    return 0


sys.exit(main())
