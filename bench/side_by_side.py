#!/usr/bin/env python3
"""Measures receipt by `-bs` here and by Sendmail's own program, in turns in one run.

Use: bench/side_by_side.py [--rounds N] [--messages N] THEIRS [COMMAND], where THEIRS runs
Sendmail's own program and COMMAND ours, by default the built one. A session takes messages of 1,014
and of 101,400 bytes, each command after the reply to the one before it. Of each program it prints
messages a second by the clock, in the slowest and the fastest round; milliseconds of processor a
message with the program's start, the least round; its greatest memory behind the last message, and
what of its memory no other process shares then, which is what one session more would take; and its
syncs to the disk a message, by strace, where that is there. The queue is below the home folder.
It ends with status 1 where a message isn't taken, or where ours syncs more than four times a
message. This is no part of the gate.
"""

import argparse
import os
import re
import shutil
import subprocess
import sys
import tempfile
import time
from pathlib import Path

sys.dont_write_bytecode = True
sys.path.insert(0, str(Path(__file__).resolve().parent / "clients"))

from server import BUILT, Server  # noqa: E402

SIZES = (13, 1300)
LINE = b"%076d\r\n" % 0
MOST_SYNCS = 4
SYNCS = "fsync,fdatasync,sync,syncfs,sync_file_range,msync"


class Wrong(Exception):
    """A reply that isn't the wanted one."""


class Session:
    """A session that waits for each reply."""

    def __init__(self, command):
        pipe = subprocess.PIPE
        self.process = subprocess.Popen(command, stdin=pipe, stdout=pipe)
        self.expect(b"220")

    def expect(self, code):
        line = self.process.stdout.readline()
        while line[3:4] == b"-":
            line = self.process.stdout.readline()
        if line[:3] != code:
            raise Wrong(f"{line!r}, and not {code.decode()}")

    def ask(self, text, code=b"250"):
        self.process.stdin.write(text)
        self.process.stdin.flush()
        self.expect(code)

    def hand_over(self, data):
        self.ask(b"MAIL FROM:<bob@c.example>\r\n")
        self.ask(b"RCPT TO:<ann@mx.example>\r\n")
        self.ask(b"DATA\r\n", b"354")
        self.ask(data + b".\r\n")

    def memory(self):
        """In KiB the greatest memory so far, and what is its own alone now, of the program that a
        wrapper may have begun."""
        number = self.process.pid
        while children := Path(f"/proc/{number}/task/{number}/children").read_text().split():
            number = children[0]
        status = Path(f"/proc/{number}/status").read_text()
        parts = Path(f"/proc/{number}/smaps_rollup").read_text()
        own = sum(int(part) for part in re.findall(r"Private_\w+:\s*(\d+)", parts))
        return int(re.search(r"VmHWM:\s*(\d+)", status)[1]), own

    def close(self):
        """The processor's seconds."""
        self.ask(b"QUIT\r\n", b"221")
        self.process.stdin.close()
        _, status, used = os.wait4(self.process.pid, 0)
        self.process.returncode = os.waitstatus_to_exitcode(status)
        self.process.stdout.close()
        if status != 0:
            raise Wrong(f"status {self.process.returncode}")
        return used.ru_utime + used.ru_stime


def serve(server, data, messages, front=()):
    """One session: its seconds by the clock for its messages, of the processor, its memory."""
    server.clear()
    session = Session([*front, *server.command])
    session.ask(b"HELO c.example\r\n")
    begun = time.monotonic()
    for _ in range(messages):
        session.hand_over(data)
    taken = time.monotonic() - begun
    memory, own = session.memory()
    used = session.close()
    there = len(server.entries())
    if there != messages:
        raise Wrong(f"{there} entries for {messages} messages")
    return taken, used, memory, own


def syncs(server, data, messages):
    """Syncs a message, or None without strace."""
    if shutil.which("strace") is None:
        return None
    calls = server.folder / "calls"
    traced = ["strace", "-f", "-o", str(calls), "-e", f"trace={SYNCS}"]
    serve(server, data, messages, traced)
    return len(re.findall(r"^\d+ +\w*sync\w*\(", calls.read_text(), re.MULTILINE)) / messages


def measured(servers, lines, rounds, messages):
    """The rows of one size, a program each, which are measured in turns."""
    data = b"Subject: hi\r\n\r\n" + LINE * lines
    runs = {name: [] for name in servers}
    for _ in range(rounds):
        for name, server in servers.items():
            runs[name].append(serve(server, data, messages))
    for name, server in servers.items():
        taken, used, memory, own = map(min, zip(*runs[name]))
        slowest = max(run[0] for run in runs[name])
        rates = f"{messages / slowest:.0f} to {messages / taken:.0f}"
        counted = syncs(server, data, messages)
        yield name, len(LINE) * lines, rates, used / messages, memory, own, counted


def parsed():
    parser = argparse.ArgumentParser(description=__doc__.splitlines()[0])
    parser.add_argument("--rounds", type=int, default=5)
    parser.add_argument("--messages", type=int, default=100)
    parser.add_argument("theirs")
    parser.add_argument("command", nargs="?", default=str(BUILT))
    return parser.parse_args()


def main():
    words = parsed()
    for command in (words.theirs, words.command):
        if shutil.which(command.split()[0]) is None:
            print(f"skipped: no program {command.split()[0]}")
            return 0
    is_good = True
    with tempfile.TemporaryDirectory(dir=Path.home()) as folder:
        Path(folder).chmod(0o755)
        servers = {}
        for name, command in (("ours", words.command), ("theirs", words.theirs)):
            (Path(folder) / name).mkdir()
            servers[name] = Server(command, name == "theirs", Path(folder) / name)
        for lines in SIZES:
            for row in measured(servers, lines, words.rounds, words.messages):
                name, size, rates, used, memory, own, counted = row
                told = "not counted" if counted is None else f"{counted:.2f}"
                print(f"{name}: {size} bytes: {rates} messages a second, {used * 1000:.2f} ms of")
                print(f"    processor a message, {memory} KiB at most, {own} its own,")
                print(f"    {told} syncs a message")
                is_good &= name != "ours" or counted is None or counted <= MOST_SYNCS
    return 0 if is_good else 1


sys.exit(main())
