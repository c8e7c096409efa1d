#!/usr/bin/env python3
"""Hands mail over to servers by the program `handover`, and compares results with their logs.

    python3 bench/peers.py [WORD]

First come servers of this script's own, which refuse, defer, close, stall and misspell at each
step, over TCP and by a Unix socket. Each case says what its servers must hear, byte by byte, and
what becomes of each recipient; what the last server's log says of them must be the same. Then come
servers that are installed, or were unpacked (`dpkg -x`) into the folder that the environment
variable UNPACKED names: Postfix's smtp-sink, Python's aiosmtpd, Dovecot's LMTP and Sendmail's own
`-bs`. One that isn't there is skipped. WORD picks the cases whose name has it. The script ends with
status 1 at the first difference. Build the program first, by `cd crates/handover && rt run`. This
is no part of the gate.
"""

import asyncio
import re
import socket
import sys
import tempfile
from pathlib import Path

sys.dont_write_bytecode = True
# In place of this folder, whose queue.py would stand for that of Python.
sys.path[:1] = [str(Path(__file__).resolve().parent / name) for name in ("peers", "clients")]

from cases import ABSENT, REFUSES, all_cases  # noqa: E402
from installed import installed  # noqa: E402
from program import PROGRAM, Strange, hand_over  # noqa: E402
from talks import rows_by  # noqa: E402

MARK = re.compile(rb"^250[ -]8BITMIME\r$", re.MULTILINE | re.IGNORECASE)
BAD = "failed 5.1.3 bad address"


def expect(name, it, wanted):
    if it != wanted:
        raise Strange(f"{name}:\n  it is {it!r}\n  wanted {wanted!r}")


def lines_of(case, server, says):
    """The lines of these verbs, as the case's letter has them."""
    users = iter(user for user in case.letter.users if b"\r" not in user)
    listed = server.script["LHLO" if server.is_lmtp else "EHLO"]
    is_listed = isinstance(listed, bytes) and MARK.search(listed) is not None
    is_eight = case.letter.is_eight and is_listed
    for verb in says.split():
        if verb in ("EHLO", "LHLO", "HELO"):
            yield verb.encode() + b" mx.example\r\n"
        elif verb == "MAIL":
            end = b" BODY=8BITMIME" if is_eight else b""
            yield b"MAIL FROM:<" + case.letter.sender + b">" + end + b"\r\n"
        elif verb == "RCPT":
            yield b"RCPT TO:<" + next(users) + b">\r\n"
        elif verb != ".":
            yield verb.encode() + b"\r\n"


def undotted(raw):
    """A message as it was before its dots were doubled, without the dot that ends it."""
    lines = raw.removesuffix(b".\r\n").split(b"\r\n")
    return b"\r\n".join(line.removeprefix(b".") for line in lines)


def compare(case, servers, ran):
    """Compares what came of a case with what it says, and with the servers' logs."""
    expect("status and errors", (ran.status, ran.errors), (0, b""))
    for server, says in zip(servers, case.says):
        if server is not None:
            expect("what a server heard", server.verbs(), says)
            expect("its lines", server.lines, list(lines_of(case, server, says)))
            taken = [case.letter.taken()] if "." in says else []
            if list(map(undotted, server.messages)) != taken:
                raise Strange("the message isn't the one that was handed over")
    expect("rows", ran.rows, case.rows)
    logs = [server.talk for server in servers if server is not None and server.talk]
    said = iter(rows_by(logs[-1], 3, case.speech == "lmtp") if logs else case.rows)
    rows = [BAD if b"\r" in user else next(said) for user in case.letter.users]
    expect("rows by the log", ran.rows, rows if logs else case.rows)
    if not case.least <= ran.seconds <= case.least + 60:
        raise Strange(f"it took {ran.seconds:.2f} seconds, and not {case.least} or a little more")


async def play(case, folder):
    """Runs a case."""
    places, servers, held = [], [], []
    for number, host in enumerate(case.hosts):
        servers.append(None if host in (REFUSES, ABSENT) else host)
        if host == ABSENT:
            places.append(f"path {folder}/absent")
        elif host == REFUSES:
            held.append(socket.socket())
            held[-1].bind(("127.0.0.1", 0))
            places.append(f"peer 127.0.0.1 {held[-1].getsockname()[1]}")
        else:
            path = folder / f"{number}.socket" if case.speech == "lmtp" else None
            places.append(await host.begin(path))
    ran = await hand_over(case.letter, places, case.speech, case.haste)
    for server in filter(None, servers):
        await server.end()
    for each in held:
        each.close()
    compare(case, servers, ran)
    print(f"{case.name}: {shown(ran.rows)}", flush=True)


def shown(it):
    """Rows, or bytes, in a line."""
    if isinstance(it, bytes):
        return f"{len(it)} bytes"
    return str(it[0] if len(set(it)) == 1 else " | ".join(map(str, it)))[:100]


async def play_all(word, folder):
    """Plays all, and gives how many of either kind they were."""
    counts = [0, 0]
    for case in all_cases():
        if word in case.name:
            try:
                await play(case, folder)
            except Strange as it:
                raise Strange(f"{case.name}: {it}") from None
            counts[0] += 1
    async for name, it, wanted in installed(word, folder):
        expect(name, it, wanted)
        print(f"{name}: {shown(it)}", flush=True)
        counts[1] += 1
    return counts


def main():
    if not PROGRAM.exists():
        print("build the program handover first: cd crates/handover && rt run")
        return 2
    word = sys.argv[1] if len(sys.argv) > 1 else ""
    with tempfile.TemporaryDirectory() as folder:
        try:
            own, others = asyncio.run(play_all(word, Path(folder)))
        except Strange as it:
            print(it)
            return 1
    print(f"{own} cases over own servers, {others} comparisons with others: all is as logs say")
    return 0


sys.exit(main())
