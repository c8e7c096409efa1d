#!/usr/bin/env python3
"""Real SMTP clients hand their mail to `sendmail -bs`; each case says what must come of it.

Use: bench/clients.py [--theirs] [--clients FOLDER] [--only WORD] [--transcripts FILE] [COMMAND],
where COMMAND runs the program, by default the built one. With `--theirs` it is Sendmail's own.
FOLDER is where packages of clients were unpacked (`dpkg -x`); what isn't there is looked for in the
system, and a client that isn't there either is skipped. A relay listens on 127.0.0.1 and runs the
program for each connection. Of each case are compared: the commands and the codes of their replies;
of the built program each reply's text and each control text; what the client says of it; and each
entry's sender, recipients, group and marks, and its body byte by byte. WORD picks the cases whose
client or name has it. It ends with status 1 where a case isn't as it must be. This is no part of
the gate.
"""

import argparse
import re
import shutil
import sys
import tempfile
from dataclasses import replace
from pathlib import Path

HERE = Path(__file__).resolve().parent
sys.dont_write_bytecode = True
sys.path.insert(0, str(HERE / "clients"))

from callers import Place, environment, programs  # noqa: E402
from cases import all_cases  # noqa: E402
from queued import Strange  # noqa: E402
from relay import Relay  # noqa: E402
from server import BUILT, Server  # noqa: E402

OWN = (".", "greeting", "gone")
CLIENTS = ("swaks", "msmtp", "curl", "smtplib", "git send-email", "smtp-source")
STATES = {"greeting": "(connected)", "gone": "(gone in mid-data)"}
HOST = "mx.example"
UNKNOWN = ("ETRN", "STAR", "AUTH", "TURN", "BDAT", "WHAT")
TEXTS = {
    "greeting 220": f"220 {HOST} ESMTP ready",
    "HELO 250": f"250 {HOST} Hello",
    "EHLO 250": f"250-{HOST} Hello\r\n250-PIPELINING\r\n250-SIZE 16777216\r\n250 8BITMIME",
    "MAIL 250": "250 2.1.0 Sender ok",
    "MAIL 501": "501 5.(?:5.2 Syntax error in path|1.3 Path too long)",
    "MAIL 503": "503 5.5.1 Sender already given",
    "MAIL 552": "552 5.3.4 Message too large",
    "MAIL 553": "553 5.1.3 Bad address",
    "MAIL 555": "555 5.5.4 Parameter not known",
    "RCPT 250": "250 2.1.5 Recipient ok",
    "RCPT 501": "501 5.(?:5.2 Syntax error in path|1.3 Path too long)",
    "RCPT 503": "503 5.5.1 Need MAIL first",
    "RCPT 550": "550 5.1.1 No such user",
    "RCPT 553": "553 5.1.3 User address required",
    "RCPT 555": "555 5.5.4 Parameter not known",
    "HELO 501": "501 5.5.4 Argument needed",
    "EHLO 501": "501 5.5.4 Argument needed",
    "DATA 354": '354 Enter mail, end with "." on a line by itself',
    "DATA 501": "501 5.5.4 No argument allowed",
    "DATA 503": "503 5.5.1 Need RCPT first",
    ". 250": r"250 2\.0\.0 w\d{12} Message accepted for delivery",
    ". 552": "552 5.3.4 Message too large",
    "RSET 250": "250 2.0.0 Reset state",
    "RSET 501": "501 5.5.4 No argument allowed",
    "NOOP 250": "250 2.0.0 OK",
    "VRFY 252": "252 2.5.2 Cannot verify",
    "VRFY 501": "501 5.5.4 Argument needed",
    "EXPN 502": "502 5.7.0 Not available",
    "HELP 214": "214 2.0.0 See RFC 5321",
    **{f"{word} 500": "500 5.5.1 Command unrecognized" for word in UNKNOWN},
    "QUIT 221": f"221 2.0.0 {HOST} closing connection",
}
RECEIVED = r"from \S* by mx\.example with {} id {}; \w{{3}}, \d+ \w{{3}} \d{{4}} [\d:]{{8}} \+0000"


def verb(command):
    return command if command in OWN else command[:4].upper()


def codes(session):
    """The commands of a session with the codes of their replies, the greeting first."""
    return [f"{verb(asked)} {reply[:3].decode() or 'none'}" for asked, reply in session.exchanges()]


def spelled(said):
    """What must be said, as `codes` gives it, of each session."""
    sessions = []
    for session in said.split(" / "):
        steps = ["greeting 220"]
        for step in session.split(", "):
            name, _, count = step.partition("*")
            steps += [name] * int(count or 1)
        sessions.append(steps)
    return sessions


def first_other(wanted, found):
    """Where two lists differ first, in words."""
    for place, (one, other) in enumerate(zip(wanted, found)):
        if one != other:
            return f"at {place} {one!r} is wanted, and is {other!r}"
    return f"{len(wanted)} are wanted, and {len(found)} are there"


def wrong_talk(case, server, sessions):
    ways = [[]] if case.is_direct else [spelled(way) for way in case.said.split(" | ")]
    found = [] if case.is_direct else [codes(session) for session in sessions]
    wanted = found if found in ways else ways[0]
    if len(wanted) != len(found):
        yield f"{len(found)} sessions, and not {len(wanted)}"
    for one, other in zip(wanted, found):
        if one != other:
            yield "talk: " + first_other(one, other)
    sent = [said for session in sessions for said in session.turns()]
    for pattern in case.sent:
        if not any(re.search(pattern, said) for said in sent):
            yield f"the client didn't send {pattern.decode()}"
    for session in sessions:
        if session.status != 0 and not server.is_theirs:
            yield f"the program ended with status {session.status}: {session.errors.decode()}"
        if session.replies()[1]:
            yield f"no reply: {session.replies()[1][:100]!r}"


def wrong_texts(sessions):
    """Replies of the built program that haven't their text."""
    for session in sessions:
        for asked, reply in session.exchanges():
            wanted = TEXTS.get(f"{verb(asked)} {reply[:3].decode()}", "none")
            if reply and not re.fullmatch(wanted + "\r\n", reply.decode("latin-1")):
                yield f"text of {asked[:40]!r}: {reply!r}"


def facts(it):
    paths = [name if name.startswith("<") else f"<{name}>" for name in [it.sender, *it.recipients]]
    marks = [f"8BITMIME {it.is_eight}", f"protocol {it.protocol}", f"group {it.group}"]
    return [*paths, *marks, f"client {it.client}"]


def wrong_entry(wanted, entry, place, is_theirs):
    asked, found = facts(wanted), facts(entry)
    if asked != found:
        yield f"{entry.id}: {first_other(asked, found)}"
    body = wanted.body(place) if callable(wanted.body) else wanted.body
    if body != entry.body:
        yield f"{entry.id}: body of {len(entry.body)} bytes for {len(body)}: {entry.body[-60:]!r}"
    if wanted.subject is not None and entry.header("Subject") != wanted.subject:
        yield f"{entry.id}: subject {entry.header('Subject')!r}"
    received = RECEIVED.format(entry.protocol, r"w\d{12}")
    if not is_theirs and not re.fullmatch(received, entry.header("Received") or ""):
        yield f"{entry.id}: Received is {entry.header('Received')!r}"


def wrong_queue(case, server, place, sessions):
    try:
        found = server.entries()
    except Strange as why:
        yield str(why)
        return
    if len(found) != len(case.stored):
        yield f"{len(found)} entries, and not {len(case.stored)}"
        return
    for wanted, entry in zip(case.stored, found):
        yield from wrong_entry(wanted, entry, place, server.is_theirs)
    told = [reply for it in sessions for asked, reply in it.exchanges() if asked == "."]
    ids = {entry.id for entry in found}
    for reply in told:
        if reply[:3] == b"250" and reply.split()[2].decode() not in ids:
            yield f"no entry for {reply!r}"


def run(case, server, found, settings):
    """What is wrong of a case, and its sessions."""
    case = replace(case, **case.theirs) if server.is_theirs else case
    server.clear()
    relay = Relay(server.command, case.is_direct)
    place = Place(relay.port, server.folder, found, settings)
    try:
        gives = case.call(place)
    except Exception as why:  # what a client's library raises is what came of the case
        gives = repr(why)
    relay.close()
    sessions = relay.sessions
    wrong = [] if gives == case.gives else [f"the client says {gives!r}, and not {case.gives!r}"]
    wrong += wrong_talk(case, server, sessions)
    if not server.is_theirs:
        wrong += wrong_texts(sessions)
    return wrong + list(wrong_queue(case, server, place, sessions)), sessions


def shown(text):
    return text if len(text) <= 100 else f"{text[:70]} .. ({len(text)} characters)"


def transcript(case, sessions, server):
    """What was said, repeated lines once, and the files of the queue."""
    yield f"== {case.client}: {case.name}"
    for session in sessions:
        before, count = None, 0
        for asked, reply in session.exchanges():
            line = STATES.get(asked, f"C: {shown(asked)}")
            told = [f"S: {part}" for part in reply.decode("latin-1").splitlines()]
            now = (line[:7], told[0][:6] if told else "")
            count = count + 1 if now == before else 0
            before = now
            if count < 3:
                yield from [line, *told]
        sizes = f"{len(session.sent())} bytes sent, {len(session.got())} got"
        yield f"(status {session.status}, {sizes})"
    for path in sorted((server.folder / "queue").rglob("[dq]f*"))[:6]:
        yield f"-- {path.name}, {path.stat().st_size} bytes"
        lines = path.read_bytes().decode("latin-1").splitlines()
        yield from (shown(repr(line)[1:-1]) for line in lines[:30])


def parsed():
    parser = argparse.ArgumentParser(description=__doc__.splitlines()[0])
    parser.add_argument("command", nargs="?", default=str(BUILT))
    parser.add_argument("--theirs", action="store_true")
    parser.add_argument("--clients", type=Path)
    parser.add_argument("--only", default="")
    parser.add_argument("--transcripts", type=argparse.FileType("w"))
    return parser.parse_args()


def summary(rows):
    """A line for each client."""
    print(f"{'client':16}{'cases':>7}{'right':>7}")
    for client in CLIENTS:
        own = [is_right for name, is_right in rows if name == client]
        told = f"{len(own):7}{sum(own):7}" if own else "   not tried"
        print(f"{client:16}{told}")
    right = sum(is_right for _, is_right in rows)
    print(f"{right} of {len(rows)} cases are as they must be")
    return right == len(rows)


def main():
    words = parsed()
    if shutil.which(words.command.split()[0]) is None:
        print(f"skipped: no program {words.command.split()[0]}")
        return 0
    rows = []
    with tempfile.TemporaryDirectory(dir=Path.home()) as folder:
        Path(folder).chmod(0o755)
        server = Server(words.command, words.theirs, Path(folder))
        found, settings = programs(words.clients), environment(words.clients, folder)
        for client in CLIENTS:
            if client != "smtplib" and client not in found:
                print(f"skipped: no {client}")
        for case in all_cases():
            is_there = case.client == "smtplib" or case.client in found
            if not is_there or words.only not in f"{case.client}: {case.name}":
                continue
            wrong, sessions = run(case, server, found, settings)
            rows.append((case.client, not wrong))
            print(f"{'wrong' if wrong else 'right'}: {case.client}: {case.name}")
            print("".join(f"    {why}\n" for why in wrong[:4]), end="", flush=True)
            if words.transcripts:
                print(*transcript(case, sessions, server), sep="\n", file=words.transcripts)
    return 0 if summary(rows) else 1


sys.exit(main())
