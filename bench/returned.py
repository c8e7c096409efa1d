#!/usr/bin/env python3
"""Looks at returned mail and warnings from outside, as the program `letters` prints them.

    python3 bench/returned.py

Python's `email` must read each message without a defect, and find in it the headers, rows, headers
of the entry and body that were asked for. Then a bounce of a body of 16 MB is made: it may take at
most 34 MB more memory than one of an empty body, of which the body itself is 16. Build the program
first, by `cd crates/letters && rt run`. This is no part of the gate.
"""

import email
import email.policy
import os
import subprocess
import sys

TOP = os.path.dirname(os.path.dirname(os.path.abspath(__file__)))
PROGRAM = f"{TOP}/crates/letters/out/letters"
LINES = 16 * 1024 * 1024 // 80
MOST = 34 * 1024 * 1024


def letter(line):
    return subprocess.run([PROGRAM], input=line.encode(), capture_output=True, check=True).stdout


def peak(line):
    """The greatest memory of a run, in bytes. (A child of Python's begins with Python's own.)"""
    timed = ["/usr/bin/time", "-f", "%M", PROGRAM]
    with open(os.devnull, "w", encoding="utf-8") as lost:
        ran = subprocess.run(
            timed, input=line.encode(), stdout=lost, stderr=subprocess.PIPE, check=True
        )
    return int(ran.stderr) * 1024


def read_as_asked(kind, rows, lines):
    text = letter(f"{kind} {rows} {lines}\n")
    message = email.message_from_bytes(text, policy=email.policy.default)
    defects = list(message.defects) + [it for _, value in message.items() for it in value.defects]
    assert not defects, (kind, defects)
    assert all(line.endswith(b"\r\n") for line in text.splitlines(True)), kind
    assert [name for name, _ in message.items()] == [
        "Date", "From", "To", "Subject", "Auto-Submitted"
    ], message.keys()
    assert message["Auto-Submitted"] == "auto-generated"
    assert message["From"].addresses[0].username == "MAILER-DAEMON"
    receiver = "postmaster@mx.example" if kind == "double" else "<bob@c.example>"
    assert f"To: {receiver}".encode() in text.splitlines(), kind
    assert message["Date"].datetime.isoformat() == "2026-01-02T00:00:00+00:00"
    body = message.get_payload(decode=True).replace(b"\r\n", b"\n").decode()
    warned = kind == "warning"
    assert body.count("<cid@mx.example>\n    (reason: 5.1.1 550 user unknown)") == (
        0 if warned else rows
    ), body
    assert body.count("<dan@mx.example>\n    (reason: exit 75)") == (1 if warned else 0), body
    heads = "   ----- Original headers -----" if warned else "   ----- Original message -----"
    told, _, original = body.partition(heads + "\n\n")
    assert original.startswith("Subject: hi\nTo: a,\n b\nFrom: Bob <bob@c.example>\n"), original
    entry = email.message_from_string(original, policy=email.policy.default)
    assert not entry.defects and entry["Subject"] == "hi"
    kept = original.count("a line of a body")
    assert kept == (0 if warned else lines), (kind, kept)


def main():
    if not os.path.exists(PROGRAM):
        print("build the program letters first: cd crates/letters && rt run")
        return 2
    for kind in ("bounce", "double", "warning"):
        for rows in (1, 3, 100):
            for lines in (0, 1, 1000):
                read_as_asked(kind, rows, lines)
    print("27 messages are read without a defect, and have what was asked for")
    for kind in ("bounce", "double"):
        more = peak(f"{kind} 1 {LINES}\n") - peak(f"{kind} 1 0\n")
        print(f"{kind}: a body of {LINES * 80} bytes takes {more / 2**20:.1f} MB more")
        if more > MOST:
            print(f"more than {MOST / 2**20:.0f} MB")
            return 1
    return 0


if __name__ == "__main__":
    sys.exit(main())
