"""The program `handed`, which prints what a mailer is handed of a message."""

import subprocess
from pathlib import Path

from theirs import Handed, Strange

BUILT = Path(__file__).resolve().parent.parent.parent / "crates/handed/out/handed"


class Ours:
    """The program, as a command."""

    def __init__(self, command):
        self.command = command or [str(BUILT)]

    def hand(self, config, message, identity, created, moment):
        """What the program of a message's mailer gets, under an id and at these moments."""
        order = [
            b"config " + bytes(config),
            b"protocol ESMTP",
            b"helo c.example",
            b"client 127.0.0.1",
            b"id " + identity,
            b"sender " + message.sender,
            *(b"recipient " + recipient for recipient in message.recipients),
            b"created %d" % created,
            b"moment %d" % moment,
            b"text",
        ]
        asked = b"\n".join(order) + b"\n" + message.text
        ran = subprocess.run(self.command, input=asked, capture_output=True, check=False)
        head, found, text = ran.stdout.partition(b"\ntext\n")
        if ran.returncode != 0 or not found:
            raise Strange(f"{message.name}: {ran.stdout + ran.stderr!r}")
        return Handed([line.removeprefix(b"argument ") for line in head.split(b"\n")[1:]], text)
