"""The program `handover`, and a letter that it hands over."""

import asyncio
import os
import time
from dataclasses import dataclass
from pathlib import Path

PROGRAM = Path(__file__).resolve().parent.parent.parent / "crates/handover/out/handover"
HASTE = "SENDMAIL_HASTE"
# Seconds after which a run is ended. Sendmail's own greets after a minute where the name of the
# machine has no dot.
MOST = 120


class Strange(Exception):
    """What isn't as it must be."""


@dataclass
class Letter:
    sender: bytes = b"bob@c.example"
    users: tuple = (b"ann@d.example", b"cid@d.example", b"dan@d.example")
    message: bytes = b"Subject: hi\r\n\r\nhello\r\n"
    is_eight: bool = False

    def order(self, places, speech):
        """What the program is asked, for those who listen there."""
        lines = [f"speech {speech}".encode(), *(place.encode() for place in places)]
        lines += [b"host mx.example", b"sender " + self.sender]
        lines += [b"user " + user for user in self.users]
        lines += [b"eight " + (b"yes" if self.is_eight else b"no"), b"text"]
        return b"\n".join(lines) + b"\n" + self.message

    def taken(self):
        """The message as a server has it: its last line has an end."""
        is_ended = not self.message or self.message.endswith(b"\r\n")
        return self.message if is_ended else self.message + b"\r\n"


@dataclass
class Ran:
    rows: list
    status: int
    errors: bytes
    seconds: float


async def hand_over(letter, places, speech="smtp", haste=None):
    """Runs the program."""
    env = {name: value for name, value in os.environ.items() if name != HASTE}
    if haste is not None:
        env[HASTE] = str(haste)
    pipe, begun = asyncio.subprocess.PIPE, time.monotonic()
    run = await asyncio.create_subprocess_exec(
        PROGRAM, stdin=pipe, stdout=pipe, stderr=pipe, env=env
    )
    try:
        asked = letter.order(places, speech)
        told, errors = await asyncio.wait_for(run.communicate(asked), MOST)
    except asyncio.TimeoutError:
        run.kill()
        raise Strange(f"it didn't end within {MOST} seconds") from None
    rows = told.decode("latin-1").split("\n")[:-1]
    return Ran(rows, run.returncode, errors, time.monotonic() - begun)
