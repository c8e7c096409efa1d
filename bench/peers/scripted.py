"""A server of SMTP or LMTP that does at each step what its script says, and keeps a log."""

import asyncio

from talks import CLOSED, STALLED

LISTED = (b"PIPELINING", b"8BITMIME")
ANSWERS = {
    "greeting": b"220 far.example ready\r\n",
    "MAIL": b"250 2.1.0 sender ok\r\n",
    "RCPT": b"250 2.1.5 recipient ok\r\n",
    "DATA": b"354 go on\r\n",
    ".": b"250 2.0.0 taken\r\n",
    "QUIT": b"221 2.0.0 bye\r\n",
}
UNKNOWN = b"500 5.5.1 no such command\r\n"
# Lines of a reply that comes for ever.
DRIPS = "drips"
LONGEST_LINE = 1 << 20


class Over(Exception):
    """The server ends the line."""


def hello(listed):
    lines = [b"far.example", *listed]
    marks = [b"-"] * (len(lines) - 1) + [b" "]
    return b"".join(b"250" + mark + line + b"\r\n" for mark, line in zip(marks, lines))


class Scripted:
    """The script has for a verb, or for a verb and how often it came (`RCPT 2`), a reply, or what
    is done in its place, or a pair of both. `pace` is `whole`, `bytes`, where each byte of a reply
    is sent alone, or `joined`, where the replies behind a message are sent at once."""

    def __init__(self, script=(), listed=LISTED, is_lmtp=False, pace="whole"):
        greets = ("LHLO",) if is_lmtp else ("EHLO", "HELO")
        self.script = ANSWERS | {verb: hello(listed) for verb in greets} | dict(script)
        self.is_lmtp, self.pace = is_lmtp, pace
        self.talk, self.lines, self.messages, self.tasks, self.held = [], [], [], [], b""
        self.over = asyncio.Event()

    async def begin(self, path=None):
        """What the program is told of where it listens."""
        limit = {"limit": LONGEST_LINE}
        if path is None:
            self.server = await asyncio.start_server(self.serve, "127.0.0.1", 0, **limit)
            return f"peer 127.0.0.1 {self.server.sockets[0].getsockname()[1]}"
        self.server = await asyncio.start_unix_server(self.serve, str(path), **limit)
        return f"path {path}"

    async def end(self):
        self.over.set()
        self.server.close()
        await asyncio.wait_for(asyncio.gather(*self.tasks), 30)

    def verbs(self):
        """What it heard: verbs of commands, and a `.` for each message."""
        found = []
        for line in self.lines:
            found.append(line[:4].decode("latin-1"))
            if found[-1] == "DATA" and self.messages:
                found.append(".")
        return " ".join(found)

    async def serve(self, reader, writer):
        self.tasks.append(asyncio.current_task())
        try:
            await self.answer(writer, "greeting")
            while True:
                await self.serve_line(reader, writer)
        except asyncio.IncompleteReadError as it:
            self.lines.extend([it.partial] if it.partial else [])
        except (Over, ConnectionError):
            pass
        finally:
            writer.close()

    async def serve_line(self, reader, writer):
        line = await reader.readuntil(b"\r\n")
        self.lines.append(line)
        verb = line[:4].decode("latin-1")
        reply = await self.answer(writer, verb)
        if verb == "DATA" and reply[:3] == b"354":
            await self.take(reader, writer)
        if verb == "QUIT":
            raise Over

    async def take(self, reader, writer):
        """Takes a message, and answers."""
        if self.script.get("text") == STALLED:
            self.talk.append((".", STALLED))
            await self.over.wait()
            raise Over
        raw = bytearray()
        while not (raw == b".\r\n" or raw.endswith(b"\r\n.\r\n")):
            raw += await reader.readuntil(b"\r\n")
        self.messages.append(bytes(raw))
        accepted = sum(verb == "RCPT" and reply[:1] == b"2" for verb, reply in self.talk)
        count = accepted if self.is_lmtp else 1
        for place in range(count):
            await self.answer(writer, ".", self.pace == "joined" and place + 1 < count)

    async def answer(self, writer, verb, is_held=False):
        """Does what the script says, and gives the reply."""
        time = 1 + sum(said == verb for said, _ in self.talk)
        found = self.script.get(f"{verb} {time}", self.script.get(verb, UNKNOWN))
        reply, deed = found if isinstance(found, tuple) else (found, None)
        if isinstance(reply, str):
            reply, deed = b"", reply
        self.talk.append((verb, reply if deed is None else STALLED if deed == DRIPS else deed))
        self.held += reply
        if not is_held:
            await self.send(writer)
        if deed == STALLED:
            await self.over.wait()
        while deed == DRIPS and not self.over.is_set():
            self.held = b"250-more\r\n"
            await self.send(writer)
            await asyncio.sleep(0.05)
        if deed is not None:
            raise Over
        return reply

    async def send(self, writer):
        size = 1 if self.pace == "bytes" else max(1, len(self.held))
        for at in range(0, len(self.held), size):
            writer.write(self.held[at : at + size])
            await writer.drain()
            if self.pace == "bytes":
                await asyncio.sleep(0.0005)
        self.held = b""
