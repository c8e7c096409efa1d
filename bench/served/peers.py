"""Servers to which the program delivers: own ones, Postfix's smtp-sink and Dovecot's LMTP."""

import random
import re
import socket
import subprocess
import threading
import time
from contextlib import contextmanager

from installed import DOVECOT, begun, is_there, within
from sites import Kept, free_port, is_heard, wait_for

# The longest time in seconds that an own server takes for the end of a message.
SLOWEST = 0.05
USER = re.compile(rb"TO:<([^>]*)>")


class Peer:
    """A server of SMTP at a port, or of LMTP at a path. It refuses the user `gone`, and one whose
    name begins with `later` the first time. What it accepts it keeps, before it says so."""

    def __init__(self, path=None):
        self.is_lmtp = path is not None
        self.listener = socket.socket(socket.AF_UNIX if path else socket.AF_INET)
        self.listener.bind(str(path) if path else ("127.0.0.1", 0))
        self.listener.listen(64)
        self.place = path or self.listener.getsockname()[1]
        self.kept, self.seen, self.lines = [], set(), 0
        threading.Thread(target=self.accept, daemon=True).start()

    def accept(self):
        while True:
            try:
                line, _ = self.listener.accept()
            except OSError:
                return
            self.lines += 1
            threading.Thread(target=self.serve, args=[line], daemon=True).start()

    def close(self):
        self.listener.shutdown(socket.SHUT_RDWR)
        self.listener.close()

    def settle(self):
        """Waits until no line is open."""
        wait_for("the peers' end", lambda: self.lines == 0)

    def boxes(self):
        return list(self.kept)

    def serve(self, line):
        try:
            with line, line.makefile("rb") as said:
                line.sendall(b"220 peer.example ready\r\n")
                users = []
                while asked := said.readline():
                    users = self.answer(line, said, asked, users)
        except OSError:
            pass
        finally:
            self.lines -= 1

    def answer(self, line, said, asked, users):
        """Answers a command, and gives the users that are accepted so far."""
        verb = asked[:4].upper()
        if verb in (b"EHLO", b"LHLO"):
            line.sendall(b"250-peer.example\r\n250 8BITMIME\r\n")
        elif verb == b"RCPT":
            user = USER.search(asked)[1].decode()
            reply = self.reply_to(user)
            line.sendall(reply)
            return [*users, user] if reply.startswith(b"2") else users
        elif verb == b"DATA":
            line.sendall(b"354 go on\r\n")
            self.take(line, said, users)
            return []
        else:
            line.sendall(b"221 bye\r\n" if verb == b"QUIT" else b"250 ok\r\n")
        return users

    def reply_to(self, user):
        if user.startswith("gone@"):
            return b"550 5.1.1 no such user\r\n"
        if user.startswith("later") and user not in self.seen:
            self.seen.add(user)
            return b"450 4.2.1 later\r\n"
        return b"250 ok\r\n"

    def take(self, line, said, users):
        """Takes a text that comes whole."""
        text = b""
        while (more := said.readline()) != b".\r\n":
            if not more:
                return
            text += more.removeprefix(b".")
        text = text.replace(b"\r\n", b"\n").decode("latin-1")
        self.kept += [Kept(user, text) for user in users]
        time.sleep(random.uniform(0, SLOWEST))
        line.sendall(b"250 taken\r\n" * (len(users) if self.is_lmtp else 1))


class Sink:
    """Postfix's smtp-sink, which writes all that it takes into a file."""

    def __init__(self, folder):
        folder.mkdir()
        folder.chmod(0o777)
        self.place, self.dump = free_port(), folder / "dump"
        words = ["/usr/sbin/smtp-sink", "-u", "nobody", "-D", str(self.dump)]
        self.run = subprocess.Popen(within([*words, f"127.0.0.1:{self.place}", "64"]))
        wait_for("smtp-sink", lambda: is_heard(self.place))

    def close(self):
        self.run.terminate()
        self.run.wait()

    def boxes(self):
        """In the file stand, above each message, lines with what was said of it."""
        if not self.dump.exists():
            return
        for text in self.dump.read_text("latin-1").split("X-Client-Addr:")[1:]:
            for user in re.findall(r"^X-Rcpt-Args: <([^>]*)>", text, re.MULTILINE):
                yield Kept(user, own_text(text).removesuffix("\n"))


def own_text(text):
    """Without what a server put in front."""
    return text[text.index("Received: from c.example by mx.example") :]


@contextmanager
def dovecot(folder, users):
    """Dovecot's LMTP by its socket, with these users."""
    for name in ("run", "mail"):
        (folder / name).mkdir(parents=True)
    (folder / "mail").chmod(0o777)
    lines = [f"{name}:::::{folder}/mail/{name}::" for name in users]
    (folder / "users").write_text("\n".join(lines) + "\n")
    (folder / "conf").write_text(DOVECOT.format(folder))
    place = folder / "lmtp"
    with begun(["/usr/sbin/dovecot", "-F", "-c", str(folder / "conf")], place):
        yield Dovecot(folder)


class Dovecot:
    """Its boxes."""

    def __init__(self, folder):
        self.folder, self.place = folder, folder / "lmtp"

    def boxes(self):
        for path in (self.folder / "mail").glob("*/new/*"):
            text = path.read_text("latin-1")
            yield Kept(path.parent.parent.name + "@box.example", own_text(text))


def has_sink():
    return is_there("usr/sbin/smtp-sink")


def has_dovecot():
    return is_there("usr/lib/dovecot/lmtp")
