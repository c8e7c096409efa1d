"""A place where the program runs: its configuration, its queue, and what its mailer keeps."""

import re
import shutil
import smtplib
import socket
import subprocess
import time
from dataclasses import dataclass
from pathlib import Path

HERE = Path(__file__).resolve().parent
BUILT = HERE.parent.parent / "crates/sendmail/out/sendmail"
# Seconds within which each thing that is waited for must be so.
MOST = 120
ROW = re.compile(r"R\w*:<(?P<user>[^\n]*)>\ne(?P<state>\w)")
SUBJECT = re.compile(r"^H?Subject: (.*)$", re.MULTILINE)
ID = re.compile(r"^Message-Id: <\d+\.(w\d{12})@", re.MULTILINE)


class Strange(Exception):
    """What isn't as it must be."""


def expect(name, it, wanted):
    if it != wanted:
        raise Strange(f"{name}:\n  it is {it!r}\n  wanted {wanted!r}")


def wait_for(name, is_so, pause=0.01):
    """Waits until something is so, and so long between two looks."""
    until = time.monotonic() + MOST
    while not is_so():
        if time.monotonic() > until:
            raise Strange(f"{name}: not within {MOST} seconds")
        time.sleep(pause)


def free_port():
    with socket.create_server(("127.0.0.1", 0)) as found:
        return found.getsockname()[1]


def is_heard(port):
    with socket.socket() as line:
        return line.connect_ex(("127.0.0.1", port)) == 0


def name_of(text, number=None):
    """What names a message: its subject, or of one that the program itself made its id, which isn't
    in a control text."""
    if "Auto-Submitted: auto-generated" in text:
        return number or ID.search(text)[1]
    return SUBJECT.search(text)[1]


@dataclass(frozen=True)
class Kept:
    """A text that came out to a user, with a line feed at each line's end."""

    user: str
    text: str

    def key(self):
        return name_of(self.text), self.user

    def body(self):
        return self.text.partition("\n\n")[2]


class Daemon:
    """A run by `-bd`."""

    def __init__(self, site, more):
        self.port = site.port
        command = [*site.command("-bd"), *more]
        self.run = subprocess.Popen(command, stdin=subprocess.DEVNULL, stderr=subprocess.PIPE)

    def is_up(self):
        return is_heard(self.port)

    def wait_up(self):
        def is_up():
            if self.run.poll() is not None:
                raise Strange(f"-bd ends with {self.run.returncode}: {self.run.stderr.read()!r}")
            return self.is_up()

        wait_for("a port that is listened at", is_up)

    def end(self, number=None):
        """Its status, after it got a signal, where there is one."""
        if number is not None:
            self.run.send_signal(number)
        try:
            status = self.run.wait(MOST)
        except subprocess.TimeoutExpired:
            self.run.kill()
            raise Strange("-bd doesn't end") from None
        self.run.stderr.close()
        return status


class Site:
    """A folder with a queue, a mailer and its boxes, and the peers of the configuration."""

    def __init__(self, program, folder, peer, box):
        self.program, self.folder, self.peer, self.box = str(program), folder, peer, box
        self.port = free_port()
        shutil.copy(HERE / "keeper", folder / "keeper")
        self.clear()
        self.configure()

    def clear(self):
        """A new queue, and empty boxes."""
        for name in ("queue", "begun", "kept", "seen"):
            shutil.rmtree(self.folder / name, ignore_errors=True)
            (self.folder / name).mkdir()

    def configure(self, sessions=0, warn="1d", back="5d"):
        """Writes the configuration."""
        text = (HERE / "served.cf").read_text()
        values = {"DIR": self.folder, "PORT": self.port, "PEER": self.peer, "BOX": self.box}
        values |= {"SESSIONS": sessions, "WARN": warn, "RETURN": back}
        for name, value in values.items():
            text = text.replace(f"@{name}@", str(value))
        (self.folder / "served.cf").write_text(text)

    def command(self, mode):
        return [self.program, mode, f"-C{self.folder}/served.cf"]

    def said(self, mode, asked=b"", status=0):
        """What a run writes that must end with this status."""
        ran = subprocess.run(
            self.command(mode), input=asked, capture_output=True, timeout=MOST, check=False
        )
        expect(f"status of {mode}, which says {ran.stderr!r}", ran.returncode, status)
        return ran.stdout.decode("latin-1")

    def listed(self):
        """The lines of the listing."""
        return self.said("-bp").splitlines()

    def daemon(self, *more):
        return Daemon(self, more)

    def session(self):
        """A session at the port, as soon as it is listened at."""
        until = time.monotonic() + MOST
        while True:
            try:
                return smtplib.SMTP("127.0.0.1", self.port, "c.example", MOST)
            except ConnectionRefusedError:
                if time.monotonic() > until:
                    raise Strange("nobody listens at the port") from None
                time.sleep(0.005)

    def rows(self):
        """The state of each row of the queue, by the name of its message and its user."""
        found = {}
        for path in (self.folder / "queue").glob("[qs]f*"):
            text = path.read_text("latin-1")
            for row in ROW.finditer(text):
                found[name_of(text, path.name[2:]), row["user"]] = row["state"]
        return found

    def boxes(self):
        """What the mailer kept, each text once, in the order of names."""
        paths = sorted((self.folder / "kept").iterdir())
        return [Kept(user_of(path), path.read_text("latin-1")) for path in paths]

    def is_busy(self):
        """Whether a process of the program or of its mailer runs."""
        for path in Path("/proc").glob("[0-9]*/cmdline"):
            try:
                if str(self.folder).encode() in path.read_bytes():
                    return True
            except OSError:
                pass
        return False

    def settle(self):
        wait_for("the mailers' end", lambda: not self.is_busy())

    def run_out(self):
        """Runs the queue until nothing is in it."""
        for _ in range(MOST):
            if self.listed() == ["Total requests: 0"]:
                return
            self.said("-q")
        raise Strange(f"after {MOST} queue runs there is still {self.listed()}")


def user_of(path):
    return path.name.rpartition(".")[0] + "@mx.example"
