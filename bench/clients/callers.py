"""How each client is called to hand a message to a port of 127.0.0.1.

A call is made once, and is then run over a place: the port, a folder for what it writes, and the
clients that were found. It gives the client's exit status, and of smtplib what came of it.
"""

import os
import shutil
import smtplib
import subprocess
from dataclasses import dataclass, field
from pathlib import Path

HOST = "127.0.0.1"
HELO = "c.example"
BOB = "bob@c.example"
ANN = "ann@mx.example"
DATE = "Date: Thu, 1 Jan 2026 00:00:00 +0000"
NAMES = {
    "swaks": "swaks",
    "msmtp": "msmtp",
    "curl": "curl",
    "git send-email": "git-send-email",
    "smtp-source": "smtp-source",
}


@dataclass
class Mail:
    """What a client is given. Its text is headers, an empty line and these lines of body."""

    lines: list = field(default_factory=lambda: [b"hello"])
    recipients: list = field(default_factory=lambda: [ANN])
    sender: str = BOB
    subject: str = "hi"

    def text(self, end=b"\n"):
        head = [f"From: {BOB}", f"To: {ANN}", f"Subject: {self.subject}", DATE, ""]
        return b"".join(line + end for line in [*map(str.encode, head), *self.lines])

    def body(self):
        return b"".join(line + b"\r\n" for line in self.lines)


@dataclass
class Place:
    """Where a call is run."""

    port: int
    folder: Path
    programs: dict
    environment: dict

    def run(self, client, words, text=b"", folder=None):
        ran = subprocess.run(
            [self.programs[client], *words],
            input=text,
            capture_output=True,
            env=self.environment,
            cwd=folder or self.folder,
            timeout=300,
            check=False,
        )
        return ran.returncode

    def write(self, name, text):
        path = self.folder / name
        path.write_bytes(text)
        return path


def swaks(mail, *words):
    """The client itself puts an end behind the last line."""

    def call(place):
        path = place.write("message", mail.text()[:-1])
        front = ["--server", HOST, "--port", str(place.port), "--ehlo", HELO, "--from", mail.sender]
        front += ["--to", ",".join(mail.recipients), "--data", f"@{path}"]
        return place.run("swaks", [*front, *words])

    return call


def msmtp(mail, *words):
    def call(place):
        front = [f"--host={HOST}", f"--port={place.port}", f"--domain={HELO}", "--tls=off"]
        front += ["--auth=off", f"--from={mail.sender}", *words]
        return place.run("msmtp", [*front, "--", *mail.recipients], mail.text())

    return call


def curl(*mails, more=()):
    """Several messages are several transfers of one call."""

    def call(place):
        words = ["--silent", "--show-error"]
        for place_in_call, mail in enumerate(mails):
            path = place.write(f"message{place_in_call}", mail.text(b"\r\n"))
            words += ["--next", "--silent"] if place_in_call else []
            words += [f"smtp://{HOST}:{place.port}/{HELO}", "--mail-from", mail.sender]
            words += [word for name in mail.recipients for word in ("--mail-rcpt", name)]
            words += ["--upload-file", str(path), *more]
        return place.run("curl", words)

    return call


def curl_asks(*words):
    """A command without a message."""

    def call(place):
        return place.run("curl", ["--silent", f"smtp://{HOST}:{place.port}/{HELO}", *words])

    return call


def git_send_email(patches, recipients, *words):
    """A series of patches, each of which adds a file with these lines. Lines of their texts begin
    with dots."""

    def call(place):
        repository = place.folder / "repository"
        shutil.rmtree(repository, ignore_errors=True)
        repository.mkdir()

        def git(*asked):
            settings = {"cwd": repository, "env": place.environment}
            subprocess.run(["git", *asked], **settings, check=True, capture_output=True)

        git("init", "-q")
        git("config", "user.name", "Bob")
        git("config", "user.email", BOB)
        for number, lines in enumerate(patches, 1):
            (repository / f"file{number}").write_bytes(b"".join(line + b"\n" for line in lines))
            git("add", f"file{number}")
            git("commit", "-q", "-m", f"change {number}", "-m", ".\n.dot\n..two")
        git("format-patch", "-q", "--root", "-o", "patches")
        front = [f"--smtp-server={HOST}", f"--smtp-server-port={place.port}", f"--from=Bob <{BOB}>"]
        front += [f"--smtp-domain={HELO}", "--confirm=never", "--suppress-cc=all", "--quiet"]
        front += [f"--to={name}" for name in recipients] + list(words)
        names = sorted(str(path) for path in (repository / "patches").iterdir())
        return place.run("git send-email", [*front, *names], folder=repository)

    return call


def patch_body(place, number):
    """The body of a patch of the series that was sent."""
    path = next((place.folder / "repository/patches").glob(f"{number:04}-*"))
    return path.read_bytes().partition(b"\n\n")[2].replace(b"\n", b"\r\n")


def smtp_source(mail, *words):
    """The message as it is; with a length, as `-l 1000`, what the client itself makes."""

    def call(place):
        path = place.write("message", mail.text())
        front = ["-M", HELO, "-f", mail.sender, "-t", mail.recipients[0]]
        own = [] if "-l" in words else ["-F", str(path)]
        return place.run("smtp-source", [*front, *own, *words, f"{HOST}:{place.port}"])

    return call


def smtplib_call(asks):
    """What is asked of a connection, which is greeted by EHLO where nothing else comes first."""

    def call(place):
        with smtplib.SMTP(HOST, place.port, local_hostname=HELO, timeout=60) as connection:
            return asks(connection)

    return call


def programs(folder):
    """The clients that are there, each with the path that calls it: in a folder of unpacked
    packages, or else in the system."""
    places = [folder / "usr/bin", folder / "usr/sbin"] if folder else []
    path = os.pathsep.join([*map(str, places), os.environ["PATH"], "/usr/sbin"])
    found = {name: shutil.which(word, path=path) for name, word in NAMES.items()}
    found["git send-email"] = git_word(folder)
    return {name: word for name, word in found.items() if word}


def git_word(folder):
    """`git-send-email` of git's own folder, which is no program of the path."""
    if shutil.which("git") is None:
        return None
    own = subprocess.run(["git", "--exec-path"], capture_output=True, text=True, check=True)
    places = [Path(own.stdout.strip())] + ([folder / "usr/lib/git-core"] if folder else [])
    paths = [place / "git-send-email" for place in places]
    return next((str(path) for path in paths if path.is_file()), None)


def environment(folder, home):
    """That of the clients: a home of their own, and the libraries of the unpacked packages."""
    found = dict(os.environ, HOME=str(home), GIT_CONFIG_NOSYSTEM="1", EMAIL=BOB)
    for name in ("GIT_CONFIG_GLOBAL", "XDG_CONFIG_HOME"):
        found.pop(name, None)
    if folder:
        own = [*folder.glob("usr/lib/*-linux-gnu"), folder / "usr/lib/postfix"]
        found["LD_LIBRARY_PATH"] = os.pathsep.join(map(str, own))
        found["PERL5LIB"] = str(folder / "usr/share/perl5")
    return found
