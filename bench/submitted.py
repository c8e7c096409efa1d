#!/usr/bin/env python3
"""Has programs hand mail over to the built program, as they are or by a setting, and looks into the
queue.

Use: bench/submitted.py [PROGRAM]

Python's subprocess, git's send-email, cron's words, bsd-mailx, mutt and msmtp's words, each as its
documents say; what isn't installed is skipped. Then ten at once by `flock`, and one more under a
server that owns the queue, which must end with 75 and leave the queue as it is, and be taken by the
server's port. It prints a line for each, and ends with status 1 at the first that isn't as it must
be. Build the program first, by `make run`. This is no part of the gate.
"""

import email.message
import os
import re
import shutil
import smtplib
import subprocess
import sys
import tempfile
import time
from pathlib import Path

sys.dont_write_bytecode = True
PLACE = Path(__file__).resolve().parent
sys.path[:1] = [str(PLACE / "served")]

from sites import BUILT, Strange, expect, free_port, is_heard, wait_for  # noqa: E402

WORDS = PLACE.parent / "packaging/bin/sendmail-words"


class Site:
    """A configuration, its queue, and commands that hand mail over to it."""

    def __init__(self, program, folder):
        self.program, self.folder, self.port = program, folder, free_port()
        self.queue = folder / "queue"
        self.queue.mkdir()
        text = (PLACE / "submitted/submit.cf").read_text()
        text = text.replace("@FOLDER@", str(folder)).replace("@PORT@", str(self.port))
        self.conf = folder / "submit.cf"
        self.conf.write_text(text)
        # What stands for `sendmail`, and for the same without the words that it doesn't have.
        self.plain = self.script("sendmail", f'exec "{program}" "-C{self.conf}" "$@"')
        words = WORDS.read_text().replace("@PREFIX@/sbin/sendmail", str(self.plain))
        self.lax = folder / "sendmail-words"
        self.lax.write_text(words)
        self.lax.chmod(0o755)

    def script(self, name, line):
        place = self.folder / name
        place.write_text(f"#!/bin/sh\n{line}\n")
        place.chmod(0o755)
        return place

    def entries(self):
        """The control texts that are live."""
        return sorted(it for it in self.queue.iterdir() if it.name.startswith("qf"))

    def newest(self):
        return max(self.entries()).read_text(), max(self.queue.glob("df*")).read_bytes()

    def takes(self, name, command, users, sender, body, **given):
        """A command that must end with 0, and put one message into the queue."""
        count = len(self.entries())
        ran = subprocess.run(command, capture_output=True, timeout=60, check=False, **given)
        expect(f"{name}: status", (ran.returncode, ran.stderr), (0, ran.stderr))
        expect(f"{name}: messages", len(self.entries()), count + 1)
        control, text = self.newest()
        expect(f"{name}: recipients", re.findall(r"^R\w*:<?([^>\n]*)>?$", control, re.M), users)
        expect(f"{name}: sender", re.search(r"^S<(.*)>$", control, re.M)[1], sender)
        expect(f"{name}: protocol", "$rSUBMIT\n" in control, True)
        if body not in text:
            raise Strange(f"{name}: {body!r} isn't in {text!r}")
        print(f"{name}: taken for {', '.join(users)}, from {sender}", flush=True)


def by_python(site):
    message = email.message.EmailMessage()
    message["From"], message["To"] = "Bob <bob@mx.example>", "ann@mx.example"
    message["Bcc"], message["Subject"] = "cid@mx.example", "hi"
    message.set_content("hello of Python\n.\nmore\n")
    users = ["ann@mx.example", "cid@mx.example"]
    site.takes(
        "Python's subprocess, -t -oi", [site.plain, "-t", "-oi"], users, "bob@mx.example",
        b"hello of Python\r\n.\r\nmore\r\n", input=message.as_bytes(),
    )


def by_git(site):
    where = subprocess.run(["git", "--exec-path"], capture_output=True, text=True, check=False).stdout
    if not Path(where.strip(), "git-send-email").exists():
        return print("git send-email: skipped, it isn't installed")
    there = site.folder / "repository"
    env = dict(os.environ, HOME=str(site.folder), GIT_CONFIG_NOSYSTEM="1")
    for name in ("AUTHOR", "COMMITTER"):
        env |= {f"GIT_{name}_NAME": "Bob", f"GIT_{name}_EMAIL": "bob@mx.example"}
    for words in (
        ["init", "-q", there], ["-C", there, "commit", "-q", "--allow-empty", "-m", "one"],
        ["-C", there, "commit", "-q", "--allow-empty", "-m", "two of git"],
        ["-C", there, "format-patch", "-q", "--always", "-1", "-o", there],
    ):
        subprocess.run(["git", *map(str, words)], check=True, env=env, timeout=60)
    patch = next(there.glob("0001-*.patch"))
    site.takes(
        "git send-email --sendmail-cmd",
        ["git", "-C", there, "send-email", f"--sendmail-cmd={site.plain}", "--confirm=never",
         "--suppress-cc=all", "--from=bob@mx.example", "--envelope-sender=bob@mx.example",
         "--to=ann@mx.example", "--to=cid@mx.example", patch],
        ["ann@mx.example", "cid@mx.example"], "bob@mx.example", b"-- \r\n", env=env,
    )


def by_cron(site):
    site.takes(
        "cron's words, by sendmail-words",
        [site.lax, "-i", "-FCronDaemon", "-B8BITMIME", "-oem", "ann"], ["ann"], "root@mx.example",
        b"hello of cron", input=b"From: root@mx.example\nTo: ann\nSubject: Cron\n\nhello of cron\n",
    )


def by_mailx(site):
    if shutil.which("bsd-mailx") is None:
        return print("bsd-mailx: skipped, it isn't installed")
    start = site.folder / "mailrc"
    start.write_text(f"set sendmail={site.lax}\n")
    site.takes(
        "bsd-mailx, set sendmail", ["bsd-mailx", "-s", "hi", "-r", "bob@mx.example", "ann@mx.example"],
        ["ann@mx.example"], "bob@mx.example", b"hello of mailx", input=b"hello of mailx\n",
        env=dict(os.environ, MAILRC=str(start), HOME=str(site.folder)),
    )


def by_mutt(site):
    if shutil.which("mutt") is None:
        return print("mutt: skipped, it isn't installed")
    site.takes(
        "mutt's batch mode, set sendmail",
        ["mutt", "-n", "-F", "/dev/null", "-e", f'set sendmail="{site.lax} -oem -oi"',
         "-e", "set from=bob@mx.example use_envelope_from=yes copy=no", "-s", "hi", "ann@mx.example"],
        ["ann@mx.example"], "bob@mx.example", b"hello of mutt", input=b"hello of mutt\n",
        env=dict(os.environ, HOME=str(site.folder)),
    )


def under_a_server(site):
    """One process owns the queue: what is handed over beside it is told to come again."""
    before = {it.name: it.read_bytes() for it in site.queue.iterdir()}
    # A configuration that delivers nothing, so that the queue stays.
    server = subprocess.Popen([site.program, "-bd", "-q1w", f"-C{site.conf}"], stderr=subprocess.PIPE)
    try:
        wait_for("the server", lambda: is_heard(site.port))
        ran = subprocess.run(
            [site.plain, "ann@mx.example"], input=b"hi\n", capture_output=True, timeout=60, check=False
        )
        owned = f"sendmail: {site.queue}: owned by another process\nsendmail: spool fault\n"
        expect("beside a server", (ran.returncode, ran.stderr.decode()), (75, owned))
        with smtplib.SMTP("127.0.0.1", site.port, "c.example", 60) as session:
            session.sendmail("bob@mx.example", ["ann@mx.example"], "Subject: port\r\n\r\nhello\r\n")
    finally:
        server.kill()
        server.wait()
    left = {it.name for it in site.queue.iterdir()}
    gone = [name for name in before if name not in left and f"s{name[1:]}" not in left
            and not name.startswith("df")]
    expect("beside a server: what was there", gone, [])
    print("beside a server: status 75, and its port takes the message", flush=True)


def waiting(site):
    """The recipe with flock: a run waits for another one, and nothing is lost."""
    if shutil.which("flock") is None:
        return print("flock: skipped, it isn't installed")
    lock, count = site.folder / "lock", len(site.entries())
    held = subprocess.Popen(["flock", lock, "sleep", "1"])
    time.sleep(0.2)
    command = ["flock", "-w", "60", lock, site.plain, "-i", "ann@mx.example"]
    runs = [subprocess.Popen(command, stdin=subprocess.PIPE) for _ in range(10)]
    for number, run in enumerate(runs):
        run.stdin.write(f"Subject: {number}\n\nhello\n".encode())
        run.stdin.close()
    expect("ten at once, by flock", [run.wait() for run in runs], [0] * 10)
    held.wait()
    expect("ten at once, by flock: messages", len(site.entries()), count + 10)
    print("ten at once, by flock: all taken", flush=True)


def main():
    program = Path(sys.argv[1] if len(sys.argv) > 1 else BUILT).resolve()
    if not program.exists():
        print("build the program first: make run")
        return 2
    with tempfile.TemporaryDirectory() as folder:
        site = Site(program, Path(folder))
        try:
            for step in (by_python, by_git, by_cron, by_mailx, by_mutt, waiting, under_a_server):
                step(site)
        except Strange as why:
            print(f"wrong: {why}")
            return 1
    return 0


sys.exit(main())
