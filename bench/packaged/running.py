"""The very commands of the units and of the line for inetd, with files and a network of their own.

A part is this file again, as a program in a namespace, where port 25 is free, /etc has the
configuration of the installation, and /var/mail and /var/spool are empty.
"""

import os
import re
import shlex
import shutil
import signal
import smtplib
import subprocess
import sys
import threading
import time
from collections import Counter
from pathlib import Path

sys.path.append(str(Path(__file__).resolve().parent.parent / "served"))
from installing import install, lacks  # noqa: E402
from sites import Strange, expect, is_heard, wait_for  # noqa: E402

ENTER = """
mount -t overlay overlay -o "lowerdir=$1/etc:/etc" /etc && mount --bind "$1/spool" /var/spool &&
mount --bind "$1/mail" /var/mail && ip link set lo up && shift && exec "$@"
"""
CLIENTS, EACH, RESTARTS = 4, 15, 6
BOB = "bob@mx.example"
USERS = ("daemon", "games", "nobody")
SUBJECT = re.compile(r"^Subject: (.*)$", re.MULTILINE)


def inside(part, program, folder):
    """Runs a part in a namespace, and gives what it says."""
    if os.geteuid() != 0:
        return "skipped: it wants root"
    if missing := lacks("unshare", "ip", "setpriv", "flock"):
        return f"skipped: no {missing}"
    install(program, folder, PREFIX=folder / "usr", DESTDIR="", SETUP="no")
    environment = os.environ | {"DESTDIR": str(folder), "HOST": "mx.example"}
    subprocess.run([folder / "usr/share/sendmail/setup.sh"], env=environment, check=True)
    (folder / "var/spool").rename(folder / "spool")
    (folder / "mail").mkdir()
    shutil.chown(folder / "mail", 0, "mail")
    (folder / "mail").chmod(0o2775)
    command = [sys.executable, __file__, part, str(folder)]
    enter = ["unshare", "-mnpf", "--kill-child", "--mount-proc", "sh", "-c", ENTER, "sh", str(folder)]
    ran = subprocess.run([*enter, *command], capture_output=True, text=True, check=False)
    if ran.returncode != 0:
        raise Strange(ran.stdout + ran.stderr)
    return ran.stdout.strip()


def server(program, folder):
    return inside("server", program, folder)


def sockets(program, folder):
    if missing := lacks("systemd-socket-activate"):
        return f"skipped: no {missing}"
    return inside("sockets", program, folder)


def by_inetd(program, folder):
    if missing := lacks("inetd"):
        return f"skipped: no {missing}"
    return inside("inetd", program, folder)


def parts(program, folder):
    if packet_filter() is None:
        return "skipped: no nft"
    return inside("parts", program, folder)


def packet_filter():
    """The program nft, also where it was only unpacked."""
    unpacked = Path(os.environ.get("UNPACKED", "/none"), "usr/sbin/nft")
    return shutil.which("nft") or (str(unpacked) if unpacked.exists() else None)


def command_of(folder, unit, word="ExecStart"):
    """The words of a unit's ExecStart, or of another command of it."""
    text = (folder / "usr/lib/systemd/system" / unit).read_text()
    return shlex.split(re.search(rf"^{word}=(.*)$", text, re.MULTILINE)[1])


class Client(threading.Thread):
    """Sends messages, each until it is acknowledged."""

    def __init__(self, number):
        super().__init__(daemon=True)
        self.number, self.tries, self.acknowledged = number, Counter(), []

    def run(self):
        for number in range(EACH):
            subject = f"{self.number}-{number}"
            user = USERS[number % len(USERS)] + "@mx.example"
            text = f"Subject: {subject}\r\n\r\nFrom here\r\n{'x' * 60}\r\n"
            while not self.send(user, text):
                time.sleep(0.05)
            self.acknowledged.append(subject)
            time.sleep(0.02)

    def send(self, user, text):
        try:
            with smtplib.SMTP("127.0.0.1", 25, "c.example", 300) as session:
                return session.sendmail(BOB, [user], text) == {}
        except (OSError, smtplib.SMTPException):
            self.tries["again"] += 1
            return False


def clients_at_once():
    found = [Client(number) for number in range(CLIENTS)]
    for client in found:
        client.start()
    return found


def boxes():
    """How often each message is in the boxes, which must be of whole messages."""
    came = Counter()
    for user in USERS:
        box = Path("/var/mail", user)
        expect(f"mode of {box}", oct(box.stat().st_mode & 0o777), "0o600")
        expect(f"owner of {box}", box.owner(), user)
        text = box.read_text()
        for message in text.split("\nFrom bob@mx.example ")[:]:
            expect("a message's end", message.rstrip("\n").endswith("\n>From here\n" + "x" * 60), True)
            came[SUBJECT.search(message)[1]] += 1
    return came


def sent(clients):
    for client in clients:
        client.join(300)
        expect(f"whether client {client.number} is done", client.is_alive(), False)
    return {subject for client in clients for subject in client.acknowledged}


def listed(folder, *more):
    command = [folder / "usr/bin/mailq", *more]
    ran = subprocess.run(command, capture_output=True, text=True, check=False)
    return ran.stdout.splitlines()


def check(folder, clients, twice, queues=((),)):
    """Each message came; so many may have come again."""
    subjects = sent(clients)
    expect("how many were acknowledged", len(subjects), CLIENTS * EACH)
    come = ["Total requests: 0"]
    for more in queues:
        wait_for("an empty queue", lambda: listed(folder, *more) == come, 0.2)
    came = boxes()
    expect("what is lost", subjects - set(came), set())
    expect("what nobody sent", set(came) - subjects, set())
    again = sum(count - 1 for count in came.values())
    if again > twice:
        raise Strange(f"{again} came again, and {twice} deliveries were cut off at most")
    tries = sum(client.tries["again"] for client in clients)
    return f"{len(subjects)} messages, none lost, {again} came again, {tries} tries refused"


def play_server(folder):
    """The server is stopped and started while clients send; mailers come to their end."""
    command = command_of(folder, "sendmail.service")
    run = subprocess.Popen(command)
    wait_for("port 25", lambda: is_heard(25))
    clients, cut = clients_at_once(), 0
    for _ in range(RESTARTS):
        time.sleep(0.4)
        begun = len(mailers())
        run.terminate()
        expect("status of a server that is stopped", run.wait(), -signal.SIGTERM)
        cut += max(begun, len(mailers()))
        run = subprocess.Popen(command)
    # Rows of attempts that were cut off wait for the interval: the queue is run by hand.
    sent(clients)
    time.sleep(1)
    run.terminate()
    run.wait()
    wait_for("the mailers' end", lambda: not mailers())
    cut += RESTARTS * 4
    subprocess.run([command[0], "-q"], check=True)
    return f"{RESTARTS} restarts, " + check(folder, clients, cut)


def mailers():
    """The mailers that run."""
    found = []
    for path in Path("/proc").glob("[0-9]*/cmdline"):
        try:
            if b"libexec/sendmail/mailbox" in path.read_bytes():
                found.append(path)
        except OSError:
            pass
    return found


def play_parts(folder):
    """Four servers behind one port, each of which is stopped and started while clients send."""
    unit, numbers = "sendmail-part@.service", range(1, 5)
    subprocess.run(["mount", "-t", "tmpfs", "run", "/run"], check=True)
    commands = {}
    for number in numbers:
        Path(f"/var/spool/mqueue{number}").mkdir(mode=0o700)
        Path(f"/run/sendmail-part{number}").mkdir()
        words = command_of(folder, unit, "ExecStartPre")
        subprocess.run([it.replace("%i", str(number)) for it in words], check=True)
        commands[number] = [it.replace("%i", str(number)) for it in command_of(folder, unit)]
    runs = {number: subprocess.Popen(command) for number, command in commands.items()}
    wait_for("four ports", lambda: all(is_heard(2500 + number) for number in numbers))
    rules = folder / "usr/share/doc/sendmail-proved/examples/sendmail-parts.nft"
    unpacked = Path(os.environ.get("UNPACKED", "/none"), "usr/lib/x86_64-linux-gnu")
    libraries = dict(os.environ, LD_LIBRARY_PATH=str(unpacked)) if unpacked.exists() else None
    subprocess.run([packet_filter(), "-f", rules], env=libraries, check=True)
    clients = clients_at_once()
    cut = 0
    for number in numbers:
        time.sleep(0.4)
        cut += len(mailers())
        runs[number].terminate()
        expect("status of a server that is stopped", runs[number].wait(), -signal.SIGTERM)
        runs[number] = subprocess.Popen(commands[number])
    sent(clients)
    time.sleep(1)
    for run in runs.values():
        run.terminate()
        run.wait()
    wait_for("the mailers' end", lambda: not mailers())
    configs = [("-C", f"/run/sendmail-part{number}/sendmail.cf") for number in numbers]
    for number, config in zip(numbers, configs):
        subprocess.run([commands[number][0], "-q", *config], check=True)
    shares = [len(list(Path(f"/var/spool/mqueue{number}").glob("sf*"))) for number in numbers]
    expect("whether each of the four had mail", all(shares), True)
    said = check(folder, clients, cut + len(shares) * 4, configs)
    return f"{said}, {', '.join(map(str, shares))} of them by each"


def drained(folder):
    """Runs the queue by the command of its unit."""
    ran = subprocess.run(command_of(folder, "sendmail-queue.service"), check=False)
    expect("status of a queue run", ran.returncode in (0, 75), True)


def take_turns(folder, run):
    """Sessions in processes of their own, with queue runs between them."""
    try:
        wait_for("port 25", lambda: is_heard(25))
        clients = clients_at_once()
        while any(client.is_alive() for client in clients):
            drained(folder)
            time.sleep(0.3)
        drained(folder)
        return check(folder, clients, 0)
    finally:
        run.terminate()
        run.wait()


def play_sockets(folder):
    front = ["systemd-socket-activate", "-l", "127.0.0.1:25", "--accept", "--inetd"]
    run = subprocess.Popen(
        [*front, *command_of(folder, "sendmail@.service")], stderr=subprocess.DEVNULL
    )
    return take_turns(folder, run)


def play_inetd(folder):
    conf = folder / "usr/share/doc/sendmail-proved/examples/inetd.conf"
    return take_turns(folder, subprocess.Popen(["inetd", "-i", str(conf)]))


if __name__ == "__main__":
    try:
        part = {
            "server": play_server,
            "parts": play_parts,
            "sockets": play_sockets,
            "inetd": play_inetd,
        }[sys.argv[1]]
        print(part(Path(sys.argv[2])))
    except Strange as why:
        sys.exit(str(why))
