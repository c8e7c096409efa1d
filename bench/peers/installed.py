"""Servers that are installed, or were unpacked into a folder. A relay keeps what they say."""

import asyncio
import os
import re
import socket
import subprocess
import sys
import tempfile
import time
from contextlib import contextmanager
from pathlib import Path

from cases import FAULT, HASTE, LOST, SENT
from program import Letter, hand_over
from relay import Relay
from server import Server
from talks import CLOSED, STALLED, rows_by

# Unpacked programs run where the folder's `usr` lies over the system's, which needs root.
UNPACKED = os.environ.get("UNPACKED")
MOUNT = 'mount -t overlay overlay -o "lowerdir=$0/usr:/usr" /usr && exec "$@"'
PYTHON = "usr/lib/python3/dist-packages"
JOIN = Path(__file__).resolve().parent / "join.py"
LETTER = Letter(message=b"Subject: hi\r\n\r\n.\r\n..a\r\n.no end")
SOFT = "deferred 450 4.3.0 Error: command failed"
HARD = "failed 5.0.0 500 5.3.0 Error: command failed"
LEAVES = "deferred 421 4.0.0 Server closing connection"
STEPS = ("CONNECT", "EHLO", "MAIL", "RCPT", "DATA", ".")
DOVECOT = """base_dir = {0}/run
state_dir = {0}/run
log_path = {0}/log
protocols = lmtp
ssl = no
default_internal_user = daemon
default_internal_group = daemon
default_login_user = nobody
mail_location = maildir:{0}/mail/%n
mail_uid = mail
mail_gid = mail
first_valid_uid = 1
quota_full_tempfail = yes
mail_plugins = quota
plugin {{
  quota = maildir:User quota
}}
passdb {{
  driver = static
  args = nopassword=y
}}
userdb {{
  driver = passwd-file
  args = username_format=%n {0}/users
}}
service lmtp {{
  unix_listener {0}/lmtp {{
    mode = 0666
  }}
}}
"""


def is_there(path):
    if Path("/", path).exists() or UNPACKED is not None and Path(UNPACKED, path).exists():
        return True
    print(f"skipped: no {path}")
    return False


def within(command):
    """The command, where what was unpacked is found."""
    if UNPACKED is None:
        return command
    return ["unshare", "-m", "sh", "-c", MOUNT, UNPACKED, *command]


@contextmanager
def begun(command, path):
    """Runs a server as long as it is wanted, from when its socket takes connections on."""
    with subprocess.Popen(within(command), stdin=subprocess.DEVNULL) as run:
        try:
            for _ in range(200):
                with socket.socket(socket.AF_UNIX) as line:
                    if line.connect_ex(str(path)) == 0:
                        break
                time.sleep(0.05)
            yield
        finally:
            run.terminate()


def talk_of(session, is_lmtp, missing):
    """The log of what a relay kept; `missing` stands for a reply that didn't come."""
    talk = [(line.split(" ")[0].split(":")[0], reply) for line, reply in session.exchanges()]
    verbs = [verb for verb, _ in talk]
    if is_lmtp and "." in verbs:
        at, replies = verbs.index("."), session.replies()[0]
        count = sum(verb == "RCPT" and reply[:1] == b"2" for verb, reply in talk)
        talk[at:] = [(".", reply) for reply in [*replies[at:], *[b""] * count][:count]]
    return [(verb, reply or missing) for verb, reply in talk]


async def relayed(command, letter=LETTER, is_lmtp=False, missing=CLOSED):
    """What the program says became of a letter, and what the relay's log says."""
    relay = Relay(command, False)
    place, haste = f"peer 127.0.0.1 {relay.port}", HASTE if missing == STALLED else None
    ran = await hand_over(letter, [place], "lmtp" if is_lmtp else "smtp", haste)
    await asyncio.to_thread(relay.close)
    talk = talk_of(relay.sessions[-1], is_lmtp, missing)
    return ran.rows, rows_by(talk, len(letter.users), is_lmtp)


def modes():
    """The modes of smtp-sink, and what each makes of a row."""
    yield (), SENT
    yield ("-L",), SENT
    yield ("-8",), SENT
    yield ("-e",), SENT
    yield ("-H", "1"), SENT
    for step in STEPS:
        yield ("-f", step), SENT if step == "EHLO" else HARD
        yield ("-r", step), SOFT
        yield ("-q", step), LOST
        # Behind a 421 to the first RCPT the others are asked for on a line that is ending.
        if step != "RCPT":
            yield ("-Q", step), LEAVES
        yield ("-W", f"{step}:3"), FAULT
    yield ("-L", "-f", "LHLO"), HARD
    yield ("-L", "-r", "."), SOFT
    yield ("-L", "-q", "."), LOST


async def sinks(folder):
    """Postfix's smtp-sink."""
    if not is_there("usr/sbin/smtp-sink"):
        return
    folder.chmod(0o777)
    for number, (options, row) in enumerate(modes()):
        path, dump = folder / f"{number}.sink", folder / f"{number}.dump"
        words = ["/usr/sbin/smtp-sink", "-u", "nobody", "-D", str(dump), *options]
        missing = STALLED if row == FAULT else CLOSED
        with begun([*words, f"unix:{path}", "9"], path):
            join = [sys.executable, str(JOIN), str(path)]
            rows, wanted = await relayed(join, is_lmtp="-L" in options, missing=missing)
        name = " ".join(("smtp-sink", *options))
        yield name, rows, wanted
        yield f"{name}, as its mode says", rows, [row] * 3
        if row == SENT:
            text = LETTER.taken().replace(b"\r\n", b"\n")
            yield f"{name}, the message", dump.read_bytes()[-len(text) - 1 :], text + b"\n"


class Keeper:
    """What aiosmtpd asks, and what it was given."""

    def __init__(self):
        self.taken = []

    async def handle_RCPT(self, server, session, envelope, address, options):
        if address.startswith("cid"):
            return "550 5.1.1 no such user"
        envelope.rcpt_tos.append(address)
        return "250 ok"

    async def handle_DATA(self, server, session, envelope):
        self.taken.append((envelope.rcpt_tos, envelope.content))
        return "451 4.0.0 not now" if b"later" in envelope.content else "250 ok"


async def keepers(folder):
    """Python's aiosmtpd."""
    sys.path.append(str(Path(UNPACKED or "/", PYTHON)))
    try:
        from aiosmtpd.controller import UnixSocketController
    except ImportError:
        print("skipped: no aiosmtpd")
        return
    for message, row in ((LETTER.message, SENT), (b"later", "deferred 451 4.0.0 not now")):
        keeper, letter = Keeper(), Letter(message=message)
        controller = UnixSocketController(keeper, str(folder / "keeper"))
        controller.start()
        ran = await hand_over(letter, [f"path {folder}/keeper"])
        controller.stop()
        (taken, content), = keeper.taken
        no = "failed 5.0.0 550 5.1.1 no such user"
        rows = [row if user.decode() in taken else no for user in letter.users]
        yield "aiosmtpd", ran.rows, rows
        yield "aiosmtpd, the message", content, letter.taken()


async def dovecots(folder):
    """Dovecot's LMTP by its Unix socket. One user is over quota."""
    if not is_there("usr/lib/dovecot/lmtp"):
        return
    for name in ("run", "mail"):
        (folder / name).mkdir()
    (folder / "mail").chmod(0o777)
    names = ("ann", "cid", "dan")
    users = [f"{name}:::::{folder}/mail/{name}::" for name in names]
    users[1] += "userdb_quota_rule=*:bytes=10"
    (folder / "users").write_text("\n".join(users) + "\n")
    (folder / "conf").write_text(DOVECOT.format(folder))
    place = folder / "lmtp"
    with begun(["/usr/sbin/dovecot", "-F", "-c", str(folder / "conf")], place):
        rows, wanted = await relayed([sys.executable, str(JOIN), str(place)], is_lmtp=True)
        ran = await hand_over(LETTER, [f"path {place}"], "lmtp")
    yield "Dovecot's LMTP", rows, wanted
    yield "Dovecot's LMTP by its socket", ran.rows, rows
    log, text = (folder / "log").read_text(), LETTER.taken().replace(b"\r\n", b"\n")
    saved = [len(re.findall(rf"lmtp\({name}@.*: saved mail", log)) for name in names]
    yield "Dovecot's LMTP, what it saved", [2 * (row == SENT) for row in rows], saved
    ends = [path.read_bytes()[-len(text) :] for path in (folder / "mail").glob("*/new/*")]
    yield "Dovecot's LMTP, the messages", ends, [text] * sum(saved)


async def sendmails(folder):
    """Sendmail's own `-bs`, which refuses one user."""
    if not is_there("usr/libexec/sendmail/sendmail"):
        return
    users = (b"ann@mx.example", b"refused@mx.example", b"dan@d.example")
    with tempfile.TemporaryDirectory(dir=Path.home()) as home:
        Path(home).chmod(0o755)
        server = Server("/usr/libexec/sendmail/sendmail", True, Path(home))
        server.clear()
        letter = Letter(users=users, message=LETTER.message)
        rows, wanted = await relayed(within(server.command), letter)
        yield "Sendmail's own", rows, wanted
        taken = letter.taken().partition(b"\r\n\r\n")[2]
        for entry in server.entries():
            yield "Sendmail's own, the message", entry.body, taken


SERVERS = {
    "smtp-sink": sinks,
    "aiosmtpd": keepers,
    "Dovecot's LMTP": dovecots,
    "Sendmail's own": sendmails,
}


async def installed(word, folder):
    """Tells of each server that is there, again and again, a name, what came, and what its log
    says."""
    folder.chmod(0o755)
    for name, servers in SERVERS.items():
        if word in name:
            place = folder / servers.__name__
            place.mkdir()
            async for told in servers(place):
                yield told
