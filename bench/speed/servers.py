"""The three servers, each over a queue of its own below one folder, and four of the first as one.

Each of them can be run so that it takes mail and delivers none (`receiving`), so that it delivers
what is in its queue (`deliver`), as a server that does both (`serving`), and by a queue run that
finds nothing due (`finds_none`). Where `slow` is set, what runs loads that library first.
"""

import os
import re
import shutil
import signal
import smtplib
import subprocess
import time
from contextlib import ExitStack, contextmanager
from pathlib import Path

from installed import UNPACKED, is_there, within
from sites import Strange, free_port, is_heard, wait_for

HERE = Path(__file__).resolve().parent
RUNNERS = 20
QUIET = {"stdin": subprocess.DEVNULL, "stdout": subprocess.DEVNULL, "stderr": subprocess.DEVNULL}
SENDMAIL = "usr/libexec/sendmail/sendmail"
HEAD = """V10/Berkeley
O AuthMechanisms=NONE
O DeliveryMode={mode}
O QueueLA=100000
O RefuseLA=100000
O DelayLA=0
O DontProbeInterfaces=True
O Timeout.ident=0
O Timeout.iconnect=5s
O MaxQueueChildren=64
O MaxRunnersPerQueue={runners}
O MinQueueAge={age}
O ServiceSwitchFile={folder}/switch
O PidFile={folder}/pid
"""
MAIN = """compatibility_level = 3.6
config_directory = {0}/etc
queue_directory = {0}/queue
data_directory = {0}/data
daemon_directory = /usr/lib/postfix/sbin
command_directory = /usr/sbin
shlib_directory = /usr/lib/postfix
mail_owner = daemon
setgid_group = games
inet_interfaces = 127.0.0.1
inet_protocols = ipv4
myhostname = mx.example
mydestination =
mynetworks = 127.0.0.0/8
alias_maps =
local_recipient_maps =
transport_maps = inline:{{ {{mx.example=prog:}}, {{box.example=lmtp:unix:{1}}},
    {{peer.example=smtp:[127.0.0.1]:{2}}}, {{void.example=smtp:[127.0.0.1]:9}} }}
disable_dns_lookups = yes
import_environment = MAIL_CONFIG TZ LD_PRELOAD
message_size_limit = 0
in_flow_delay = 0s
smtpd_peername_lookup = no
smtpd_client_connection_count_limit = 0
default_destination_concurrency_limit = {3}
minimal_backoff_time = 1d
maximal_backoff_time = 1d
"""
MASTER = """127.0.0.1:{0} inet n - n - 100 smtpd
cleanup unix n - n - 0 cleanup
{1}qmgr unix n - n 300 1 qmgr
rewrite unix - - n - - trivial-rewrite
bounce unix - - n - 0 bounce
defer unix - - n - 0 bounce
trace unix - - n - 0 bounce
verify unix - - n - 1 verify
proxymap unix - - n - - proxymap
smtp unix - - n - - smtp
lmtp unix - - n - - lmtp
error unix - - n - - error
retry unix - - n - - error
discard unix - - n - - discard
anvil unix - - n - 1 anvil
scache unix - - n - 1 scache
prog unix - n n - - pipe user=nobody argv=/bin/true
"""
OWNED = (
    "active bounce corrupt defer deferred flush hold incoming private saved trace public maildrop"
)


def below(number):
    """The process of that number and all below it."""
    found = [number]
    for place in found:
        try:
            tasks = list(Path(f"/proc/{place}/task").iterdir())
            for task in tasks:
                found += map(int, (task / "children").read_text().split())
        except OSError:
            pass
    return found


def is_loaded(number, library):
    """Whether a process, or one below it, has loaded a library."""
    for place in below(number):
        try:
            if str(library) in Path(f"/proc/{place}/maps").read_text():
                return True
        except OSError:
            pass
    return False


class Server:
    """What the three have in common."""

    slow = slow_sync = None

    def __init__(self, folder, box, peer):
        self.folder, self.box, self.peer, self.port = folder, box, peer, free_port()
        self.ports = [self.port]
        folder.mkdir()
        folder.chmod(0o755)
        self.clear()

    def clear(self):
        """A new queue. The one before stays until the end of all: a file system may make new files slowly
        where it has just lost many."""
        if (self.folder / "queue").exists():
            (self.folder / "queue").rename(self.folder / f"old{time.monotonic_ns()}")
        (self.folder / "queue").mkdir()

    @contextmanager
    def run(self, command):
        """A server that is up, and at its end killed with all that it began."""
        with subprocess.Popen(command, env=self.surroundings(), **QUIET) as run:
            try:
                wait_for(f"a port of {self.name}", lambda: is_heard(self.port), 0.001)
                if self.slow and not is_loaded(run.pid, self.slow):
                    raise Strange(f"{self.name} hasn't loaded {self.slow}")
                yield run
            finally:
                for number in reversed(below(run.pid)):
                    try:
                        os.kill(number, signal.SIGKILL)
                    except ProcessLookupError:
                        pass

    def environment(self):
        return dict(os.environ)

    def surroundings(self):
        """The environment, with what makes a disk slow, where that is asked for."""
        slow = {"LD_PRELOAD": str(self.slow), "SENDMAIL_SYNC": str(self.slow_sync)}
        return self.environment() | (slow if self.slow else {})

    @contextmanager
    def receiving(self):
        with self.run(self.command(False)) as run:
            yield run

    @contextmanager
    def serving(self):
        with self.run(self.command(True)) as run:
            yield run

    def wait_empty(self):
        wait_for(f"an empty queue of {self.name}", lambda: self.count() == 0, 0.005)


class Ours(Server):
    """The program of this repository."""

    name = "here"

    def __init__(self, program, *places):
        super().__init__(*places)
        self.program = str(program)

    def configure(self, runners, interval="1s", age="0s"):
        text = (HERE / "speed.cf").read_text()
        text += f"O MinQueueAge={age}\nQmqueue, P=@DIR@/queue, R={runners}, I={interval}\n"
        values = {"DIR": self.folder, "PORT": self.port, "PEER": self.peer, "BOX": self.box}
        for name, value in values.items():
            text = text.replace(f"@{name}@", str(value))
        (self.folder / "speed.cf").write_text(text)

    def command(self, does_deliver):
        self.configure(RUNNERS if does_deliver else 1, "1d")
        return [self.program, "-bd", f"-C{self.folder}/speed.cf"]

    @contextmanager
    def receiving(self):
        """The one runner is held by a message whose program doesn't end."""
        with super().receiving() as run:
            with smtplib.SMTP("127.0.0.1", self.port, "c.example", 60) as session:
                session.sendmail("bob@mx.example", ["hold@mx.example"], "Subject: hold\r\n\r\n")
            wait_for("a runner that is held", lambda: len(below(run.pid)) > 1)
            yield run
        for path in (self.folder / "queue").glob("?fw000000000001"):
            path.unlink()

    def deliver(self):
        """A queue run, from its start to its end."""
        self.configure(RUNNERS)
        command = [self.program, "-q", f"-C{self.folder}/speed.cf"]
        begun = time.monotonic()
        while self.count():
            ran = subprocess.run(command, check=False, timeout=600, **QUIET)
            if ran.returncode:
                raise Strange(f"-q ends with status {ran.returncode}")
        return time.monotonic() - begun

    def finds_none(self):
        """The seconds of a queue run that finds nothing due."""
        self.configure(RUNNERS, "1d", "1d")
        command = [self.program, "-q", f"-C{self.folder}/speed.cf"]
        begun = time.monotonic()
        ran = subprocess.run(command, check=False, timeout=600, **QUIET)
        if ran.returncode:
            raise Strange(f"-q ends with status {ran.returncode}")
        return time.monotonic() - begun

    def test_mode(self, config):
        """The command of address test mode."""
        return [self.program, "-bt", f"-C{config}"]

    def count(self):
        return sum(name.startswith("qf") for name in os.listdir(self.folder / "queue"))

    def multiply(self, entries):
        """Makes so many entries of one that waits."""
        queue = self.folder / "queue"
        control = next(queue.glob("qf*")).read_bytes()
        body = next(queue.glob("df*")).read_bytes()
        for number in range(1000, 1000 + entries - 1):
            (queue / f"qfw{number:012}").write_bytes(control)
            (queue / f"dfw{number:012}").write_bytes(body)


class Four(Server):
    """Four of the program, each with a queue and a port of its own."""

    name = "here"

    def __init__(self, program, folder, box, peer):
        self.folder, self.port = folder, None
        folder.mkdir()
        folder.chmod(0o755)
        self.parts = [Ours(program, folder / str(number), box, peer) for number in range(1, 5)]
        self.ports = [part.port for part in self.parts]

    def clear(self):
        for part in self.parts:
            part.clear()

    @contextmanager
    def receiving(self):
        with ExitStack() as ends:
            for part in self.parts:
                part.slow = self.slow
                ends.enter_context(part.receiving())
            yield None

    def count(self):
        return sum(part.count() for part in self.parts)


class Sendmail(Server):
    """Sendmail's own program, unpacked. Its host name has a dot, so that no look-up is waited
    for."""

    name = "Sendmail"

    def __init__(self, *places):
        super().__init__(*places)
        # The package's program is set-gid, and would drop the paths of its libraries.
        shutil.copyfile(Path(UNPACKED or "/", SENDMAIL), self.folder / "sendmail")
        (self.folder / "sendmail").chmod(0o755)
        (self.folder / "switch").write_text("hosts files\naliases files\npasswd files\n")

    def environment(self):
        paths = {str(path.parent) for path in Path(UNPACKED).glob("usr/lib/**/*.so*")}
        return dict(os.environ, TZ="UTC", LD_LIBRARY_PATH=":".join(sorted(paths)))

    def within(self, *words):
        inner = 'hostname mx.example; exec "$0" "$@"'
        own = [f"{self.folder}/sendmail", f"-C{self.folder}/speed.cf"]
        return ["unshare", "--uts", "sh", "-c", inner, *own, *words]

    def configure(self, mode, age="0"):
        text = HEAD.format(mode=mode, runners=RUNNERS, folder=self.folder, age=age)
        text += re.sub(r"^Mhold.*\n", "", (HERE / "speed.cf").read_text(), flags=re.MULTILINE)
        text = re.sub(r"^Rhold.*\n", "", text, flags=re.MULTILINE)
        values = {"DIR": self.folder, "PORT": self.port, "PEER": self.peer, "BOX": self.box}
        for name, value in values.items():
            text = text.replace(f"@{name}@", str(value))
        (self.folder / "speed.cf").write_text(text)

    def command(self, does_deliver):
        self.configure("background" if does_deliver else "queue")
        return self.within("-bD")

    def deliver(self):
        """A queue run, from its start to an empty queue."""
        self.configure("queue")
        begun = time.monotonic()
        while self.count():
            run = subprocess.Popen(self.within("-q"), env=self.surroundings(), **QUIET)
            run.wait(600)
            time.sleep(0.001)
            if time.monotonic() - begun > 600:
                raise Strange(f"{self.count()} entries are left by Sendmail")
        return time.monotonic() - begun

    def finds_none(self):
        """The same; it leaves that to processes which go on behind its end."""
        self.configure("queue", "1d")
        begun = time.monotonic()
        subprocess.run(self.within("-q"), env=self.surroundings(), timeout=600, check=False, **QUIET)
        wait_for("the end of a queue run", lambda: not self.is_busy(), 0.01)
        return time.monotonic() - begun

    def is_busy(self):
        """Whether a process of this copy of the program is there."""
        for path in Path("/proc").glob("[0-9]*/exe"):
            try:
                if os.readlink(path) == f"{self.folder}/sendmail":
                    return True
            except OSError:
                pass
        return False

    def test_mode(self, config):
        inner = 'hostname mx.example; exec "$0" "$@"'
        own = [f"{self.folder}/sendmail", "-bt", f"-C{config}"]
        return ["unshare", "--uts", "sh", "-c", inner, *own]

    def count(self):
        return sum(name.startswith("qf") for name in os.listdir(self.folder / "queue"))

    def multiply(self, entries):
        queue = self.folder / "queue"
        control, body = next(queue.glob("qf*")), next(queue.glob("df*"))
        texts, name = (control.read_bytes(), body.read_bytes()), control.name[2:8]
        for number in range(entries - 1):
            for kind, text in zip("qd", texts):
                path = queue / f"{kind}f{name}{number:08}"
                path.write_bytes(text)
                path.chmod(0o600)


class Postfix(Server):
    """Postfix, unpacked: its master runs where the folder's `usr` lies over the system's."""

    name = "Postfix"

    def clear(self):
        super().clear()
        queue = self.folder / "queue"
        for name in ("etc", "data"):
            (self.folder / name).mkdir(exist_ok=True)
        for name in OWNED.split():
            (queue / name).mkdir(mode=0o700)
            shutil.chown(queue / name, "daemon")
        for name, mode in (("public", 0o710), ("maildrop", 0o730)):
            shutil.chown(queue / name, "daemon", "games")
            (queue / name).chmod(mode)
        (queue / "pid").mkdir(mode=0o755)
        shutil.chown(self.folder / "data", "daemon")

    def command(self, does_deliver):
        """Without its queue manager it takes mail and delivers none."""
        text = MAIN.format(self.folder, self.box, self.peer, RUNNERS)
        (self.folder / "etc/main.cf").write_text(text)
        text = MASTER.format(self.port, "" if does_deliver else "# ")
        (self.folder / "etc/master.cf").write_text(text)
        return within(["/usr/lib/postfix/sbin/master", "-c", f"{self.folder}/etc", "-d"])

    def environment(self):
        return dict(os.environ, MAIL_CONFIG=f"{self.folder}/etc")

    def deliver(self):
        """From the master's start to an empty queue."""
        begun = time.monotonic()
        with self.serving():
            self.wait_empty()
            return time.monotonic() - begun

    def count(self):
        parts = (self.folder / "queue" / part for part in ("incoming", "active", "deferred"))
        return sum(len(files) for part in parts for _, _, files in os.walk(part))


def installed(program, folder, box, peer):
    """Those that are there."""
    yield Ours(program, folder / "ours", box, peer)
    if UNPACKED and is_there(SENDMAIL):
        yield Sendmail(folder / "sendmail", box, peer)
    if is_there("usr/lib/postfix/sbin/master"):
        yield Postfix(folder / "postfix", box, peer)
