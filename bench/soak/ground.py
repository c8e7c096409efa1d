"""Where the server runs: its configuration, its disk, its peers, and a keeper that starts it anew."""

import os
import resource
import shutil
import socket
import subprocess
import threading
import time
from collections import Counter
from pathlib import Path

from peers import Peer
from sites import HERE, Strange, expect, free_port, is_heard, wait_for

# The bytes of the queue's disk.
DISK = 64 << 20
# Times for peers are divided by this: a reply is waited for a second and a half.
HASTE = "200"
# The directories of the queue's groups. In the second one is what goes to the peer that stalls.
GROUPS = ("queue", "slow")


class Staller:
    """A peer that takes connections, and says nothing."""

    def __init__(self):
        self.listener = socket.create_server(("127.0.0.1", 0), backlog=64)
        self.place = self.listener.getsockname()[1]
        threading.Thread(target=self.accept, daemon=True).start()

    def accept(self):
        while True:
            line, _ = self.listener.accept()
            threading.Thread(target=self.wait, args=[line], daemon=True).start()

    def wait(self, line):
        with line:
            try:
                while line.recv(4096):
                    pass
            except OSError:
                pass


class Refuser(Peer):
    """A peer that refuses each recipient."""

    def reply_to(self, user):
        return b"550 5.7.1 not here\r\n"


class Server:
    """The server, which is started anew whenever it ends, until it is told to stop."""

    def __init__(self, ground, descriptors=None):
        self.ground, self.descriptors = ground, descriptors
        self.ends, self.is_over, self.run = Counter(), False, None
        self.keeper = threading.Thread(target=self.keep, daemon=True)
        self.keeper.start()
        wait_for("a port that is listened at", lambda: is_heard(ground.port))

    def limit(self):
        if self.descriptors:
            resource.setrlimit(resource.RLIMIT_NOFILE, (self.descriptors, self.descriptors))

    def keep(self):
        while not self.is_over:
            with open(self.ground.errors, "ab") as errors:
                self.run = subprocess.Popen(
                    self.ground.command("-bd", "-q2s"),
                    env={"SENDMAIL_HASTE": HASTE},
                    stderr=errors,
                    preexec_fn=self.limit,
                )
            status = self.run.wait()
            if not self.is_over:
                self.ends[status] += 1
                time.sleep(0.3)

    def descriptors_open(self):
        found = []
        for path in Path(f"/proc/{self.run.pid}/fd").iterdir():
            try:
                found.append(os.readlink(path))
            except FileNotFoundError:
                pass
        return sorted(found)

    def memory(self):
        """The bytes that it has in memory."""
        text = Path(f"/proc/{self.run.pid}/status").read_text()
        return int(text.partition("VmRSS:")[2].split()[0]) * 1024

    def stop(self):
        self.is_over = True
        self.run.terminate()
        self.keeper.join()
        return self.ends


class Ground:
    """What all parts share."""

    def __init__(self, program, folder, has_disk):
        self.program, self.folder, self.has_disk = str(program), folder, has_disk
        self.errors = folder / "errors"
        self.peer, self.box = Peer(), Peer(folder / "box")
        self.stall, self.refuse = Staller(), Refuser()
        self.port = free_port()
        for name in ("begun", "kept", "seen", "disk"):
            (folder / name).mkdir()
        shutil.copy(HERE / "keeper", folder / "keeper")
        if has_disk:
            mount = ["mount", "-t", "tmpfs", "-o", f"size={DISK}", "queue", folder / "disk"]
            subprocess.run(mount, check=True)
        for name in GROUPS:
            (folder / "disk" / name).mkdir()
        self.configure("1d")

    def configure(self, back):
        text = (Path(__file__).resolve().parent / "soak.cf").read_text()
        values = {"DIR": self.folder, "PORT": self.port, "RETURN": back, "BOX": self.box.place}
        values |= {"PEER": self.peer.place, "STALL": self.stall.place}
        values |= {"REFUSE": self.refuse.place}
        for name, value in values.items():
            text = text.replace(f"@{name}@", str(value))
        (self.folder / "soak.cf").write_text(text)

    def command(self, *mode):
        return [self.program, *mode, f"-C{self.folder}/soak.cf"]

    def said(self, mode):
        ran = subprocess.run(
            self.command(mode), capture_output=True, env={"SENDMAIL_HASTE": HASTE}, check=False
        )
        expect(f"status of {mode}, which says {ran.stderr!r}", ran.returncode, 0)
        return ran.stdout.decode("latin-1").splitlines()

    def fill(self):
        """Leaves nothing of the disk."""
        path = self.folder / "disk/filler"
        with open(path, "wb", buffering=0) as it:
            try:
                while it.write(b"x" * 4096):
                    pass
            except OSError:
                pass
        return path

    def is_working(self):
        """Whether a mailer runs."""
        for path in Path("/proc").glob("[0-9]*/cmdline"):
            try:
                if f"{self.folder}/keeper".encode() in path.read_bytes():
                    return True
            except OSError:
                pass
        return False

    def settle(self):
        wait_for("the mailers' end", lambda: not self.is_working())

    def control_texts(self):
        for path in (self.folder / "disk").glob("*/[qs]f*"):
            try:
                yield path.name[2:], path.read_text("latin-1")
            except FileNotFoundError:
                pass

    def close(self):
        if self.has_disk:
            subprocess.run(["umount", "-l", self.folder / "disk"], check=False)


__all__ = ["Ground", "Server", "Strange"]
