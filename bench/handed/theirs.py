"""Sendmail's own program as it hands mail to a program that keeps what it gets."""

import os
import re
import subprocess
import time

KEEPER = """#!/bin/sh
folder=$(mktemp -d {0}/kept/XXXXXXXX)
for each in "$@"; do printf '%s\\n' "$each" >> "$folder/arguments"; done
cat > "$folder/draft" && mv "$folder/draft" "$folder/text"
"""
SWITCH = "hosts files\naliases files\npasswd files\n"
STEPS = 600


class Strange(Exception):
    """A reply, or a delivery, that isn't as it must be."""


class Handed:
    """What a program got: its arguments, and its input."""

    def __init__(self, arguments, text):
        self.arguments, self.text = arguments, text


class Theirs:
    """The program of a folder of unpacked packages, over a folder of its own."""

    def __init__(self, unpacked, folder):
        self.unpacked, self.folder = unpacked, folder
        for name in ("kept", "queue"):
            (folder / name).mkdir()
            (folder / name).chmod(0o777)
        keeper = folder / "keeper"
        keeper.write_text(KEEPER.format(folder))
        keeper.chmod(0o755)
        (folder / "switch").write_text(SWITCH)
        # The package's program is set-gid, and would drop the paths of its libraries.
        self.program = folder / "sendmail"
        self.program.write_bytes((unpacked / "usr/libexec/sendmail/sendmail").read_bytes())
        self.program.chmod(0o755)
        paths = [str(path.parent) for path in unpacked.glob("**/*.so*")]
        self.environment = dict(os.environ, TZ="UTC", LD_LIBRARY_PATH=":".join(sorted(set(paths))))

    def configuration(self, name, text):
        """A file of a configuration, in which @DIR@ is the folder."""
        path = self.folder / name
        path.write_text(text.replace("@DIR@", str(self.folder)))
        return path

    def expanded(self, text):
        """What m4 makes of a configuration's macros."""
        command = [
            self.unpacked / "usr/bin/m4",
            f"-D_CF_DIR_={self.unpacked}/usr/share/sendmail/cf/",
            self.unpacked / "usr/share/sendmail/cf/m4/cf.m4",
            "-",
        ]
        ran = subprocess.run(
            command, input=text, env=self.environment, capture_output=True, check=True, text=True
        )
        return ran.stdout

    def hand(self, config, sender, recipients, message):
        """Takes a message by SMTP, delivers it, and gives what each start of the keeper got."""
        before = set((self.folder / "kept").iterdir())
        # The host name has a dot, so that no look-up of it is waited for.
        command = ["unshare", "--uts", "sh", "-c", 'hostname mx.example; exec "$0" "$@"']
        command += [str(self.program), "-bs", "-C", str(config)]
        with Session(command, self.environment) as session:
            session.ask(b"EHLO c.example")
            session.ask(b"MAIL FROM:<" + sender + b">")
            for recipient in recipients:
                session.ask(b"RCPT TO:<" + recipient + b">")
            session.ask(b"DATA", b"354")
            lines = re.sub(rb"(?m)^\.", b"..", message)
            session.ask(lines + b".")
            session.ask(b"QUIT", b"221")
        return self.kept(before)

    def kept(self, before):
        """What came since then. Deliveries end before the session does."""
        for _ in range(STEPS):
            folders = sorted(set((self.folder / "kept").iterdir()) - before)
            if folders and all((folder / "text").exists() for folder in folders):
                return [handed(folder) for folder in folders]
            time.sleep(0.01)
        raise Strange("nothing was delivered")


def handed(folder):
    arguments = folder / "arguments"
    lines = arguments.read_bytes().splitlines() if arguments.exists() else []
    return Handed(lines, (folder / "text").read_bytes())


class Session:
    """A session that waits for each reply."""

    def __init__(self, command, environment):
        pipe = subprocess.PIPE
        self.process = subprocess.Popen(command, stdin=pipe, stdout=pipe, env=environment)
        self.expect(b"220")

    def __enter__(self):
        return self

    def __exit__(self, *_):
        self.process.stdin.close()
        self.process.stdout.close()
        self.process.wait()

    def expect(self, code):
        line = self.process.stdout.readline()
        while line[3:4] == b"-":
            line = self.process.stdout.readline()
        if line[:3] != code:
            raise Strange(f"{line!r}, and not {code.decode()}")

    def ask(self, line, code=b"250"):
        self.process.stdin.write(line + b"\r\n")
        self.process.stdin.flush()
        self.expect(code)
