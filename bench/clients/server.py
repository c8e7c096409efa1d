"""The program by `-bs` over a queue of its own, by the configuration beside this file."""

import shutil
from pathlib import Path

from queued import entries, our_entry, their_entry

HERE = Path(__file__).resolve().parent
BUILT = HERE.parent.parent / "crates/sendmail/out/sendmail"
THEIR_HEAD = [
    "V10/Berkeley",
    "O DeliveryMode=queue",
    "O MaxMessageSize=16777216",
    "O AuthMechanisms=NONE",
]
THEIR_LESS = ("O AliasFile=", "O HostsFile=")


class Server:
    """The program over a queue of its own."""

    def __init__(self, command, is_theirs, folder):
        self.folder, self.is_theirs = folder, is_theirs
        self.config = folder / "sendmail.cf"
        lines = (HERE / "example.cf").read_text().replace("@DIR@", str(folder)).splitlines()
        if is_theirs:
            lines = THEIR_HEAD + [theirs(line) for line in lines if not line.startswith(THEIR_LESS)]
        self.config.write_text("\n".join(lines) + "\n")
        (folder / "aliases").write_text("")
        (folder / "hosts").write_text("127.0.0.1 far.example far\n127.0.0.1 c.example\n")
        self.command = [*command.split(), "-bs", "-C", str(self.config)]

    def clear(self):
        shutil.rmtree(self.folder / "queue", ignore_errors=True)
        (self.folder / "queue/bulk").mkdir(parents=True)

    def entries(self):
        reads = their_entry if self.is_theirs else our_entry
        return entries(self.folder / "queue", reads)


def theirs(line):
    """Without the flags that ask for users of the machine."""
    return line.replace("F=lsDFMAw5n", "F=lsDFMAn")
