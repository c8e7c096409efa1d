"""Reads the entries of a queue's files, as `sendmail -bs` here and Sendmail's own leave them."""

import re
from dataclasses import dataclass


@dataclass
class Entry:
    """A message of the queue, its body with CR LF at each line's end."""

    id: str
    sender: str
    recipients: list
    headers: list
    body: bytes
    is_eight: bool
    protocol: str
    helo: str
    group: str
    client: str

    def header(self, name):
        """The value of the first header of that name."""
        for line in self.headers:
            own, _, value = line.partition(":")
            if own.lower() == name.lower():
                return value.strip()
        return None


class Strange(Exception):
    """What a queue's folder must not have."""


def entries(folder, reads):
    """The entries below a folder, by id; each control file has its body beside it, and nothing else
    is there."""
    paths = [path for path in folder.rglob("*") if path.is_file()]
    controls = [path for path in paths if path.name.startswith("qf")]
    controls.sort(key=lambda path: path.name)
    names = {str(path)[len(str(folder)) :] for path in paths}
    wanted = set()
    for path in controls:
        front = str(path.parent)[len(str(folder)) :]
        wanted |= {f"{front}/qf{path.name[2:]}", f"{front}/df{path.name[2:]}"}
    if names != wanted:
        raise Strange(f"files that are no entry's: {sorted(names ^ wanted)}")
    return [reads(path) for path in controls]


def body_of(path):
    return path.with_name("df" + path.name[2:]).read_bytes()


OURS = re.compile(
    r"V1\nv\d+\n(?:pw\d{12} \d+\n)?g(?P<group>[^\n]+)\nT\d+\nK\d+\nN\d+\nP-?\d+\nc-?\d+\n"
    r"(?P<eight>B8BITMIME\n)?S(?P<sender><[^\n]*>)\n"
    r"\$r(?P<protocol>[^\n]*)\n\$s(?P<helo>[^\n]*)\n\$\{client_addr\}(?P<client>[^\n]*)\n"
    r"(?P<rows>(?:RPFD:[^\n]+\neQ[^\n]*\n)+)(?P<headers>(?:H[^\n]*\n(?:[ \t][^\n]*\n)*)*)\.\n"
)


def our_entry(path):
    """An entry whose control text is of version 1: each row is primary and queued. It may have been
    tried, by a mailer that isn't there."""
    text = path.read_bytes().decode("latin-1")
    found = OURS.fullmatch(text)
    if found is None:
        raise Strange(f"{path.name} isn't of version 1, or is done: {text[:400]!r}")
    return Entry(
        id=path.name[2:],
        sender=found["sender"],
        recipients=re.findall(r"^RPFD:(.*)$", found["rows"], re.MULTILINE),
        headers=re.findall(r"^H([^\n]*(?:\n[ \t][^\n]*)*)", found["headers"], re.MULTILINE),
        body=body_of(path),
        is_eight=found["eight"] is not None,
        protocol=found["protocol"],
        helo=found["helo"],
        group=found["group"],
        client=found["client"],
    )


def their_entry(path):
    """An entry of Sendmail's own program, whose bodies have LF at each line's end."""
    text = path.read_bytes().decode("latin-1")

    def field(pattern):
        found = re.search(pattern, text, re.MULTILINE)
        return found and found[1]

    return Entry(
        id=path.name[2:],
        sender=field(r"^S(.*)$"),
        recipients=re.findall(r"^R[A-Z]*:(.*)$", text, re.MULTILINE),
        headers=re.findall(r"^H\?[^?]*\?([^\n]*(?:\n[ \t][^\n]*)*)", text, re.MULTILINE),
        body=body_of(path).replace(b"\n", b"\r\n"),
        is_eight=field(r"^(B8BITMIME)$") is not None,
        protocol=field(r"^\$r(.*)$"),
        helo=field(r"^\$s(.*)$"),
        group="bulk" if path.parent.name == "bulk" else "mqueue",
        client=field(r"^\$_.*\[(.*)\]$") or "",
    )
