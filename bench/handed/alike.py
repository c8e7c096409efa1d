"""What two programs handed over, and by which rules of the profile they differ."""

import re
from calendar import timegm
from email.utils import parsedate

RECEIVED = re.compile(rb"^Received:.*?\bid (\S+?);?\s.*?([A-Z][a-z]{2}, [^\r\n]*)", re.S | re.M)
ZONE = re.compile(rb"( \d\d:\d\d:\d\d) GMT(?=\r?\n)")
FRONT = re.compile(rb"^From (\S+)  ")


class Text:
    """The parts of a text: the line `From `, the headers, each with its folds, and the body."""

    def __init__(self, text):
        self.end = b"\r\n" if text.split(b"\n")[0].endswith(b"\r") else b"\n"
        self.front = text[: text.index(b"\n") + 1] if text.startswith(b"From ") else b""
        rest = text[len(self.front) :]
        block, _, self.body = (self.end + rest).partition(self.end + self.end)
        lines = re.split(rb"\r?\n(?![ \t])", block)[1:]
        self.headers = [line for line in lines if line]

    def bytes(self):
        block = b"".join(header + self.end for header in self.headers)
        return self.front + block + self.end + self.body


def name(header):
    return header.split(b":")[0].strip().lower()


def taken(text):
    """The id under which a text was taken in, and when, in seconds."""
    found = RECEIVED.search(text)
    return found[1], timegm(parsedate(found[2].decode()))


def moment(text, created):
    """When a text was handed over: its line `From ` says so, if it has one."""
    if not text.startswith(b"From "):
        return created
    return timegm(parsedate(text[: text.index(b"\n")].decode("latin-1").split("  ")[1].strip()))


def with_zone(text, _own):
    return ZONE.sub(rb"\1 +0000", text)


def with_blank(text, _own):
    return FRONT.sub(rb"From \1 ", text)


def with_daemon(text, _own):
    text = text.replace(b"From <> ", b"From MAILER-DAEMON ")
    return text.replace(b"\nFrom: <>", b"\nFrom:").replace(b"Return-Path: <<>>", b"Return-Path: <>")


def with_date(text, own):
    """Where a message was sent again without a date of that, `$a` is its date."""
    dates = {name(header): header for header in Text(own).headers if name(header).endswith(b"date")}
    if b"date" not in dates or b"resent-date" in dates:
        return text
    value = dates[b"date"].partition(b":")[2]
    return re.sub(rb"(?m)^Resent-Date:[^\r\n]*", b"Resent-Date:" + value, text)


def with_places(text, own):
    """The headers that H lines add stand behind those of the message."""
    parts = Text(text)
    names = {name(header) for header in Text(own).headers} | {b"received"}
    there = [header for header in parts.headers if name(header) in names]
    added = [header for header in parts.headers if name(header) not in names]
    parts.headers = there + added
    return parts.bytes()


# What is done to a text of Sendmail's own, so that it is what it would be here.
FORMS = {
    "the zone of a date is +0000, there GMT": with_zone,
    "one blank stands before the date of the line `From `, there two": with_blank,
    "the null sender is empty, and MAILER-DAEMON in that line; there it is `<>`": with_daemon,
    "the date of a message sent again is that of its Date, there of receipt": with_date,
    "headers are added behind those of the message, there in front": with_places,
}


def forms(ours, theirs, own):
    """The forms by which a text there becomes the one here, or None."""
    used = []
    for form, change in FORMS.items():
        changed = change(theirs, own)
        if changed != theirs:
            used.append(form)
        theirs = changed
    return used if ours == theirs else None
