"""Ten messages, and who they are for: the host of a recipient names the mailer of mailers.cf. And
the messages of a file of headers."""

from dataclasses import dataclass


@dataclass
class Message:
    """A name, the envelope, and the text with CR LF."""

    name: str
    sender: bytes
    recipients: tuple
    text: bytes


def lines(*texts):
    return b"".join(text + b"\r\n" for text in texts)


TO_ALL = (b"ann@local", b"ann@shell", b"ann@crlf", b"ann@bare")
WHOLE = (
    b"Date: Thu, 1 Jan 2026 00:00:00 +0100",
    b"From: Bob <bob@c.example>",
    b"To: ann@mx.example",
    b"Message-Id: <one@c.example>",
)
PLAIN = lines(b"Subject: hi", b"To: ann@mx.example", b"", b"hello")


def message(name, *texts, sender=b"bob@c.example", recipients=TO_ALL):
    return Message(name, sender, recipients, lines(*texts))


MESSAGES = [
    message("two headers", b"Subject: hi", b"To: ann@mx.example", b"", b"hello", b".", b"..a"),
    message("each header that is added is there", *WHOLE, b"X-Loop: no", b"", b"hello"),
    message(
        "folds and empty values",
        *WHOLE,
        b"Subject: a",
        b" folded\tvalue",
        b"\tand more ",
        b"X-Empty:",
        b"x-tight:x",
        b"X-Blanks:   x  ",
        b"",
        b" begins with a blank",
    ),
    message(
        "sent again",
        b"Resent-To: dan@d.example",
        b"Resent-From: cid@c.example",
        *WHOLE,
        b"",
        b"hello",
    ),
    message("a null sender", b"Subject: returned", b"", b"hello", sender=b""),
    message(
        "lines that look like others",
        *WHOLE,
        b"",
        b"From the beginning",
        b">From",
        b"Subject: no header",
        b"",
        b"",
        b"end",
    ),
    message(
        "8-bit bytes and long lines",
        *WHOLE,
        b"Subject: J\xfcrgen",
        b"",
        b"\xe4\xf6\xfc\x80\xff",
        b"x" * 989,
        b"y" * 991,
        b"z" * 2500,
    ),
    message("no body", *WHOLE),
    message("no headers", b"", b"hello"),
    message(
        "several users",
        *WHOLE,
        b"",
        b"hello",
        recipients=(b"ann@local", b"ben+x@local", b"c$u@crlf", b"dan@crlf", b"eve@shell"),
    ),
]


def header_messages(path):
    """The messages of a file in which each line is a header, with escapes as in Python, and a line
    `# RULE` stands before those of which RULE says why they differ, or `alike`."""
    rule = None
    for line in path.read_text().splitlines():
        if line.startswith("# "):
            rule = line[2:]
        elif line:
            header = line.encode().decode("unicode_escape").replace("\n", "\r\n").encode("latin-1")
            text = lines(header, b"Subject: hi", b"", b"hello")
            yield rule, Message(line, b"bob@c.example", (b"ann@kept.example",), text)
