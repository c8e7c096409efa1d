"""Cases over servers of scripts: what each does, what it must hear, and what the rows must be."""

import random
from dataclasses import dataclass, field

from program import Letter
from scripted import DRIPS, LISTED, Scripted
from talks import CLOSED, STALLED

# Nobody listens there; no such socket.
REFUSES, ABSENT = "refuses", "absent"
ASKS = "EHLO MAIL RCPT RCPT RCPT"
WHOLE = f"{ASKS} DATA . QUIT"
LMTP = WHOLE.replace("EHLO", "LHLO")
# Each step, and what the server has heard by then.
STEPS = {
    "greeting": "",
    "EHLO": "EHLO",
    "MAIL": "EHLO MAIL",
    "RCPT 2": "EHLO MAIL RCPT RCPT",
    "DATA": f"{ASKS} DATA",
    ".": f"{ASKS} DATA .",
}
SENT, LOST, FAULT = "sent", f"deferred {CLOSED}", f"deferred {STALLED}"
BAD = "deferred bad reply"
# With this haste a peer may take 0.6 seconds for a reply, 1.2 behind a message, 1.8 in all.
HASTE = 500
CID = [SENT, None, SENT]


@dataclass
class Case:
    name: str
    # Each server, or one of the words above.
    hosts: list
    # What each server hears.
    says: list
    rows: list
    letter: Letter = field(default_factory=Letter)
    speech: str = "smtp"
    haste: int = None
    # Seconds that it takes at least.
    least: float = 0


def one(name, script, says, rows, pace="whole", listed=LISTED, **more):
    """A case of one server of SMTP."""
    rows = rows if isinstance(rows, list) else [rows] * 3
    return Case(name, [Scripted(script, listed, pace=pace)], [says], rows, **more)


def lmtp(name, script, rows, says=LMTP, pace="whole", **more):
    """A case of one server of LMTP."""
    rows = rows if isinstance(rows, list) else [rows] * 3
    server = Scripted(script, is_lmtp=True, pace=pace)
    return Case(name, [server], [says], rows, speech="lmtp", **more)


def refusals():
    """A reply that refuses at each step."""
    for step, heard in STEPS.items():
        for code, front in (("451", "deferred"), ("554", "failed 5.0.0")):
            script = {step: f"{code} 0.0.0 not {step}\r\n".encode()}
            row, says = f"{front} {code} 0.0.0 not {step}", f"{heard} QUIT".strip()
            rows = [row] * 3
            if step == "RCPT 2":
                rows, says = [SENT, row, SENT], WHOLE
            if (step, code) == ("EHLO", "554"):
                rows, says = [SENT] * 3, f"EHLO HELO {WHOLE[5:]}"
            yield one(f"{code} at {step}", script, says, rows)
    no, later = b"550 5.1.1 no such user\r\n", b"451 4.2.1 not now\r\n"
    row = "failed 5.0.0 550 5.1.1 no such user"
    yield one("550 for one of three", {"RCPT 2": no}, WHOLE, [SENT, row, SENT])
    yield one("550 for each", {"RCPT": no}, f"{ASKS} QUIT", row)
    rows = ["deferred 451 4.2.1 not now", row, SENT]
    yield one("451, 550 and 250", {"RCPT 1": later, "RCPT 2": no}, WHOLE, rows)
    script = {"RCPT 1": later, "RCPT 2": no, ".": b"452 full\r\n"}
    yield one("452 behind them", script, WHOLE, [*rows[:2], "deferred 452 full"])
    heard = "EHLO HELO QUIT"
    for code, front in (("451", "deferred"), ("502", "failed 5.0.0")):
        script = {"EHLO": b"500 what\r\n", "HELO": f"{code} no\r\n".encode()}
        yield one(f"500 at EHLO, {code} at HELO", script, heard, f"{front} {code} no")
    script = {"QUIT": b"500 stay\r\n"}
    yield one("500 at QUIT", script, WHOLE, SENT)
    yield one("closed at QUIT", {"QUIT": CLOSED}, WHOLE, SENT)


def breaks():
    """A line that ends, and a peer that is silent, at each step."""
    for step, heard in STEPS.items():
        yield one(f"closed at {step}", {step: CLOSED}, heard, LOST)
        yield one(f"cut short at {step}", {step: (b"250-ok\r\n25", CLOSED)}, heard, LOST)
        slow = {"haste": HASTE, "least": 1.2 if step == "." else 0.6}
        yield one(f"silent at {step}", {step: STALLED}, heard, FAULT, **slow)
    slow = {"haste": HASTE, "least": 1.8}
    yield one("a reply that never ends", {"MAIL": DRIPS}, "EHLO MAIL", FAULT, **slow)
    slow = {"haste": HASTE, "least": 0.6, "letter": Letter(message=b"hello\r\n" * 5_000_000)}
    yield one("the message isn't read", {"text": STALLED}, f"{ASKS} DATA", FAULT, **slow)
    script = {"RCPT 1": b"550 no\r\n", "RCPT 3": CLOSED}
    yield one("closed behind a 550", script, ASKS, ["failed 5.0.0 550 no", LOST, LOST])


def spellings():
    """Replies in lines and pieces, and such as are none."""
    for step, heard in STEPS.items():
        code = b"354" if step == "DATA" else b"250"
        two = code + b"-one\r\n" + code + b" two\r\n"
        yield one(f"two lines at {step}", {step: two}, WHOLE, SENT)
        for name, reply in (
            ("two codes", code + b"-one\r\n251 two\r\n"),
            ("a long line", code + b" " + b"x" * 2043 + b"\r\n"),
            ("101 lines", (code + b"-x\r\n") * 100 + code + b" x\r\n"),
            ("no code", b"ok\r\n"),
            ("a code of no use", b"354 no\r\n" if code == b"250" else b"250 no\r\n"),
        ):
            yield one(f"{name} at {step}", {step: reply}, heard, BAD)
    yield one("each byte alone", {}, WHOLE, SENT, pace="bytes")
    no = b"550-no\r\n550 at all\r\n"
    rows = [SENT, "failed 5.0.0 550 no", SENT]
    yield one("each byte of a 550 alone", {"RCPT 2": no}, WHOLE, rows, pace="bytes")
    yield one("LF alone ends lines", {"MAIL": b"250-a\n250 b\n"}, WHOLE, SENT)
    yield one("a code alone", {"MAIL": b"250\r\n"}, WHOLE, SENT)
    most = (b"250-" + b"x" * 2042 + b"\r\n") * 99 + b"250 " + b"x" * 2042 + b"\r\n"
    yield one("the longest reply", {"MAIL": most}, WHOLE, SENT)
    long = b"550 " + b"x" * 600 + b"\r\n"
    yield one("a long note", {".": long}, WHOLE, "failed 5.0.0 550 " + "x" * 508)


def letters():
    """Messages, marks of 8 bits, and addresses."""
    drawn = random.Random(57)
    lines = [bytes(drawn.choices(b".ab\r\n\x00\xff", k=drawn.randrange(90))) for _ in range(40_000)]
    for name, message in (
        ("leading dots, and no end", b"Subject: hi\r\n\r\n.\r\n..\r\n.a\r\nb.\r\n.no end"),
        ("no message", b""),
        ("a dot", b"."),
        ("a CR at the end", b"a\r"),
        ("LF and CR alone", b"a\n.b\n.\nc\r.d\r\r\n.e\n\r\n.\n"),
        ("each byte", bytes(range(256)) * 9),
        ("many lines", b"\r\n".join(lines)),
    ):
        yield one(f"message: {name}", {}, WHOLE, SENT, letter=Letter(message=message))
        yield lmtp(f"message by LMTP: {name}", {}, SENT, letter=Letter(message=message))
    for listed in ((b"SIZE", b"8bitmime"), (b"8BITMIME X", b"SIZE"), ()):
        for is_eight in (True, False):
            name = f"{b' and '.join(listed).decode() or 'nothing'} listed, 8 bits {is_eight}"
            letter = Letter(is_eight=is_eight, message=b"\xe4\r\n")
            yield one(name, {}, WHOLE, SENT, listed=listed, letter=letter)
    script, says = {"EHLO": b"500-8BITMIME\r\n500 8BITMIME\r\n"}, f"EHLO HELO {WHOLE[5:]}"
    yield one("8 bits behind HELO", script, says, SENT, letter=Letter(is_eight=True))
    yield one("no sender", {}, WHOLE, SENT, letter=Letter(sender=b""))
    bad = "failed 5.1.3 bad address"
    letter = Letter(users=(b"ann@d.example", b"c\rid@d.example", b"dan@d.example"))
    says = WHOLE.replace("RCPT ", "", 1)
    yield one("a CR in a recipient", {}, says, [SENT, bad, SENT], letter=letter)
    yield one("a CR in the sender", {}, "", bad, letter=Letter(sender=b"b\rob"))


def queues():
    """LMTP, by a Unix socket."""
    over = b"452 4.2.2 over quota\r\n"
    rows = [SENT, "deferred 452 4.2.2 over quota", SENT]
    for pace in ("whole", "bytes", "joined"):
        yield lmtp(f"all are taken, {pace}", {}, SENT, pace=pace)
        yield lmtp(f"one is over quota, {pace}", {". 2": over}, rows, pace=pace)
    script = {". 1": over, ". 3": b"554 5.6.0 no\r\n"}
    yield lmtp("452, 250 and 554", script, [rows[1], SENT, "failed 5.0.0 554 5.6.0 no"])
    script = {"RCPT 2": b"550 no\r\n", ". 2": over}
    yield lmtp("550, and one is over quota", script, [SENT, "failed 5.0.0 550 no", rows[1]])
    heard = LMTP.removesuffix(" QUIT")
    yield lmtp("closed behind the message", {".": CLOSED}, LOST, heard)
    yield lmtp("closed after one reply", {". 2": CLOSED}, [SENT, LOST, LOST], heard)
    yield lmtp("a bad reply after one", {". 2": b"ok\r\n"}, [SENT, BAD, BAD], heard)
    slow = {"haste": HASTE, "least": 1.2}
    yield lmtp("silent after one reply", {". 2": STALLED}, [SENT, FAULT, FAULT], heard, **slow)
    yield lmtp("500 at LHLO", {"LHLO": b"500 what\r\n"}, "failed 5.0.0 500 what", "LHLO QUIT")
    yield lmtp("451 at DATA", {"DATA": b"451 no\r\n"}, "deferred 451 no", heard[:-2] + " QUIT")


def hosts():
    """Several hosts, in order."""
    busy = Scripted({"greeting": b"421 4.3.2 busy\r\n"})
    for name, first, says in (
        ("the first refuses", REFUSES, None),
        ("the first isn't there", ABSENT, None),
        ("421 of the first", busy, "QUIT"),
        ("the first closes", Scripted({"greeting": CLOSED}), ""),
        ("the first speaks otherwise", Scripted({"greeting": b"ok\r\n"}), ""),
    ):
        yield Case(f"{name}, the second takes", [first, Scripted()], [says, WHOLE], [SENT] * 3)
    first = Scripted({"greeting": STALLED})
    slow = {"haste": HASTE, "least": 0.6}
    yield Case("the first is silent", [first, Scripted()], ["", WHOLE], [SENT] * 3, **slow)
    three = [REFUSES, Scripted({"greeting": b"421 no\r\n"}), Scripted()]
    yield Case("the third takes", three, [None, "QUIT", WHOLE], [SENT] * 3)
    for name, script, says, row in (
        ("554 of the first", {"greeting": b"554 no\r\n"}, "QUIT", "failed 5.0.0 554 no"),
        ("451 at MAIL of the first", {"MAIL": b"451 no\r\n"}, "EHLO MAIL QUIT", "deferred 451 no"),
        ("the first closes at MAIL", {"MAIL": CLOSED}, "EHLO MAIL", LOST),
    ):
        yield Case(f"{name}, no second", [Scripted(script), Scripted()], [says, ""], [row] * 3)
    last = Scripted({"greeting": b"421 no\r\n"})
    yield Case("the last has a 421", [REFUSES, last], [None, "QUIT"], ["deferred 421 no"] * 3)
    yield Case("each refuses", [REFUSES, REFUSES], [None, None], [FAULT] * 3)
    yield Case("no host", [], [], ["failed 5.1.2 no host known"] * 3)


def all_cases():
    yield one("all is taken", {}, WHOLE, SENT)
    for cases in (refusals, breaks, spellings, letters, queues, hosts):
        yield from cases()
