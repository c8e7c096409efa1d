"""What each client hands over, and what must come of it.

What is said in a session stands as commands and the codes of their replies, `RCPT 250*3` for three
of a kind, ` / ` between sessions, and ` | ` between ways of which one is taken; a dot stands for the
end of data, `gone` for data without an end, and `none` for no reply. In front of each stands the
greeting.
"""

import re
import smtplib
from dataclasses import dataclass, field
from pathlib import Path
from typing import Callable

from callers import ANN, BOB, Mail, curl, curl_asks, git_send_email, msmtp, patch_body
from callers import smtp_source, smtplib_call, swaks


@dataclass
class Stored:
    """An entry that must be in the queue. A body that only the call knows is made of its place."""

    body: bytes | Callable = b"hello\r\n"
    recipients: list = field(default_factory=lambda: [ANN])
    sender: str = BOB
    is_eight: bool = False
    group: str = "mqueue"
    client: str = ""
    protocol: str = "ESMTP"
    subject: str | None = "hi"


@dataclass
class Case:
    """`gives` is what the client says of it, `sent` has patterns of what it must send between two
    answers, and `theirs` the fields in which Sendmail's own program differs. A direct one has the
    connection itself as the program's input and output."""

    client: str
    name: str
    call: Callable
    said: str
    stored: list = field(default_factory=list)
    gives: object = 0
    sent: tuple = ()
    theirs: dict = field(default_factory=dict)
    is_direct: bool = False


def stored(mail, **more):
    """What a message becomes."""
    made = {"body": mail.body(), "recipients": mail.recipients, "sender": mail.sender}
    return Stored(**{**made, "subject": mail.subject, **more})


def named(count):
    return [f"u{number}@mx.example" for number in range(count)]


def talk(recipients="RCPT 250", hello="EHLO 250", times=1):
    """A session of messages that are stored."""
    return f"{hello}" + f", MAIL 250, {recipients}, DATA 354, . 250" * times + ", QUIT 221"


HELO = "HELO 250"
SIZE = rb"(?i)MAIL FROM:[^\n]* SIZE=\d+\r\n"
REFUSED = "refused@mx.example"
CAT = "cat@far.example"
FAR = [f"u{number}@far.example" for number in range(250)]
HI = Mail()
DOTS = Mail([b".", b"..", b".dot", b"..two", b"a.", b""], subject="dots")
LONG = Mail([b"x" * 998, b"y" * 5000, b"." + b"z" * 70000, b"end"], subject="long lines")
EIGHT = Mail(["Gr\u00fc\u00dfe \u20ac".encode(), bytes(range(128, 256)), b"end"], subject="8-bit")
HUGE = Mail([b"h" * 76] * 220_000, subject="huge")
NULL = Mail(sender="", subject="from nobody")
BAD = Mail(recipients=[REFUSED])
SOME = Mail(recipients=named(250), subject="many")
SPLIT = Mail(recipients=FAR, subject="in parts")
MIXED = Mail(recipients=[ANN, REFUSED, CAT], subject="one refused")
ONE_REFUSED = "RCPT 250, RCPT 550, RCPT 250"
LEFT = [stored(MIXED, recipients=[ANN]), stored(MIXED, recipients=[CAT], group="bulk")]
PARTS = [stored(SPLIT, recipients=FAR[at : at + 100], group="bulk") for at in (0, 100, 200)]
BODIES = [("lines with dots", DOTS), ("long lines", LONG), ("8-bit, not declared", EIGHT)]


def plain_cases(client, hands):
    """The cases that each client of a shell has which greets by EHLO."""
    for name, mail in [("an ordinary message", HI), *BODIES]:
        yield Case(client, name, hands(mail), talk(), [stored(mail)])


def swaks_cases():
    def case(name, call, said, wanted=(), **more):
        return Case("swaks", name, call, said, list(wanted), **more)

    asks = ["--tls-optional", "--auth-optional", "--auth-user", "u", "--auth-password", "p"]
    pipelined = (rb"MAIL [^\n]*\n(RCPT [^\n]*\n)+DATA\r\n",)
    yield from plain_cases("swaks", swaks)
    old = [stored(HI, protocol="SMTP")]
    yield case("HELO", swaks(HI, "--protocol", "SMTP"), talk(hello=HELO), old)
    yield case("pipelined", swaks(HI, "--pipeline"), talk(), [stored(HI)], sent=pipelined)
    call = swaks(MIXED, "--pipeline")
    yield case("pipelined, one refused", call, talk(ONE_REFUSED), LEFT, sent=pipelined)
    said = "EHLO 250, MAIL 250, RCPT 550, DATA 503, QUIT 221"
    call = swaks(BAD, "--pipeline")
    yield case("pipelined, all refused", call, said, gives=24, sent=pipelined)
    call = swaks(SOME, "--pipeline")
    yield case("250 recipients, pipelined", call, talk("RCPT 250*250"), [stored(SOME)])
    yield case("one refused", swaks(MIXED), talk(ONE_REFUSED), LEFT)
    yield case("from nobody", swaks(Mail(sender="<>")), talk(), [Stored(sender="")])
    begun = "EHLO 250, MAIL 250, RCPT 250"
    call = swaks(HI, "--quit-after", "RCPT")
    yield case("QUIT in mid-transaction", call, f"{begun}, QUIT 221")
    yield case("gone in mid-transaction", swaks(HI, "--drop-after", "RCPT"), begun)
    call = swaks(HI, "--drop-after", "DATA")
    yield case("gone in mid-data", call, f"{begun}, DATA 354, gone none")
    yield case("TLS and AUTH where offered", swaks(HI, *asks), talk(), [stored(HI)])
    said = f"{begun}, DATA 354, . 552, QUIT 221"
    yield case("too large, without SIZE", swaks(HUGE), said, gives=26)


def msmtp_cases():
    yield from plain_cases("msmtp", msmtp)
    said, sent = talk("RCPT 250*250"), (rb"(RCPT [^\n]*\n){20}",)
    name = "250 recipients, pipelined"
    yield Case("msmtp", name, msmtp(SOME), said, [stored(SOME)], sent=sent)
    said = f"EHLO 250, MAIL 250, {ONE_REFUSED}, DATA 354, gone none"
    # Sendmail's own program refuses DATA where it sees before its reply that the client is gone.
    theirs = {"said": f"{said} | EHLO 250, MAIL 250, {ONE_REFUSED}, DATA 554"}
    yield Case("msmtp", "one refused", msmtp(MIXED), said, gives=65, theirs=theirs)
    said = "EHLO 250, MAIL 250, RCPT 550, DATA 503"
    yield Case("msmtp", "all refused", msmtp(BAD), said, gives=65)


def curl_cases():
    def case(name, call, said, wanted=(), **more):
        return Case("curl", name, call, said, list(wanted), **more)

    yield from plain_cases("curl", curl)
    yield case("SIZE", curl(HI), talk(), [stored(HI)], sent=(SIZE,))
    yield case("250 recipients in parts", curl(SPLIT), talk("RCPT 250*250"), PARTS)
    said = "EHLO 250, MAIL 250, RCPT 250, RCPT 550, QUIT 221"
    yield case("one refused", curl(MIXED), said, gives=55)
    call = curl(MIXED, more=["--mail-rcpt-allowfails"])
    yield case("one refused, which is allowed", call, talk(ONE_REFUSED), LEFT)
    said = "EHLO 250, MAIL 552, QUIT 221"
    yield case("SIZE too large", curl(HUGE), said, gives=55, sent=(SIZE,))
    mails = [HI, DOTS, EIGHT]
    yield case("three messages", curl(*mails), talk(times=3), map(stored, mails))
    yield case("TLS where offered", curl(HI, more=["--ssl"]), talk(), [stored(HI)])

    def asking(verb, code, *words, **more):
        return case(verb, curl_asks(*words), f"EHLO 250, {verb} {code}, QUIT 221", **more)

    theirs = {"said": "EHLO 250, HELP 502, QUIT 221", "gives": 8}
    yield asking("HELP", 214, theirs=theirs)
    yield asking("NOOP", 250, "-X", "NOOP")
    yield asking("VRFY", 252, "--mail-rcpt", "ann")
    theirs = {"said": "EHLO 250, EXPN 250, QUIT 221", "gives": 0}
    yield asking("EXPN", 502, "-X", "EXPN", "--mail-rcpt", "ann", gives=8, theirs=theirs)


def hands(mail, **more):
    """The message as the library sends it, and the codes by which recipients are refused."""

    def asks(connection):
        text = mail.text(b"\r\n")
        refused = connection.sendmail(mail.sender, mail.recipients, text, **more)
        return {name: reply[0] for name, reply in refused.items()}

    return asks


def refusal(asks):
    """The code by which a call is refused; where each recipient is, the code of each."""

    def call(connection):
        try:
            return asks(connection)
        except smtplib.SMTPRecipientsRefused as why:
            return [reply[0] for reply in why.recipients.values()]
        except smtplib.SMTPResponseException as why:
            return why.smtp_code

    return call


def in_turn(*asked):
    return lambda connection: [asks(connection) for asks in asked]


def greets_old(connection):
    return connection.helo("c.example")[0]


def begins_again(connection):
    """A transaction that is reset, and one after it."""
    connection.ehlo()
    connection.mail("eve@c.example")
    connection.rcpt("dan@mx.example")
    connection.rset()
    return hands(HI)(connection)


def without_offers(connection):
    """TLS and a log-in, of which the library knows that they aren't offered, and a message."""
    told = []
    for asked in (connection.starttls, lambda: connection.login("u", "p")):
        try:
            asked()
        except smtplib.SMTPNotSupportedError:
            told.append("not offered")
    return [*told, hands(HI)(connection)]


def asks_around(connection):
    connection.ehlo()
    asked = connection.verify("ann"), connection.expn("ann"), connection.noop()
    return [reply[0] for reply in asked] + [connection.docmd("HELP")[0]]


def out_of_order(connection):
    """Commands where they can't stand."""
    connection.ehlo()
    told = [connection.docmd("RCPT", f"TO:<{ANN}>"), connection.docmd("DATA")]
    told += [connection.mail(BOB), connection.mail(BOB), connection.docmd("DATA")]
    told += [connection.docmd("RCPT", "ann"), connection.docmd("WHAT"), connection.rset()]
    return [reply[0] for reply in told]


def library_cases():
    def case(name, asks, said, wanted=(), gives=None, **more):
        gives = {} if gives is None else gives
        return Case("smtplib", name, smtplib_call(asks), said, list(wanted), gives, **more)

    yield case("an ordinary message", hands(HI), talk(), [stored(HI)], sent=(SIZE,))
    for name, mail in BODIES[:2]:
        yield case(name, hands(mail), talk(), [stored(mail)])
    old = [stored(HI, protocol="SMTP")]
    yield case("HELO", in_turn(greets_old, hands(HI)), talk(hello=HELO), old, [250, {}])
    call, eight = hands(EIGHT, mail_options=["BODY=8BITMIME"]), [stored(EIGHT, is_eight=True)]
    yield case("BODY=8BITMIME", call, talk(), eight, sent=(rb" BODY=8BITMIME\r\n",))
    sent = (rb"(?i)MAIL FROM:<>",)
    yield case("from nobody", hands(NULL), talk(), [stored(NULL)], sent=sent)
    quoted = Mail(recipients=['"a b>"@mx.example'], subject="quoted")
    yield case("a quoted local part", hands(quoted), talk(), [stored(quoted)])
    many = Mail(recipients=named(1000), subject="1,000")
    yield case("1,000 recipients", hands(many), talk("RCPT 250*1000"), [stored(many)])
    mails = [HI, DOTS, EIGHT, LONG]
    call = in_turn(*map(hands, mails))
    yield case("four messages", call, talk(times=4), map(stored, mails), [{}] * 4)
    call = in_turn(*[hands(HI)] * 100)
    yield case("100 messages", call, talk(times=100), [stored(HI)] * 100, [{}] * 100)
    gives = ["not offered", "not offered", {}]
    yield case("TLS and AUTH where offered", without_offers, talk(), [stored(HI)], gives)
    call, wanted = in_turn(*[hands(LONG)] * 2), [stored(LONG, client="127.0.0.1")] * 2
    yield case("over the connection itself", call, "", wanted, [{}] * 2, is_direct=True)
    yield from refused_by_library(case)


def refused_by_library(case):
    yield case("one refused", hands(MIXED), talk(ONE_REFUSED), LEFT, {REFUSED: 550})
    nobody = Mail(recipients=[REFUSED, "refused@far.example"])
    call = in_turn(refusal(hands(nobody)), hands(HI))
    said = talk(hello="EHLO 250, MAIL 250, RCPT 550*2, RSET 250")
    yield case("all refused, and a message", call, said, [stored(HI)], [[550, 550], {}])
    call = in_turn(refusal(hands(HUGE)), hands(HI))
    said = talk(hello="EHLO 250, MAIL 552, RSET 250")
    yield case("SIZE too large, and a message", call, said, [stored(HI)], [552, {}], sent=(SIZE,))
    said = talk(hello="EHLO 250, MAIL 250, RCPT 250, RSET 250")
    yield case("a reset in mid-transaction", begins_again, said, [stored(HI)])
    said = "EHLO 250, VRFY 252, EXPN 502, NOOP 250, HELP 214, QUIT 221"
    other = said.replace("EXPN 502", "EXPN 250").replace("HELP 214", "HELP 502")
    theirs = {"said": other, "gives": [252, 250, 250, 502]}
    gives = [252, 502, 250, 214]
    yield case("VRFY, EXPN, NOOP, HELP", asks_around, said, gives=gives, theirs=theirs)
    gives = [503, 503, 250, 503, 503, 501, 500, 250]
    said = "EHLO 250, RCPT 503, DATA 503, MAIL 250, MAIL 503, DATA 503, RCPT 501, WHAT 500"
    yield case("commands out of order", out_of_order, f"{said}, RSET 250, QUIT 221", gives=gives)
    call, said = hands(HI, mail_options=["RET=HDRS"]), "EHLO 250, MAIL 555, RSET 250, QUIT 221"
    theirs = {"said": talk(), "gives": {}, "stored": [stored(HI)]}
    yield case("a parameter not offered", refusal(call), said, gives=555, theirs=theirs)


@dataclass
class Line:
    """A line that a client may give, and the code of its reply here and in the other program."""

    here: str
    there: str
    text: str

    def verb(self):
        return self.text[:4].upper()

    def front(self):
        """What is given before it, so that it stands in its place."""
        return [f"MAIL FROM:<{BOB}>"] if self.verb() == "RCPT" else []

    def back(self):
        return ["RSET"] if self.verb() in ("MAIL", "RCPT") else []

    def said(self, code):
        own = [f"{text[:4]} 250" for text in self.front()]
        return [*own, f"{self.verb()} {code}", *(f"{text} 250" for text in self.back())]


def lines_of_file():
    text = Path(__file__).with_name("lines.txt").read_text()
    for row in text.splitlines()[1:]:
        here, there, line = row.split(" ", 2)
        yield Line(here, there, re.sub(r"(\w)\{(\d+)\}", lambda it: it[1] * int(it[2]), line))


def gives_lines(lines):
    def asks(connection):
        connection.ehlo()
        for line in lines:
            for text in [*line.front(), line.text, *line.back()]:
                connection.docmd(text)
        return len(lines)

    return asks


def line_cases():
    """Lines of MAIL, of RCPT, and others, each in one session."""
    rows = list(lines_of_file())
    others = [row for row in rows if row.verb() not in ("MAIL", "RCPT")]
    for name in ("MAIL", "RCPT", "other verbs"):
        lines = [row for row in rows if row.verb() == name] or others
        said = [step for line in lines for step in line.said(line.here)]
        theirs = [step for line in lines for step in line.said(line.there)]
        call = smtplib_call(gives_lines(lines))
        here, there = (", ".join(["EHLO 250", *it, "QUIT 221"]) for it in (said, theirs))
        named = {"gives": len(lines), "theirs": {"said": there}}
        yield Case("smtplib", f"lines of {name}", call, here, **named)


def patches(count, **more):
    """The entries of the first patches."""

    def body(number):
        return lambda place: patch_body(place, number)

    return [Stored(body(number), subject=None, **more) for number in range(1, count + 1)]


def git_cases():
    def case(name, call, said, wanted=(), **more):
        return Case("git send-email", name, call, said, list(wanted), **more)

    lines = [[b"hello"], [b"x" * 900], ["Gr\u00fc\u00dfe".encode()]]
    first = lines[:1]
    yield case("a patch", git_send_email(first, [ANN]), talk(), patches(1))
    call = git_send_email(lines, [ANN], "--8bit-encoding=UTF-8")
    yield case("a series, also long and 8-bit", call, talk(times=3), patches(3))
    call, wanted = git_send_email(first, named(120)), patches(1, recipients=named(120))
    yield case("120 recipients", call, talk("RCPT 250*120"), wanted)
    said = "EHLO 250, MAIL 250, RCPT 250, RCPT 550"
    yield case("one refused", git_send_email(first, [ANN, REFUSED]), said, gives=255)


def sourced(mail, **more):
    """Postfix's client greets by HELO, and puts an empty line behind a message."""
    return stored(mail, body=mail.body() + b"\r\n", protocol="SMTP", **more)


def source_cases():
    def case(name, call, said, wanted=(), **more):
        return Case("smtp-source", name, call, said, list(wanted), **more)

    good = talk(hello=HELO)
    for name, mail in [("an ordinary message", HI), *BODIES]:
        yield case(name, smtp_source(mail), good, [sourced(mail)])
    call = smtp_source(HI, "-m", "5")
    yield case("five sessions", call, " / ".join([good] * 5), [sourced(HI)] * 5)
    call, said = smtp_source(HI, "-d", "-m", "100"), talk(hello=HELO, times=100)
    yield case("100 messages in one session", call, said, [sourced(HI)] * 100)
    names = [f"{number}{ANN}" for number in range(150, 1, -1)] + [ANN]
    call, said = smtp_source(HI, "-r", "150"), talk("RCPT 250*150", HELO)
    yield case("150 recipients", call, said, [sourced(HI, recipients=names)])
    yield case("no HELO", smtp_source(HI, "-o"), good.removeprefix(f"{HELO}, "), [sourced(HI)])
    said = "HELO 250, MAIL 250, RCPT 250, DATA 354, . 552"
    yield case("too large", smtp_source(HI, "-l", "17000000"), said, gives=1)
    yield case("all refused", smtp_source(BAD), "HELO 250, MAIL 250, RCPT 550", gives=1)


def all_cases():
    for cases in (swaks_cases, msmtp_cases, curl_cases, library_cases, line_cases):
        yield from cases()
    for cases in (git_cases, source_cases):
        yield from cases()
