"""One message at a time: received by `-bs`, delivered by `-q`, and returned."""

import time

from sites import expect

TALK = """HELO c.example
MAIL FROM:<bob@mx.example>
{}DATA
Subject: {}

hello
..
.
QUIT
"""
ENTRY = "w{:012} mqueue {} {} <{}>"
COUNT = "Total requests: {}"
# The body of a message, its size as it came, and what a recipient and a try add to its priority.
BODY, SIZE, ROW, TRY = "hello\n.\n", 10, 30_000, 90_000
EXIT = " (exit 75)"


def take(site, subject, *users):
    """Has `-bs` take a message, with each reply as it must be."""
    asked = TALK.format("".join(f"RCPT TO:<{user}>\n" for user in users), subject)
    replies = site.said("-bs", asked.replace("\n", "\r\n").encode())
    codes = [line[:3] for line in replies.splitlines()]
    wanted = ["220", "250", "250", *["250"] * len(users), "354", "250", "221"]
    expect(f"replies for {subject}", codes, wanted)


def show(site, name, lines):
    """The listing, in which a priority is named by its recipients and tries."""
    expect(f"the listing {name}", site.listed(), lines)


def entry(number, subject, users, tries):
    priority = len(f"Subject: {subject}\r\n\r\n") + SIZE + users * ROW + tries * TRY
    return ENTRY.format(number, SIZE, priority, "bob@mx.example")


def texts(site, user):
    return [kept for kept in site.boxes() if kept.user == user]


def came_out(site):
    """A message for each way out: programs and peers that take, defer and refuse it."""
    users = ["ann@mx.example", "dan@peer.example", "fay@box.example", "later@mx.example"]
    take(site, "ways", *users, "gone@mx.example", "gone@peer.example")
    rows = [f"  Q <{user}>" for user in [*users, "gone@mx.example", "gone@peer.example"]]
    show(site, "of a new message", [entry(1, "ways", 6, 0), *rows, COUNT.format(1)])
    site.said("-q")
    states = ["  S <ann@mx.example>", "  S <dan@peer.example>", "  S <fay@box.example>"]
    states += ["  Q <later@mx.example>" + EXIT, "  R <gone@mx.example>", "  R <gone@peer.example>"]
    lines = site.listed()
    expect("the listing behind a run", lines[-7:-1], states)
    expect("the number of entries behind a run", lines[-1], COUNT.format(2))
    site.said("-q")
    show(site, "behind the second run", [COUNT.format(0)])
    for kept in [*texts(site, "ann@mx.example"), *texts(site, "later@mx.example")]:
        expect(f"what {kept.user} gets", (kept.key()[0], kept.body()), ("ways", BODY))
    bounce, = texts(site, "bob@mx.example")
    for said in ("Returned mail", "<gone@mx.example>", "<gone@peer.example>", "550 5.1.1", "hello"):
        expect(f"{said} in {bounce.text}", said in bounce.text, True)


def warned(site):
    """A message that is deferred again and again: its sender is warned, and then gets it back."""
    site.configure(warn="1s", back="3s")
    take(site, "never", "never@mx.example")
    begun = time.monotonic()
    site.said("-q")
    moments = {"Subject: Warning: message still undelivered": 1.5, "Subject: Returned mail": 4.5}
    for subject, moment in moments.items():
        time.sleep(max(0, begun + moment - time.monotonic()))
        site.said("-q")
        site.said("-q")
        came = [kept.text for kept in texts(site, "bob@mx.example") if "<never@" in kept.text]
        expect(f"how many come with {subject}", [subject in text for text in came].count(True), 1)
    expect("how much comes of never", len(came), 2)
    show(site, "of a message that went back", [COUNT.format(0)])
    site.configure()


def stops(site):
    """The end of `-bd` behind its last session, once its children are over."""
    site.configure(sessions=1)
    daemon = site.daemon("-q1s")
    with site.session() as session:
        text = "Subject: slow\r\n\r\nhello\r\n.\r\n"
        session.sendmail("bob@mx.example", ["slow@mx.example"], text)
        time.sleep(0.5)
        show(site, "beside -bd", [entry(1, "slow", 1, 0), "  Q <slow@mx.example>", COUNT.format(1)])
        site.said("-q", status=75)
    expect("status of -bd at its last session's end", daemon.end(), 0)
    expect("how often slow is served", len(texts(site, "slow@mx.example")), 1)
    show(site, "behind -bd", [COUNT.format(0)])
    site.configure()
