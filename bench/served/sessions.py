"""A hundred messages over ten sessions at once: they come out by a program, by LMTP and by SMTP."""

import smtplib
import threading
from collections import Counter
from pathlib import Path

from callers import Mail, Place, environment, programs, swaks
from sites import expect, wait_for

SESSIONS, MESSAGES = 10, 10
BOB = "bob@mx.example"
NAMES = ("ann", "cid", "dan", "eve")


def users_of(number):
    """Whom a message is for: one user at each place, and each third time one who isn't there."""
    name = NAMES[number % len(NAMES)]
    users = [f"{name}@{host}" for host in ("mx.example", "box.example", "peer.example")]
    return users + ["gone@mx.example"] * (number % 3 == 0)


def body_of(number):
    return [b"line %d" % line for line in range(number % 7)] + [b".", b"..end"]


def by_swaks(site, folder, clients, numbers):
    """A run of swaks is a session of one message."""
    for number in numbers:
        place = Path(folder, str(number))
        place.mkdir()
        mail = Mail(body_of(number), users_of(number), BOB, f"message {number}")
        status = swaks(mail)(Place(site.port, place, clients, environment(clients_in(), place)))
        expect(f"status of swaks for message {number}", status, 0)


def clients_in():
    """The folder of unpacked packages, if there is one."""
    from installed import UNPACKED

    return Path(UNPACKED) if UNPACKED else None


def by_smtplib(site, numbers):
    with smtplib.SMTP("127.0.0.1", site.port, local_hostname="c.example") as session:
        for number in numbers:
            mail = Mail(body_of(number), users_of(number), BOB, f"message {number}")
            session.sendmail(BOB, mail.recipients, mail.text(b"\r\n"))


def at_once(call):
    """Makes a call for each session, all at once, with the numbers of its messages."""
    wrong = []

    def one(session):
        try:
            call(range(session * MESSAGES, (session + 1) * MESSAGES))
        except Exception as it:  # Told by the thread that waits.
            wrong.append(it)

    threads = [threading.Thread(target=one, args=[session]) for session in range(SESSIONS)]
    for thread in threads:
        thread.start()
    for thread in threads:
        thread.join()
    if wrong:
        raise wrong[0]


def wanted():
    """What must come out: how often each body of each message, by its user."""
    found = Counter()
    for number in range(SESSIONS * MESSAGES):
        body = b"".join(line + b"\n" for line in body_of(number)).decode()
        for user in users_of(number):
            if not user.startswith("gone"):
                found[user, f"message {number}", body] += 1
    return found


def came(boxes):
    return Counter((kept.user, kept.key()[0], kept.body()) for kept in boxes)


def returned(site):
    """The messages whose bounces came, each with how often."""
    texts = [kept.text for kept in site.boxes() if kept.user == BOB]
    subjects = [text.partition("Original message")[2].partition("\nSubject: ")[2] for text in texts]
    return Counter(subject.partition("\n")[0] for subject in subjects)


def hand_in(site, others, call):
    """Has the daemon take a hundred messages and deliver them, and compares what came out."""
    site.clear()
    before = sum((came(other.boxes()) for other in others), Counter())
    daemon = site.daemon("-q1s")
    daemon.wait_up()
    at_once(call)
    wait_for("an empty queue", lambda: site.listed() == ["Total requests: 0"], 0.5)
    daemon.end(9)
    own = [kept for kept in site.boxes() if kept.user != BOB]
    out = sum((came(other.boxes()) for other in others), came(own)) - before
    expect("what came out twice or not at all", (out - wanted(), wanted() - out), (Counter(),) * 2)
    bounces = Counter(f"message {number}" for number in range(0, SESSIONS * MESSAGES, 3))
    expect("what went back", returned(site), bounces)
    return sum(out.values()), sum(bounces.values())


def play(site, others, folder):
    """By smtplib, and by swaks where it is there."""
    clients = programs(clients_in())
    counts = Counter()
    calls = {"smtplib": lambda numbers: by_smtplib(site, numbers)}
    if "swaks" in clients:
        calls["swaks"] = lambda numbers: by_swaks(site, folder, clients, numbers)
    else:
        print("skipped: no swaks")
    for name, call in calls.items():
        out, back = hand_in(site, others, call)
        counts += Counter(messages=SESSIONS * MESSAGES, texts=out, bounces=back)
        print(f"{SESSIONS * MESSAGES} messages by {name}: {out} texts, {back} bounces", flush=True)
    return counts
