"""Ends `-bd` under load at random moments, and begins it again."""

import random
import signal
import smtplib
import threading
import time
from collections import Counter
from dataclasses import dataclass

from sites import Strange, expect

CLIENTS = 3
# So many runs go over one queue.
RUNS_A_QUEUE = 25
# The seconds within which a run is ended.
LATEST = 0.8
BOB = "bob@mx.example"
GOOD = ("ann@mx.example", "fay@box.example", "dan@peer.example", "later@peer.example")
BAD = ("gone@mx.example", "gone@peer.example")


@dataclass
class Sent:
    """A message that a client sent, and whether it was acknowledged."""

    subject: str
    users: list
    body: str
    id: str = None


class Client(threading.Thread):
    """Sends messages until its session breaks."""

    def __init__(self, site, name, chance):
        super().__init__(daemon=True)
        self.site, self.name_of, self.chance, self.sent = site, name, chance, []

    def message(self):
        subject = f"{self.name_of}-{len(self.sent)}"
        users = self.chance.sample(GOOD, self.chance.randint(1, 3))
        users += self.chance.sample(BAD, self.chance.choice([0, 0, 0, 1]))
        users = [user.replace("later", f"later-{subject}") for user in users]
        lines = self.chance.choice([1, 3, 40, 400])
        return Sent(subject, users, "".join(f"line {line} of {subject}\n" for line in range(lines)))

    def run(self):
        try:
            with smtplib.SMTP("127.0.0.1", self.site.port, local_hostname="c.example") as session:
                session.ehlo()
                while True:
                    self.send(session, self.message())
                    time.sleep(self.chance.uniform(0, 0.02))
        except (OSError, smtplib.SMTPException):
            pass

    def send(self, session, sent):
        self.sent.append(sent)
        session.mail(BOB)
        for user in sent.users:
            session.rcpt(user)
        text = f"Subject: {sent.subject}\n\n{sent.body}".replace("\n", "\r\n")
        code, reply = session.data(text)
        if code == 250:
            sent.id = reply.split()[1].decode()


def run_once(site, name, chance, number):
    """A run that gets this signal. Gives what its clients sent."""
    daemon = site.daemon("-q1s")
    until = time.monotonic() + chance.uniform(0, LATEST)
    clients = []
    while time.monotonic() < until:
        if not clients and daemon.is_up():
            chances = [random.Random(chance.random()) for _ in range(CLIENTS)]
            clients = [Client(site, f"{name}-{it}", own) for it, own in enumerate(chances)]
            for client in clients:
                client.start()
        time.sleep(0.001)
    status = daemon.end(number)
    expect("status of a run that was ended", status, -number)
    for client in clients:
        client.join()
    return [sent for client in clients for sent in client.sent]


class Queue:
    """What went over one queue since it was new."""

    def __init__(self, site, peers):
        self.site, self.peers = site, peers
        self.sent, self.known, self.under_way = [], Counter(), Counter()
        site.clear()
        for peer in peers:
            peer.kept.clear()

    def came(self):
        """How often each text came out, by the name of its message and its user."""
        boxes = [self.site.boxes(), *(peer.boxes() for peer in self.peers)]
        return Counter(kept.key() for box in boxes for kept in box)

    def look(self):
        """Behind the end of a run: each message that was acknowledged has its control file, and a
        row that came out in the run and is still tried was under way."""
        self.site.settle()
        for peer in self.peers:
            peer.settle()
        rows, now = self.site.rows(), self.came()
        for key in now - self.known:
            if rows.get(key) == "Q":
                self.under_way[key] += 1
            elif rows.get(key) != "S":
                raise Strange(f"{key} came out, and its row is {rows.get(key)}")
        self.known = now
        names = {path.name[2:] for path in (self.site.folder / "queue").glob("[qs]f*")}
        for sent in self.sent:
            if sent.id and sent.id not in names:
                raise Strange(f"the acknowledged message {sent.id} isn't there")

    def check(self, tally):
        """Runs the queue to its end, and compares what came with what was sent."""
        self.site.run_out()
        self.look()
        backs = self.backs()
        for sent in self.sent:
            for user in sent.users:
                self.check_row(sent, user, backs[sent.subject, user])
        for key, count in self.known.items():
            if count - 1 > self.under_way[key]:
                raise Strange(f"{key} came {count} times, {self.under_way[key]} were under way")
        self.check_bodies()
        tally["messages"] += sum(sent.id is not None for sent in self.sent)
        tally["texts"] += sum(key[1] != BOB for key in self.known)
        tally["bounces"] += sum(key[1] == BOB for key in self.known)
        tally["attempts under way at an end"] += self.under_way.total()
        tally["texts that came again"] += sum(count - 1 for count in self.known.values())

    def check_row(self, sent, user, back):
        came = self.known[sent.subject, user]
        if user in BAD and came or user not in BAD and back:
            raise Strange(f"{sent.subject} to {user}: it came {came} times, and went back {back}")
        if sent.id and not came and not back:
            raise Strange(f"{sent.subject} to {user} was acknowledged as {sent.id}, and is lost")

    def backs(self):
        """In how many bounces each row stands, each bounce counted once."""
        texts = {kept.key(): kept.text for kept in self.site.boxes() if kept.user == BOB}
        found = Counter()
        for text in texts.values():
            front, _, rest = text.partition("----- Original message -----")
            subject = rest.partition("\nSubject: ")[2].partition("\n")[0]
            found.update((subject, user) for user in BAD if f"\n<{user}>\n" in front)
        if any(count > 1 for count in found.values()):
            raise Strange(f"rows stand in two bounces: {found.most_common(3)}")
        return found

    def check_bodies(self):
        bodies = {sent.subject: sent.body for sent in self.sent}
        for box in [self.site.boxes(), *(peer.boxes() for peer in self.peers)]:
            for kept in box:
                subject = kept.key()[0]
                if kept.user != BOB and kept.body() != bodies[subject]:
                    raise Strange(f"{subject} came to {kept.user} with another body")


def play(site, peers, kills, terms, chance):
    """So many runs are ended by either signal, in any order."""
    ends = [signal.SIGKILL] * kills + [signal.SIGTERM] * terms
    chance.shuffle(ends)
    tally, queue = Counter(), None
    for run, number in enumerate(ends):
        if run % RUNS_A_QUEUE == 0:
            if queue:
                queue.check(tally)
            queue = Queue(site, peers)
        queue.sent += run_once(site, f"run{run}", chance, number)
        queue.look()
        tally[f"ends by {number.name}"] += 1
    if queue:
        queue.check(tally)
    return tally
