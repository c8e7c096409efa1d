"""The parts, and what must be so at the end of all."""

import random
import re
import smtplib
import threading
import time
from collections import Counter

from ground import Server
from kills import Sent
from sites import ID, SUBJECT, Kept, Strange, expect, user_of

BOB = "bob@mx.example"
GOOD = ("ann@mx.example", "cid@mx.example", "fay@box.example", "dan@peer.example")
GOOD += ("later@mx.example", "later@peer.example")
BAD = ("gone@mx.example", "gone@peer.example", "eve@refuse.example")
STALLED = "eve@stall.example"
# The bytes by which memory may grow for each entry, which stays in the server's table once it is
# done: 1,700 to 2,200 were measured in loads of 300 to 1,000 entries one after another, with control
# texts of 310 bytes, and half of that is for lists that grow by doubling.
GROWTH = 3000
DESCRIPTORS = 40
# The seconds within which all is delivered that can be.
LONGEST = 600


class Client(threading.Thread):
    """Sends messages, a few a session, until it is told to stop. What isn't acknowledged it sends no
    second time: a later message takes its place."""

    def __init__(self, ground, name, chance, until):
        super().__init__(daemon=True)
        self.ground, self.name_of, self.chance, self.until = ground, name, chance, until
        self.sent, self.refused = [], Counter()

    def message(self):
        subject = f"{self.name_of}-{len(self.sent)}"
        users = self.chance.sample(GOOD, self.chance.randint(1, 3))
        users += self.chance.sample(BAD, self.chance.choice([0, 0, 1]))
        users += [STALLED] * (self.chance.random() < 0.02)
        users = [user.replace("later", f"later-{subject}") for user in users]
        lines = self.chance.choice([1, 3, 40, 400])
        return Sent(subject, users, "".join(f"line {line} of {subject}\n" for line in range(lines)))

    def run(self):
        while time.monotonic() < self.until:
            try:
                with smtplib.SMTP("127.0.0.1", self.ground.port, "c.example", 300) as session:
                    for _ in range(self.chance.randint(1, 5)):
                        self.send(session, self.message())
                        time.sleep(self.chance.uniform(0, 0.2))
            except smtplib.SMTPResponseException as it:
                self.refused[it.smtp_code] += 1
            except (OSError, smtplib.SMTPException):
                self.refused["line"] += 1
            time.sleep(self.chance.uniform(0, 0.3))

    def send(self, session, sent):
        self.sent.append(sent)
        session.ehlo_or_helo_if_needed()
        session.mail(BOB)
        for user in sent.users:
            session.rcpt(user)
        text = f"Subject: {sent.subject}\n\n{sent.body}".replace("\n", "\r\n")
        code, reply = session.data(text)
        if code != 250:
            raise smtplib.SMTPResponseException(code, reply)
        sent.id = reply.split()[1].decode()


class Tally:
    """What was sent in all parts."""

    def __init__(self):
        self.sent = []

    def load(self, ground, name, clients, seconds, chance, meanwhile=None):
        """So many clients send for so long. Gives what was acknowledged, and what was not."""
        until = time.monotonic() + seconds
        found = []
        for number in range(clients):
            own = random.Random(chance.random())
            found.append(Client(ground, f"{name}-{number}", own, until))
            found[-1].start()
        if meanwhile:
            meanwhile()
        for client in found:
            client.join(seconds + LONGEST)
            expect(f"whether {client.name_of} is done", client.is_alive(), False)
        sent = [sent for client in found for sent in client.sent]
        self.sent += sent
        refused = sum((client.refused for client in found), Counter())
        count = sum(it.id is not None for it in sent)
        print(f"{name}: {count} acknowledged, refused {dict(refused)}", flush=True)
        return count


def plain(ground, tally, seconds, clients, chance):
    """One process all of the time."""
    server = Server(ground)
    warm = tally.load(ground, "warm", clients, seconds / 6, chance)
    rest(ground)
    before, held = idle_descriptors(server), server.memory()
    count = tally.load(ground, "plain", clients, seconds, chance)
    rest(ground)
    left = Counter(server.descriptors_open()) - Counter(before)
    expect(f"whether {dict(left)} is a line at most", left.total() < 2, True)
    grown = server.memory() - held
    entries = sum(1 for _ in ground.control_texts())
    expect("ends in it", server.stop(), Counter())
    print(f"  {len(before)} descriptors before and behind; memory {held:,} and {grown:,} bytes more")
    more = entries * count / max(1, count + warm)
    if grown > GROWTH * more:
        raise Strange(f"memory grew by {grown / more:,.0f} bytes an entry")
    print(f"  {grown / more:,.0f} bytes an entry of {more:,.0f}", flush=True)


def idle_descriptors(server):
    """Its descriptors while it dials nobody, as it does the peer that stalls: the fewest of some
    seconds."""
    found = []
    until = time.monotonic() + 15
    while time.monotonic() < until:
        found.append(server.descriptors_open())
        time.sleep(0.05)
    return min(found, key=len)


def rest(ground):
    """Waits until what can be delivered is, and no session is open."""

    until = time.monotonic() + LONGEST
    while waits := [it for it in ground.said("-bp") if it.startswith("  Q") and STALLED not in it]:
        if time.monotonic() > until:
            raise Strange(f"it still waits: {waits}")
        time.sleep(0.5)
    ground.settle()
    time.sleep(3)


def few_descriptors(ground, tally, seconds, clients, chance):
    server = Server(ground, DESCRIPTORS)
    tally.load(ground, "descriptors", clients, seconds, chance)
    tell_ends(server.stop())


def full_disk(ground, tally, seconds, clients, chance):
    if not ground.has_disk:
        print("disk: skipped: it wants root")
        return
    server = Server(ground)

    def fill_once():
        time.sleep(seconds / 3)
        filler = ground.fill()
        time.sleep(seconds / 3)
        filler.unlink()

    tally.load(ground, "disk", clients, seconds, chance, fill_once)
    tell_ends(server.stop())


def tell_ends(ends):
    expect("statuses but 75", set(ends) - {75}, set())
    print(f"  {ends[75]} ends with 75, each begun anew", flush=True)


def run_out(ground):
    """Runs the queue until only what stalls is there, with its note, and then returns that."""
    ground.settle()
    for _ in range(200):
        ground.said("-q")
        waiting = [line for line in ground.said("-bp") if line.startswith("  Q")]
        if all(STALLED in line for line in waiting):
            break
        time.sleep(0.5)
    for line in waiting:
        expect(f"whether {line} has its note", line.endswith(")"), True)
    ground.configure("1s")
    for _ in range(200):
        ground.said("-q")
        if ground.said("-bp") == ["Total requests: 0"]:
            return len(waiting)
        time.sleep(0.5)
    raise Strange(f"there is still {ground.said('-bp')}")


def boxes(ground):
    """What the program, and what the peers kept."""
    paths = sorted((ground.folder / "kept").iterdir())
    own = [Kept(user_of(path), path.read_text("latin-1")) for path in paths]
    return [*own, *ground.peer.boxes(), *ground.box.boxes(), *ground.refuse.boxes()]


def returned(kept):
    """In how many bounces each row stands, each bounce counted once."""
    texts = {ID.search(it.text)[1]: it.text for it in kept if it.user == BOB}
    found = Counter()
    for text in texts.values():
        front, _, rest_of = text.partition("----- Original message -----")
        subject = rest_of.partition("\nSubject: ")[2].partition("\n")[0]
        found.update((subject, user) for user in re.findall(r"^<([^>]*)>$", front, re.MULTILINE))
    return found


def check(ground, sent):
    """Each row of each message has come or went back."""
    kept = boxes(ground)
    came, backs = Counter(), returned(kept)
    bodies = {it.subject: it.body for it in sent}
    for it in kept:
        if it.user == BOB:
            continue
        subject = SUBJECT.search(it.text)[1]
        came[subject, it.user] += 1
        expect(f"the body of {subject} to {it.user}", it.body(), bodies[subject])
    lost, rows = [], 0
    for it in sent:
        for user in it.users:
            rows += it.id is not None
            if it.id and not came[it.subject, user] and not backs[it.subject, user]:
                lost.append((it.subject, user))
    expect("rows that are lost", lost, [])
    expect("rows in two bounces", [row for row, count in backs.items() if count > 1], [])
    wrong = [row for row in backs if row[1] not in (*BAD, STALLED)]
    expect("rows that went back, and whose users are there", wrong, [])
    again = {row: count - 1 for row, count in came.items() if count > 1}
    return rows, came, backs, again


def play(ground, seconds, clients, chance):
    tally = Tally()
    plain(ground, tally, seconds, clients, chance)
    _, _, _, again = check_so_far(ground, tally)
    expect("what came twice of one process", again, {})
    few_descriptors(ground, tally, seconds, clients, chance)
    full_disk(ground, tally, seconds, clients, chance)
    stalled = run_out(ground)
    rows, came, backs, again = check(ground, tally.sent)
    count = sum(it.id is not None for it in tally.sent)
    print(
        f"{count} messages were acknowledged, with {rows} recipients: {len(came)} came, "
        f"{len(backs)} went back, of which {stalled} waited with their note; none is lost"
    )
    print(f"{sum(again.values())} came again, where a process had ended in mid-delivery")


def check_so_far(ground, tally):
    """What one process left: rows that stall are in the queue."""
    kept = boxes(ground)
    came = Counter((SUBJECT.search(it.text)[1], it.user) for it in kept if it.user != BOB)
    return None, came, None, {row: count - 1 for row, count in came.items() if count > 1}
