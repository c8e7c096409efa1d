"""What must be on the disk before a final 250, a child's start, a dial or a removal."""

import re
from collections import Counter
from dataclasses import dataclass, field

from record import events

PLACE = re.compile(r"(.*)/([dtqs]f)(w\d{12})")
FINAL = re.compile(r"250 2\.0\.0 (w\d{12}) ")
HEAD = re.compile(r"V1\\nv(\d+)\\n(?:p(w\d{12}) (\d+)\\n)?")
STARTS = ("vfork", "fork", "clone", "clone3")
SENDS = ("sendto", "sendmsg", "write", "writev")
SYNCS = ("fsync", "fdatasync")
# The program that syncs a whole file system, which is no delivery.
SYNC = re.compile(r'"[^"]*/sync", ')
RENAMINGS = ("rename", "renameat", "renameat2")
REMOVALS = ("unlink", "unlinkat")


@dataclass
class Entry:
    """What is known of an entry. A file that the record doesn't show being made is taken to be on
    the disk, since it was there before."""

    name: str
    is_new: bool = False
    body_waits: bool = False
    draft_waits: bool = False
    name_waits: bool = False
    # The lines behind which body, draft and name wait.
    body_at: int = 0
    draft_at: int = 0
    name_at: int = 0
    has_control: bool = False
    version: int = 0
    parent: tuple = None
    step: str = ""
    trail: list = field(default_factory=list)

    def missing(self):
        """What of it isn't on the disk yet, or None."""
        if self.is_new and not self.has_control:
            return f"the renaming to qf{self.name}"
        if self.body_waits:
            return f"the sync of df{self.name}"
        if self.name_waits:
            return f"the sync of the directory behind the renaming to qf{self.name}"
        return None


class Watch:
    """Goes through a record, and keeps what was wrong and how many syncs each step took."""

    def __init__(self):
        self.entries, self.wrong = {}, []
        self.main, self.number, self.read, self.started = None, 0, None, None
        self.syncing, self.flying = set(), {}
        self.sessions, self.waiting = set(), {}
        self.counts, self.trails = Counter(), Counter()

    def go_through(self, lines):
        for self.number, begins, call in events(lines):
            self.main = self.main or call.pid
            if call.pid != self.main:
                self.help(begins, call)
                continue
            if begins:
                self.begin(call)
            elif call.went_well():
                self.end(call)
        for entry in self.entries.values():
            self.close_step(entry)
        return self

    def help(self, begins, call):
        """A call of a child: its program, or the sync of a file system. What a start needs must be
        so as it begins, but which program it is for is seen here."""
        if begins and call.name == "execve" and self.started is not None:
            if SYNC.match(call.words):
                self.syncing.add(call.pid)
            else:
                self.counts["starts"] += 1
                self.wrong += self.started
            self.started = None
        elif call.name == "syncfs" and call.pid in self.syncing:
            if begins:
                self.flying[call.pid] = self.number
            elif call.went_well():
                self.sync_all(self.flying.pop(call.pid))

    def sync_all(self, begun):
        """All is synced that was written, and each name that changed, before that line. It is
        counted for the last of them."""
        waited = []
        for entry in self.entries.values():
            body = entry.body_waits and entry.body_at < begun
            draft = entry.draft_waits and entry.draft_at < begun
            entry.body_waits &= not body
            entry.draft_waits &= not draft
            waited += [entry] if body or draft else []
        for place in [*self.waiting]:
            names = [it for it in self.waiting[place].values() if it.name_at < begun]
            for entry in names:
                entry.name_waits = False
                del self.waiting[place][entry.name]
            if not self.waiting[place]:
                del self.waiting[place]
            waited += names
        for entry in waited[-1:]:
            entry.trail.append("syncfs")

    def fail(self, text):
        self.wrong.append(f"line {self.number}: {text}")

    def entry(self, name):
        return self.entries.setdefault(name, Entry(name))

    def need(self, entry, what):
        if missing := entry.missing():
            self.fail(f"{what} of {entry.name} comes before {missing}")

    def start(self, what):
        """A start or a dial is for the entry whose body was read last."""
        if self.read is None:
            self.fail(f"{what} comes before any body was read")
        else:
            self.need(self.entry(self.read), what)

    def begin(self, call):
        """What a call needs must be so as it begins."""
        if call.name in STARTS:
            wrong, self.wrong = self.wrong, []
            self.start("a child's start")
            self.started, self.wrong = self.wrong, wrong
        elif call.name == "connect":
            self.counts["dials"] += 1
            self.start("a dial")
        elif call.name in SENDS and self.is_session(call):
            self.send(call)
        elif call.name in RENAMINGS + REMOVALS:
            self.change(call)
        elif "O_CREAT" in call.words:
            for text, _ in call.texts():
                if place := PLACE.fullmatch(text):
                    self.order(place)

    def is_session(self, call):
        return call.file() in self.sessions

    def send(self, call):
        for text, is_cut in call.texts():
            if is_cut:
                self.fail("a reply that the record doesn't show whole")
            for name in FINAL.findall(text):
                self.counts["final 250s"] += 1
                if not self.entry(name).is_new:
                    self.fail(f"a final 250 names {name}, which wasn't written")
                self.need(self.entry(name), "a final 250")

    def order(self, place):
        """What changes in a directory comes behind the sync of every other."""
        for other in self.waiting:
            if other != place[1]:
                self.fail(f"a change in {place[1]} comes before the sync of {other}")

    def change(self, call):
        places = [PLACE.fullmatch(text) for text, _ in call.texts()]
        if not all(places) or not places:
            return
        self.order(places[0])
        kinds, entry = [place[2] for place in places], self.entry(places[0][3])
        if kinds == ["tf", "qf"]:
            self.decide(entry)
        elif kinds == ["df"]:
            if entry.is_new and entry.step != "finish":
                self.fail(f"df{entry.name} is removed before the renaming to sf{entry.name}")
            self.need(entry, "the removal of the body")

    def decide(self, entry):
        """A control text gets its name."""
        for waits, kind in ((entry.body_waits, "df"), (entry.draft_waits, "tf")):
            if waits:
                self.fail(f"the renaming to qf{entry.name} comes before the sync of {kind}")
        for child in self.entries.values():
            if child.parent == (entry.name, entry.version):
                self.need(child, f"the renaming to qf{entry.name}, which decides, and not that")

    def end(self, call):
        """What a call did that went well."""
        if call.name in ("accept", "accept4"):
            self.sessions.add(call.given())
        elif call.name in SYNCS:
            self.sync(call)
        elif call.name in RENAMINGS:
            self.renamed(call)
        elif call.name in REMOVALS:
            self.removed(call)
        elif call.name in ("write", "writev", "pwrite64"):
            self.written(call)
        elif call.name in ("open", "openat", "creat"):
            self.opened(call)

    def opened(self, call):
        place = PLACE.fullmatch(call.given())
        if not place:
            return
        entry = self.entry(place[3])
        if "O_CREAT" in call.words:
            if place[2] == "df":
                entry.is_new, entry.body_waits, entry.body_at = True, True, self.number
                self.open_step(entry, "receipt")
            elif entry.has_control or not entry.is_new:
                self.open_step(entry, "record")
            if place[2] == "tf":
                entry.draft_waits, entry.draft_at = True, self.number
            entry.trail.append(f"makes {place[2]}")
        elif place[2] == "df":
            self.read = place[3]

    def written(self, call):
        place = PLACE.fullmatch(call.file())
        if not place:
            return
        entry = self.entry(place[3])
        if place[2] == "df":
            entry.body_waits, entry.body_at = True, self.number
        else:
            entry.draft_waits, entry.draft_at = True, self.number
            if head := HEAD.match(call.texts()[0][0]):
                entry.version = int(head[1])
                entry.parent = (head[2], int(head[3])) if head[2] else None
                if entry.parent and entry.step == "receipt":
                    entry.step = "a part, or a bounce"
        if entry.trail[-1:] != [f"writes {place[2]}"]:
            entry.trail.append(f"writes {place[2]}")

    def sync(self, call):
        place = PLACE.fullmatch(call.file())
        if place:
            entry = self.entry(place[3])
            entry.trail.append(f"{call.name} {place[2]}")
            entry.body_waits &= place[2] != "df"
            entry.draft_waits &= place[2] != "tf"
        elif call.name == "fsync":
            waited = [*self.waiting.pop(call.file(), {}).values()]
            for entry in waited:
                entry.name_waits = False
            for entry in waited[-1:]:
                entry.trail.append("fsync directory")

    def wait(self, place, entry):
        """A name in a directory changed, whose sync is waited for. A sync that covers several is
        made for the last of them."""
        entry.name_at = self.number
        waits = self.waiting.setdefault(place[1], {})
        waits.pop(entry.name, None)
        waits[entry.name] = entry

    def renamed(self, call):
        places = [PLACE.fullmatch(text) for text, _ in call.texts()]
        if len(places) != 2 or not all(places):
            return
        entry = self.entry(places[0][3])
        if places[1][2] == "qf":
            entry.has_control, entry.name_waits = True, True
            entry.trail.append("renames tf qf")
        else:
            self.open_step(entry, "finish")
            entry.trail.append("renames qf sf")
        self.wait(places[1], entry)

    def removed(self, call):
        place = PLACE.fullmatch(call.texts()[-1][0])
        if place:
            entry = self.entry(place[3])
            entry.trail.append(f"removes {place[2]}")
            self.wait(place, entry)

    def open_step(self, entry, step):
        self.close_step(entry)
        entry.step, entry.trail = step, []

    def close_step(self, entry):
        if entry.step:
            self.trails[entry.step, tuple(entry.trail)] += 1
