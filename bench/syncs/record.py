"""Reads what `strace -f -y` wrote down, call by call."""

import re
from dataclasses import dataclass

LINE = re.compile(r"(\d+) +(?:[\d.:]+ +)?(.*)")
WHOLE = re.compile(r"(\w+)\((.*)\) += (-?\d+|\?)(.*)")
FRONT = re.compile(r"(\w+)\((.*?) *<unfinished \.\.\.>")
BACK = re.compile(r"<\.\.\. (\w+) resumed>(.*)\) += (-?\d+|\?)(.*)")


@dataclass
class Call:
    """A call: who made it, its words as strace spells them, and what it gave. A number that was
    given may have a file behind it, as `5</a/file>`."""

    pid: int
    name: str
    words: str
    result: str = ""

    def went_well(self):
        return self.result[:1].isdigit()

    def file(self):
        """The file of the descriptor that is its first word."""
        found = re.match(r"\d+<(.*?)>(?:\(deleted\))?(?:,|$)", self.words)
        return found[1] if found else ""

    def given(self):
        """The file of the descriptor that it gave."""
        found = re.match(r"\d+<(.*)>", self.result)
        return found[1] if found else ""

    def texts(self):
        """The texts in quotes among its words, with whether each is cut."""
        found = re.finditer(r'"((?:[^"\\]|\\.)*)"(\.\.\.)?', self.words)
        return [(text[1], text[2] is not None) for text in found]


def events(lines):
    """The number of the line, whether a call begins or ends in it, and the call. A call in one line
    begins and ends there."""
    open_calls = {}
    for number, line in enumerate(lines, 1):
        found = LINE.match(line)
        if not found:
            continue
        pid, rest = int(found[1]), found[2]
        if whole := WHOLE.match(rest):
            call = Call(pid, whole[1], whole[2])
            yield number, True, call
            call.result = whole[3] + whole[4]
            yield number, False, call
        elif front := FRONT.match(rest):
            call = open_calls[pid] = Call(pid, front[1], front[2])
            yield number, True, call
        elif (back := BACK.match(rest)) and pid in open_calls:
            call = open_calls.pop(pid)
            call.words += back[2]
            call.result = back[3] + back[4]
            yield number, False, call
