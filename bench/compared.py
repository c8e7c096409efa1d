#!/usr/bin/env python3
"""Compares rulesets, routes and rewritten addresses with Sendmail's own program, over compared/*.txt.

Use: bench/compared.py OURS THEIRS [WHICH ...], where OURS is the proved program, THEIRS a command that
runs Sendmail's own, and WHICH a configuration's name in compared/*.txt or a whole one's file. Where one
of the programs isn't there it says so and compares nothing. Of a set list only what a ruleset that was
asked for returns is compared, token by token; of `/parse` the mailer, the host and the user, and whether
there is an error; of `/try` the addresses, there by `/tryflags`, without the frame that they stand in
there. Banner, prompts and the lines of rulesets that are called have other forms there. This is no part
of the gate.
"""

import re
import shutil
import subprocess
import sys
import tempfile
from pathlib import Path

HEAD = [
    "V10/Berkeley",
    "O QueueDirectory=/tmp",
    "Mlocal, P=/bin/true, F=lsDFMAw5:/|@qPSXnz9, A=mail",
    "Mprog, P=/bin/sh, F=lsDFMeu, A=sh -c $u",
]
OPERATORS = "O OperatorChars=.:@!^/[]+"


class Case:
    """One configuration, the words that addresses are asked with, and further lines."""

    def __init__(self, name, asked):
        self.name, self.asked, self.lines, self.more, self.files = name, asked, [], [], {}

    def text(self, folder):
        own = any(line.startswith("O OperatorChars") for line in self.lines)
        head = HEAD if own else HEAD + [OPERATORS]
        return "\n".join(head + self.lines).replace("@DIR@", str(folder)) + "\n"

    def inputs(self, addresses):
        return [f"{words} {address}" for words in self.asked for address in addresses] + self.more


class Whole(Case):
    """The configuration of a file, as it is."""

    def __init__(self, path):
        super().__init__(path.name, ["/parse", "/try local", "/try esmtp"])
        self.path = path

    def text(self, folder):
        return self.path.read_text()


def cases(path):
    found = []
    for line in path.read_text().splitlines():
        if line.startswith("== "):
            name, asked = line[3:].rsplit(": ", 1)
            found.append(Case(name, asked.split(" | ")))
        elif not found:
            continue
        elif line.startswith("+ "):
            found[-1].more.append(line[2:])
        elif line.startswith("> "):
            name, content = line[2:].split(" ", 1)
            found[-1].files[name] = content.replace("\\n", "\n").replace("\\t", "\t")
        else:
            found[-1].lines.append(line)
    return found


def run(command, text):
    ran = subprocess.run(command, input=text.encode(), capture_output=True, timeout=120, check=False)
    return ran.stdout.decode("latin-1") + ran.stderr.decode("latin-1")


def ours(program, config, lines):
    """The answers of the proved program, a list for each line."""
    answers = []
    for line in lines:
        said = run([program, "-bt", f"-C{config}"], line + "\n")
        answers.append([it for it in said.splitlines() if not it.startswith("warning: ")])
    return answers


def our_results(line, said):
    found = []
    if line.startswith("/parse "):
        return [it if it.startswith("mailer ") else "error" for it in said]
    if line.startswith("/try "):
        return [it if it.startswith(("sender: ", "recipient: ")) else "error" for it in said]
    for line in said:
        returned = re.match(r"\S+ returns:(.*)$", line)
        found.append(" ".join(returned[1].split()) if returned else "error")
    return found


def typed(line):
    """What is typed there for a line; the frame of an address is told by `/parse`."""
    if line.startswith("/try "):
        address = line.split(" ", 2)[2]
        return [f"/parse {address}", "/tryflags es", line, "/tryflags er", line]
    return [line]


def their_results(line, said):
    if line.startswith("/parse "):
        return [their_route(said[0])]
    if line.startswith("/try "):
        sides = [their_address(said[0], chunk) for chunk in (said[2], said[4])]
        if "error" in sides:
            return ["error"]
        return [f"sender: {sides[0]}", f"recipient: {sides[1]}"]
    return their_returns("\n".join(said))


def their_route(said):
    """The mailer, the host, which is left out where it is empty, and the user."""
    routed = re.search(r"^mailer (\S+?)(?:, host (.*?))?, user (.*)$", said, re.MULTILINE)
    if routed is None or routed[1] == "*error*" or any(map(is_error, said.splitlines())):
        return "error"
    return f"mailer {routed[1]}, host {routed[2] or ''}, user {routed[3]}"


def their_address(parsed, said):
    """An address as it was rewritten, without its frame."""
    tried = re.search(r"^Rcode = \d+, addr = (.*)$", said, re.MULTILINE)
    if tried is None or any(map(is_error, said.splitlines())):
        return "error"
    frame = re.search(r"^Cracked address = (.*)\$g(.*)$", parsed, re.MULTILINE)
    address = tried[1]
    if frame and address.startswith(frame[1]) and address.endswith(frame[2]):
        address = address[len(frame[1]) : len(address) - len(frame[2])]
    return address


def their_returns(said):
    """What the rulesets return that aren't called by others; a refusal or an error ends it."""
    found, depth = [], 0
    for line in said.splitlines():
        entered = re.match(r"\S+ +input: ", line)
        returned = re.match(r"\S+ +returns:(.*)$", line)
        if entered:
            depth += 1
        elif returned:
            depth -= 1
            if depth == 0:
                found.append(" ".join(returned[1].split()))
        elif is_error(line):
            return found + ["error"]
    return found


def answered(said):
    """What follows each prompt."""
    chunks = []
    for line in said.splitlines():
        while line.startswith("> "):
            chunks.append([])
            line = line[2:]
        if chunks:
            chunks[-1].append(line)
    return ["\n".join(chunk) for chunk in chunks]


def is_error(line):
    return re.search(r"Unbalanced|nfinite loop|too long|Undefined|not found|xpansion too", line)


def compare(our_program, their_command, case, addresses):
    # Sendmail's own program reads no map in a folder that others can write.
    with tempfile.TemporaryDirectory(dir=Path.home()) as folder:
        folder = Path(folder)
        folder.chmod(0o755)
        for name, content in case.files.items():
            (folder / name).write_text(content)
        config = folder / "sendmail.cf"
        config.write_text(case.text(folder))
        lines = case.inputs(addresses)
        asked = "".join(f"{it}\n" for line in lines for it in typed(line))
        chunks = answered(run([*their_command.split(), "-bt", "-C", str(config)], asked))
        for line, our in zip(lines, ours(our_program, config, lines)):
            count = len(typed(line))
            theirs, chunks = chunks[:count], chunks[count:]
            yield line, our_results(line, our), their_results(line, theirs)


def all_cases(here, wanted):
    named = cases(here / "configurations.txt") + cases(here / "routes.txt")
    whole = [Whole(Path(name)) for name in wanted if Path(name).is_file()]
    return [case for case in named if not wanted or case.name in wanted] + whole


def missing(arguments):
    """Why nothing can be compared."""
    if len(arguments) < 2:
        return "Sendmail's own program isn't named"
    for command in arguments[:2]:
        if shutil.which(command.split()[0]) is None:
            return f"no program {command.split()[0]}"
    return None


def main():
    why = missing(sys.argv[1:])
    if why:
        print(f"skipped: {why}")
        return 0
    here = Path(__file__).parent / "compared"
    addresses = (here / "addresses.txt").read_text().splitlines()
    same = other = 0
    for case in all_cases(here, sys.argv[3:]):
        for line, our, their in compare(sys.argv[1], sys.argv[2], case, addresses):
            if our == their:
                same += 1
                continue
            other += 1
            print(f"{case.name} | {line} | {our} | {their}")
    print(f"{same} lines agree, {other} differ")
    return 0


if __name__ == "__main__":
    sys.exit(main())
