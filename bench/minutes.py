#!/usr/bin/env python3
"""Types what the README's "A mail server in five minutes" types, and compares what comes.

Use: bench/minutes.py [PROGRAM]

Each line behind a `$` goes to one shell, with the lines that go on with it, and what is printed
must be what stands there, but for dates. It uses /tmp/mail and /tmp/peer, which must not be there,
and the ports 2525 and 2526. It ends with status 1 at the first difference. Build the program first,
by `make run`. This is no part of the gate.
"""

import re
import shutil
import subprocess
import sys
from pathlib import Path

PLACE = Path(__file__).resolve().parent.parent
FOLDERS = (Path("/tmp/mail"), Path("/tmp/peer"))
TITLE = "## A mail server in five minutes"
# Dates as they stand in the texts, and the moment in an id.
DATE = re.compile(r"\w{3}, \d+ \w{3} \d{4} [\d:]{8}|\w{3} \w{3} [ \d]\d [\d:]{8} \d{4}|<\d{12}\.")
MARK = "-- typed --"


def steps(text):
    """The commands of the section, each with what must come of it."""
    section = text.partition(TITLE)[2].partition("\n## ")[0].partition("\n### ")[0]
    for block in re.findall(r"^```\n(.*?)^```", section, re.MULTILINE | re.DOTALL):
        for step in re.split(r"^\$ ", block, flags=re.MULTILINE)[1:]:
            lines = step.splitlines(keepends=True)
            last = next(at for at, line in enumerate(lines) if not line.endswith("\\\n"))
            yield "".join(lines[: last + 1]), "".join(lines[last + 1 :])


def typed(program, asked):
    """What each command prints, all typed into one shell."""
    front = f'shopt -s expand_aliases; sendmail() {{ "{program}" "$@"; }}\nset -m\n'
    script = front + "".join(f"echo '{MARK}'\n{it}" for it in asked)
    ran = subprocess.run(
        ["bash"], input=script, capture_output=True, text=True, timeout=120, cwd=PLACE, check=False
    )
    return ran.stdout.split(MARK + "\n")[1:]


def masked(text):
    return DATE.sub("(date)", text)


def main():
    built = PLACE / "crates/sendmail/out/sendmail"
    program = Path(sys.argv[1] if len(sys.argv) > 1 else built).resolve()
    if not program.exists():
        print("build the program first: make run")
        return 2
    if any(folder.exists() for folder in FOLDERS):
        print("skipped: /tmp/mail or /tmp/peer is there")
        return 0
    wanted = list(steps((PLACE / "README.md").read_text()))
    try:
        came = typed(program, [asked for asked, _ in wanted])
    finally:
        for folder in FOLDERS:
            shutil.rmtree(folder, ignore_errors=True)
    for (asked, text), it in zip(wanted, came):
        if masked(it) != masked(text):
            print(f"$ {asked}it is\n{it}wanted\n{text}", end="")
            return 1
    print(f"{len(wanted)} commands of the README, of which each prints what stands there")
    return 0 if len(came) == len(wanted) else 1


sys.exit(main())
