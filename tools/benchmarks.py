#!/usr/bin/env python3
"""Runs scripts that measure, and writes what they print into docs/BENCHMARKS.md.

    python3 tools/benchmarks.py                              each that needs no argument
    python3 tools/benchmarks.py bench/queue.py               this one
    python3 tools/benchmarks.py bench/conf.sh FILE           this one, with its arguments

What is printed stands on the page between the marks of that script, with the machine, the day and
the state of the tree. A script that fails leaves the page as it is, and ends this with 1. Nothing
else should run meanwhile.
"""

import datetime
import re
import subprocess
import sys

from crates import TOP
from gate import machine

PAGE = TOP / "docs/BENCHMARKS.md"
MARK = re.compile(r"<!-- (bench/\S+): begin -->\n.*?<!-- \1: end -->", re.DOTALL)
# Scripts that want Sendmail's own program as an argument.
ASKING = ("bench/side_by_side.py",)


def printed(words):
    """What a script prints, or none where it fails."""
    ran = subprocess.run([f"./{words[0]}", *words[1:]], cwd=TOP, stdout=subprocess.PIPE, text=True)
    return ran.stdout.rstrip() if ran.returncode == 0 else None


def state():
    said = subprocess.run(
        ["git", "describe", "--always", "--dirty"], cwd=TOP, capture_output=True, text=True
    )
    return said.stdout.strip()


def section(words, said):
    day = datetime.date.today().strftime("%-d %B %Y")
    return (
        f"<!-- {words[0]}: begin -->\n{machine()}; {day}, `{state()}`: `{' '.join(words)}`\n\n"
        f"```\n{said}\n```\n<!-- {words[0]}: end -->"
    )


def main():
    marked = [it[1] for it in MARK.finditer(PAGE.read_text())]
    asked = [sys.argv[1:]] if sys.argv[1:] else [[it] for it in marked if it not in ASKING]
    failed = False
    for words in asked:
        if words[0] not in marked:
            print(f"{words[0]} has no marks in {PAGE.name}")
            return 1
        said = printed(words)
        if said is None:
            print(f"{words[0]} failed")
            failed = True
            continue
        page = PAGE.read_text()
        PAGE.write_text(
            MARK.sub(lambda it: section(words, said) if it[1] == words[0] else it[0], page)
        )
    return 1 if failed else 0


if __name__ == "__main__":
    sys.exit(main())
