#!/usr/bin/env python3
"""Writes docs/DEFINITIONS.md: each file of definitions, what it is about, and its standard.

    python3 tools/definitions.py > docs/DEFINITIONS.md

What a file is about, and in parentheses the standard, is the comment at its head.
"""

import re
import sys

from crates import TOP, crates, levels, product

USE = re.compile(r"^\s*(?:ghost )?use Rattle\.(\w+)\.specs\.([\w.]+?)(?:\.\{|;| as |$)")
GUIDE = re.compile(r"(?:the )?Sendmail (?:Installation and )?Operation Guide")
# What a parenthesis holds that names a standard.
STANDARD = re.compile(r"Guide|guide|RFC|sysexits|\(\d\)|jiff|\bown\b")

# Titles of sections of the guide, and the letters of which they speak.
TITLES = re.compile(
    r'"?\b([A-Z](?: and [A-Z])?): (?:rewriting rules(?:ets)?|define (?:classes|mailer|macro|header)'
    r'|define queue group|key file declaration|set option|precedence definitions)"?',
    re.IGNORECASE,
)
SECTION = re.compile(r",? sections? (?=\d)")

INTRODUCTION = """# Definitions

`make pages` writes this page from the comments at the heads of the files in `specs/`: what each
file of definitions is about, and in parentheses the standard from which it comes. *Guide* is the
Sendmail Installation and Operation Guide. *Own*, and where no standard stands, is a choice of this
program, which the file names and [DECISIONS.md](DECISIONS.md) explains, or a word that proofs alone
need. The definitions themselves stand in [STATEMENT.md](STATEMENT.md), as far as the contract of the
program cites them. A file that it doesn't cite has a star: other contracts and laws do. Those in
`specs/inner/` aren't here, since only private contracts cite them.

Each definition is in terms of lists. Where it can be computed there is an `example` in its file, or
in a file of examples in its crate's `proofs/`."""


def spec(crate, module):
    return TOP / "crates" / crate / "specs" / (module.replace(".", "/") + ".antt")


def cited():
    """The files of definitions under the contract of the program, by what each file imports."""
    met, rest = set(), [TOP / "crates/sendmail_run/src/program.rt"]
    while rest:
        path = rest.pop()
        if path in met or not path.exists():
            continue
        met.add(path)
        uses = (USE.match(line) for line in path.read_text().splitlines())
        rest += [spec(*use.groups()) for use in uses if use]
    return met


def head(path):
    """The comment at a file's head, in one line."""
    said = []
    for line in path.read_text().splitlines():
        if not line.startswith("-- "):
            break
        said.append(line[3:])
    return " ".join(said)


def first_sentence(text):
    depth = 0
    for at, byte in enumerate(text):
        depth += {"(": 1, ")": -1}.get(byte, 0)
        if byte == "." and not depth and text[at + 1 : at + 2] in ("", " "):
            return text[:at]
    return text


def standards(said):
    """The standards of a file; of what is chosen beside them only that there is something."""
    parts = said.split("; ")
    named = [it for it in parts if not re.search(r"\bown\b", it)]
    return "; ".join([*named, "partly own"] if len(named) < len(parts) else named) if named else ""


def parted(text):
    """What a file is about, and its standard, which may be empty."""
    text = GUIDE.sub("Guide", first_sentence(text))
    text = text.replace('"The Whole Scoop on the Configuration File"', "the configuration file")
    text = SECTION.sub(" §", TITLES.sub(r"\1", text))
    for found in reversed(list(re.finditer(r" \(((?:[^()]|\([^()]*\))*)\)", text))):
        if STANDARD.search(found[1]):
            about = text[: found.start()] + text[found.end() :]
            return about, standards(found[1])
    return text, ""


def row(path, under):
    about, standard = parted(head(path))
    star = "" if path in under else "*"
    return f"- `{path.stem}`{star} {about}" + (f" ({standard})" if standard else "")


def page():
    of = product(crates())
    height = levels(of)
    under = cited()
    out = [INTRODUCTION]
    for name in sorted(of, key=lambda it: (height[it], list(of).index(it))):
        files = sorted((TOP / "crates" / name / "specs").glob("*.antt"))
        files = [it for it in files if it.stem not in ("Lib", "inner") and head(it)]
        if files:
            out += ["", f"## {name}", "", *(row(it, under) for it in files)]
    return "\n".join(out) + "\n"


if __name__ == "__main__":
    sys.stdout.write(page())
