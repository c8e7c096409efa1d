#!/usr/bin/env python3
"""Checks the pages of this repository, as far as a script can.

    python3 tools/pages.py             ends with 1 if anything below is found
    python3 tools/pages.py --words     how many words each page has, and all together

It prints a line for each link whose file or heading isn't there, for each path, file name and name
in backquotes that isn't in the tree, for each run of words that two pages have in common, for each
page that a script would write otherwise, and where all together or the README have grown too long.
"""

import os
import re
import subprocess
import sys

import architecture
import definitions
import maps

TOP = os.path.dirname(os.path.dirname(os.path.abspath(__file__)))
LINK = re.compile(r"\[[^\]]*\]\(([^)\s]+)\)")
QUOTED = re.compile(r"`([^`\s]+)`")
# A path of the repository begins with one of its folders.
FOLDERS = ("crates/", "docs/", "tools/", "bench/", "packaging/", ".ci/")
# Words of a path that stand for others, and what a build makes.
BLANKS = re.compile(r"NAME|FILE|DIR|CRATE|[*{<$]|\.\.\.?(?!/)|/out\b|\bout/")
FILE = re.compile(r"[\w./-]+\.(?:rt|antt|scene|py|sh|md|cf)")
NAME = re.compile(r"[A-Za-z_]\w*(?:(?:::|\.)[A-Za-z_]\w*)*")
# A word that only a name has: with an underscore, or a capital behind a small letter.
OWN = re.compile(r"\w_\w|[a-z][A-Z]")
# Pages that a script writes, of which each name is taken from the tree, and those whose names are
# of the past, or Sendmail's own.
WRITTEN = ("docs/STATEMENT.md", "docs/DEFINITIONS.md")
OTHERS = ("CHANGELOG.md", "crates/scenes/CASES.md", "docs/MIGRATING.md")
# What pages name that stands nowhere in the tree.
ELSEWHERE = "tools/pages.txt"
# So many words in a row are in no two pages, and so many are in all that one reads.
RUN, MOST, README_LINES = 14, 45_000, 160
COUNTED = re.compile(r"README\.md|CHANGELOG\.md|docs/(?:proving/)?[A-Z]+\.md")


def tracked(pattern):
    said = subprocess.run(
        ["git", "ls-files", "-co", "--exclude-standard", pattern], cwd=TOP, capture_output=True
    )
    files = said.stdout.decode().split("\n")
    return [it for it in files if it and os.path.exists(f"{TOP}/{it}")]


def read(path):
    with open(f"{TOP}/{path}", encoding="utf-8", errors="replace") as it:
        return it.read()


def known():
    """All words of the tree but its pages', and the paths of its files."""
    words = set()
    for path in tracked(":!:*.md"):
        words.update(re.findall(r"\w+", read(path)), re.findall(r"\w+", path))
    return words, [*tracked("."), *read(ELSEWHERE).split()]


def anchor(heading):
    """The name by which a heading is linked."""
    text = re.sub(r"[`*]|\[([^\]]*)\]\([^)]*\)", r"\1", heading).strip().lower()
    return re.sub(r"[^\w\- ]", "", text).replace(" ", "-")


def headings(path):
    with open(path, encoding="utf-8") as it:
        return {anchor(line.lstrip("#")) for line in it if line.startswith("#")}


def lost_link(page, target):
    if re.match(r"[a-z]+:", target):
        return False
    file, _, heading = target.partition("#")
    path = f"{TOP}/{page}" if not file else os.path.join(TOP, os.path.dirname(page), file)
    if not os.path.exists(path):
        return True
    return bool(heading) and path.endswith(".md") and heading not in headings(path)


def lost_name(quoted, words, files):
    """Whether what stands in backquotes looks like a path or a name, and isn't in the tree."""
    quoted = re.sub(r"\(\)$|[.,:;!]+$", "", quoted)
    if BLANKS.search(quoted):
        return False
    if quoted.startswith(FOLDERS):
        return not os.path.exists(f"{TOP}/{quoted.split(':')[0]}")
    if FILE.fullmatch(quoted):
        quoted = re.sub(r"^/etc/mail/", "", quoted)
        return not any(f"/{it}".endswith(f"/{quoted}") for it in files)
    if NAME.fullmatch(quoted) and OWN.search(quoted):
        return not all(it in words for it in re.split(r"::|\.", quoted))
    return False


def prose(page):
    """The numbered lines of a page outside of what stands as it is typed."""
    fenced = False
    for number, line in enumerate(read(page).split("\n"), 1):
        fenced ^= line.startswith("```")
        if not fenced and not line.startswith(("```", "    ")):
            yield number, line


def lost(page, words, files):
    for number, line in prose(page):
        found = [it for it in LINK.findall(line) if lost_link(page, it)]
        if page not in OTHERS:
            found += [it for it in QUOTED.findall(line) if lost_name(it, words, files)]
        for it in found:
            yield f"{page}:{number}: {it} isn't there"


def twice(pages):
    """Each place of a page at which a run of words begins that another page has too."""
    met, told = {}, set()
    for page in pages:
        lines = (it for it in prose(page) if not it[1].startswith((">", "#", "[")))
        said = [(word, at) for at, line in lines for word in re.findall(r"\w+", line.lower())]
        for place in range(len(said) - RUN + 1):
            run = tuple(word for word, _ in said[place : place + RUN])
            other, line = met.setdefault(run, (page, said[place][1]))
            if other != page and (page, other) not in told:
                told.add((page, other))
                yield f"{page}:{said[place][1]}: as {other}:{line}: {' '.join(run)}"


def behind():
    """Each page that a script writes and that it would write otherwise."""
    if read("docs/DEFINITIONS.md") != definitions.page():
        yield "docs/DEFINITIONS.md lags behind the specs: make pages"
    drawn, table = architecture.pages()
    if read("docs/architecture.svg") != drawn or table not in read("docs/ARCHITECTURE.md"):
        yield "docs/ARCHITECTURE.md lags behind crates.txt: make pages"
    for crate in maps.crates_with_maps():
        if (crate / "README.md").read_text() != maps.readme(crate):
            yield f"crates/{crate.name}/README.md lags behind its folder: make pages"


def counts():
    """The words of each page, marks of tables left out."""
    pages = (it for it in tracked("*.md") if COUNTED.fullmatch(it))
    return {page: len(re.findall(r"\S*\w\S*", read(page))) for page in pages}


def main():
    of = {page: many for page, many in counts().items() if page != "docs/STATEMENT.md"}
    if sys.argv[1:] == ["--words"]:
        for page, many in sorted(of.items(), key=lambda it: -it[1]):
            print(f"{many:7} {page}")
        print(f"{sum(of.values()):7} together")
        return 0
    words, files = known()
    pages = [it for it in tracked("*.md") if it not in WRITTEN]
    found = [it for page in pages for it in lost(page, words, files)]
    found += twice([it for it in pages if COUNTED.fullmatch(it)])
    found += behind()
    if sum(of.values()) > MOST:
        found.append(f"the pages have {sum(of.values())} words together, more than {MOST}")
    if read("README.md").count("\n") > README_LINES:
        found.append(f"README.md has more than {README_LINES} lines")
    print("".join(f"{it}\n" for it in found), end="")
    return 1 if found else 0


if __name__ == "__main__":
    sys.exit(main())
