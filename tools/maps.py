#!/usr/bin/env python3
"""Writes a map of `src/` into the README of each crate that has more than ten files there.

    python3 tools/maps.py

The map stands between its marks, or else behind the example, and has for each file the item that
says most of what it is for. A README that names most of these files by hand has none.
"""

import re

from crates import TOP

MARKS = "<!-- files: begin -->\n", "<!-- files: end -->\n"
HEAD = "## What is here\n\n"
MOST, MANY = 130, 10
ITEM = re.compile(r"(\s*)(pub(?:\(crate\))? )?(struct|enum|trait|fn|const|static) (\w+)")


def items(text):
    """Each item of a file that has a comment: its visibility, kind, name and comment."""
    block = []
    for line in text.splitlines():
        said = re.match(r"\s*///? ?(.*)", line)
        item = ITEM.match(line)
        if said and not line.startswith("//!"):
            block.append(said[1])
        elif item and block:
            yield item[1] + (item[2] or ""), item[3], item[4], " ".join(block)
            block = []
        elif not line.strip().startswith("#["):
            block = []


def best(path):
    """The item that says most of what its file is for."""
    stem = path.stem.replace("_", "")

    def rank(it):
        shown, kind, name, _ = it
        name = name.lower().replace("_", "")
        named = 0 if name == stem else 1 if name in stem or stem in name else 2
        kinds = ("struct", "enum", "trait", "fn")
        return "pub" not in shown, kind not in kinds, named, shown[:1] == " ", kind == "fn"

    return min(items(path.read_text()), key=rank, default=None)


def sentence(text):
    found = re.match(r"(.*?[^.])\.(?= |$)", text)
    text = found[1] if found else text
    if len(text) > MOST:
        text = re.split(r"[,;:] (?=[^,;:]*$)", text[:MOST])[0]
    return re.sub(r"\[(`[^`]*`)\](?:\([^)]*\))?", r"\1", text).rstrip(",;:")


def map_of(crate):
    rows = []
    for path in sorted((crate / "src").glob("*.rt")):
        item = best(path)
        if path.stem not in ("lib", "main") and item:
            said = sentence(item[3])
            said = said[0].lower() + said[1:] if said[1:2].islower() or said[:2] == "A " else said
            rows.append(f"| `{path.name}` | `{item[2]}`: {said} |\n")
    return "| File in `src/` | What |\n|---|---|\n" + "".join(rows)


def by_hand(crate, readme):
    """Whether a README names most files of its crate itself."""
    files = [it.name for it in (crate / "src").glob("*.rt")]
    named = re.findall(r"[\w]+\.rt", readme)
    return sum(it in named for it in files) * 2 > len(files)


def readme(crate):
    """The README with the map of today."""
    old = (crate / "README.md").read_text()
    if MARKS[0] in old:
        front, back = old.split(MARKS[0])[0], old.split(MARKS[1])[1]
    elif by_hand(crate, old) or len(list((crate / "src").glob("*.rt"))) <= MANY:
        return old
    else:
        front, promised, back = re.split(r"(?m)^(## What (?:is p|only)|\Z)", old, maxsplit=1)
        front, back = f"{front.rstrip()}\n\n{HEAD}", f"\n{promised}{back}" if promised else ""
    return f"{front}{MARKS[0]}{map_of(crate)}{MARKS[1]}{back}"


def crates_with_maps():
    return [it.parent for it in sorted((TOP / "crates").glob("*/README.md"))]


def main():
    for crate in crates_with_maps():
        (crate / "README.md").write_text(readme(crate))


if __name__ == "__main__":
    main()
