#!/usr/bin/env python3
"""Checks that all that docs/THEOREM.md names is there, and that docs/STATEMENT.md can be followed.

    python3 tools/theorem.py

It prints a line for each of these, with the page and its line, and ends with 1 if there is one:
a link whose file or heading isn't there, or which leads to another name's heading; a name in
backquotes in THEOREM.md that is no definition, constructor, field, clause or law of STATEMENT.md
and no file; and a name that stands for two definitions in STATEMENT.md.
"""

import re
import sys
from collections import defaultdict
from dataclasses import dataclass, field
from pathlib import Path

from statement import anchor

TOP = Path(__file__).resolve().parent.parent
THEOREM = TOP / "docs/THEOREM.md"
STATEMENT = TOP / "docs/STATEMENT.md"

HEADING = re.compile(r"^(#+) (.*)$")
LINK = re.compile(r"\[([^\]]+)\]\(([^)\s]+)\)")
QUOTED = re.compile(r"`([^`]+)`")
INDENT = "    "
# What a block declares within it: a constructor, a field, a clause, a function of a trait.
CONSTRUCTOR = re.compile(r"^ {2,4}([A-Za-z_][\w.]*) :")
VARIANT = re.compile(r"^    ([A-Za-z_][\w:]*)[,({ ]")
FIELD = re.compile(r"^ {2,4}(?:pub(?:\(crate\))? )?([a-z_]\w*) ?: ?")
CLAUSE = re.compile(r"^\s*(?:requires|ensures) ([a-z_]+) ")
METHOD = re.compile(r"^\s*(?:fn|ghost) ([a-z_]\w*)")


@dataclass
class Section:
    """A heading with what stands under it."""

    line: int
    heading: str
    block: list = field(default_factory=list)

    @property
    def name(self):
        return self.heading.strip("`").split(" (")[0]

    @property
    def head(self):
        """The line of the block that begins the definition."""
        return next((it for it in self.block if it.strip() and not it.startswith("module ")), "")

    @property
    def constructors(self):
        """The constructors that the block declares, as they are written there."""
        if re.match(r"\s*pub data ", self.head):
            pattern, margin = CONSTRUCTOR, len(self.head) - len(self.head.lstrip()) + 2
        elif re.match(r"(pub(\(crate\))? )?enum ", self.head):
            pattern, margin = VARIANT, 4
        else:
            return []
        lines = [it for it in self.block if len(it) - len(it.lstrip()) == margin]
        return [found.group(1).replace("::", ".") for found in map(pattern.match, lines) if found]

    @property
    def parts(self):
        """The fields, functions and clauses that the block declares."""
        found = (it.match(line) for line in self.block for it in (FIELD, CLAUSE, METHOD))
        return {it.group(1) for it in found if it}


class Statement:
    """STATEMENT.md by its headings."""

    def __init__(self, path):
        self.lines = path.read_text(encoding="utf-8").split("\n")
        self.sections, fenced = [], False
        for number, line in enumerate(self.lines, 1):
            fenced ^= line.startswith("```")
            heading = HEADING.match(line)
            if heading and not fenced:
                self.sections.append(Section(number, heading.group(2)))
            elif line.startswith(INDENT) and self.sections:
                self.sections[-1].block.append(line[len(INDENT):])
        self.by_anchor = {anchor(it.heading): it for it in self.sections}
        self.by_name = {it.name: it for it in self.sections}
        self.owners = defaultdict(list)
        for section in self.sections:
            for name in section.constructors:
                self.owners[name].append(section)

    def knows(self, name):
        """Whether a name is of a definition, or of a part of one, where it stands behind a dot."""
        whole, _, part = name.rpartition(".")
        own = self.by_name.get(whole)
        return name in self.by_name or name in self.owners or own is not None and part in own.parts

    def leads(self, name, place):
        """Whether the heading at an anchor is of that name, or of what declares it."""
        section = self.by_anchor[place]
        name = name.strip("`")
        whole, _, part = name.rpartition(".")
        return (section.name == name or section.name == whole and part in section.parts
                or section in self.owners.get(name, []))

    def faults(self):
        yield from self.doubles()
        for number, line in enumerate(self.lines, 1):
            if line.startswith(INDENT):
                continue
            for name, target in LINK.findall(line):
                if not target.startswith("#"):
                    continue
                if target[1:] not in self.by_anchor:
                    yield number, f"{target} isn't there"
                elif self.knows(name.strip("`")) and not self.leads(name, target[1:]):
                    yield number, f"{target} is another than {name}"

    def doubles(self):
        """Headings that one anchor stands for, and names that two definitions have."""
        anchors, names = {}, {}
        for section in self.sections:
            place = anchor(section.heading)
            if place in anchors:
                yield section.line, f"#{place} is also in line {anchors[place]}"
            anchors[place] = section.line
            for name in [section.name, *section.constructors]:
                if name in names:
                    yield section.line, f"{name} is also in line {names[name]}"
                names[name] = section.line


def theorem_faults(page, statement):
    for number, line in enumerate(page.read_text(encoding="utf-8").split("\n"), 1):
        for name, target in LINK.findall(line):
            yield from ((number, it) for it in link_faults(page, name, target, statement))
        for name in QUOTED.findall(LINK.sub("", line)):
            if not statement.knows(name) and not is_file(name):
                yield number, f"`{name}` is in no definition, and no file"


def link_faults(page, name, target, statement):
    file, _, place = target.partition("#")
    path = (page.parent / file).resolve() if file else page
    quoted = QUOTED.fullmatch(name)
    if not path.exists():
        yield f"{target} isn't there"
    elif path == STATEMENT and place and place not in statement.by_anchor:
        yield f"{target} isn't there"
    elif path == STATEMENT and quoted and not (place and statement.leads(name, place)):
        yield f"{target} doesn't have {name}"
    elif path.suffix == ".rt" and quoted and not declares(path, quoted.group(1)):
        yield f"{target} doesn't have {name}"
    elif place and path != STATEMENT and path.suffix == ".md" and place not in anchors_of(path):
        yield f"{target} isn't there"


def anchors_of(path):
    found = map(HEADING.match, path.read_text(encoding="utf-8").split("\n"))
    return {anchor(it.group(2)) for it in found if it}


def declares(path, name):
    """Whether a file of code has that function or type, or behind it that clause."""
    whole, _, clause = name.partition(".")
    text = path.read_text(encoding="utf-8")
    found = re.search(rf"\b(?:fn|struct|enum|trait) {whole}\b", text)
    behind = text[found.end():] if found else ""
    return bool(found and re.search(rf"(?:ensures|requires) {clause} " if clause else "", behind))


def is_file(name):
    return "/" in name and (TOP / name).exists()


def main():
    statement = Statement(STATEMENT)
    found = [(STATEMENT, *it) for it in statement.faults()]
    found += [(THEOREM, *it) for it in theorem_faults(THEOREM, statement)]
    for page, number, fault in found:
        print(f"{page.relative_to(TOP)}:{number}: {fault}")
    return 1 if found else 0


if __name__ == "__main__":
    sys.exit(main())
