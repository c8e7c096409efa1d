"""What the specs of the repository define, and what each definition cites.

A `Definition` is a definition of specs/, a type, trait or constant of the code, or a law: a public
function that is there for its contract. `Repository.resolve` finds the one that an import means;
`Definition.words` cuts its text, and says of each name what it stands for there, so that bound
names, fields and names of std aren't taken for definitions.
"""

from __future__ import annotations

import re
from dataclasses import dataclass, field
from functools import cache, cached_property
from pathlib import Path

TOP = Path(__file__).resolve().parent.parent
CRATES = TOP / "crates"

# An import of specs, and one of code.
USE = re.compile(
    r"^(?:pub )?(?:ghost )?use Rattle\.(\w+)\.specs\.([\w.]+?)(?:\.\{([^}]*)\}| as (\w+))?;?$"
)
RUST_USE = re.compile(r"^(?:pub )?use ([\w:]+?)::(?:\{([^}]*)\}|(\w+(?: as \w+)?));", re.M)
# The first line of a definition of specs, and of an item of code.
HEAD = re.compile(r"^(?:abbrev |unfoldable )?(?:pub )?(record |data )?([A-Za-z_]\w*)(?= [:({]|$)")
ITEM = re.compile(r"^(?:pub(?:\(crate\))? )?(struct|enum|trait|const|fn) (\w+)")
IMPL = re.compile(r"^impl(?:<[^>]*>)? (\w+)")
NO_HEAD = ("example", "use", "module", "unfolding")
# What a definition declares within it, by its kind.
PARTS = {
    "data": re.compile(r"^ {2,4}([A-Za-z_]\w*) :"),
    "record": re.compile(r"^ {2,4}(?:pub )?([a-z_]\w*) :"),
    "enum": re.compile(r"^    ([A-Z]\w*)\b"),
    "struct": re.compile(r"^    (?:pub(?:\(crate\))? )?(\w+):"),
}
CODE = {"struct": "type", "enum": "type", "trait": "trait", "const": "constant", "fn": "law"}

COMMENT = re.compile(r"--[^\n]*|//[^\n]*")
TOKEN = re.compile(
    COMMENT.pattern
    + r'|"(?:[^"\\]|\\.)*"|\d\w*|[A-Za-z_]\w*(?:(?:\.|::)[A-Za-z_0-9]\w*)*|\s+|.',
    re.S,
)
NAME = re.compile(r"[A-Za-z_]")
# What binds names: (x y : T), λ x y., let x, and `x: T` in code.
TELESCOPE = re.compile(r"[({]\s*((?:[A-Za-z_]\w*\s+)*[A-Za-z_]\w*)\s+:\s")
LAMBDA = re.compile(r"λ([^.]*)\.")
LET = re.compile(r"\blet ([a-z_]\w*)\b")
PARAMETER = re.compile(r"\b([a-z_]\w*): ")


@dataclass(frozen=True)
class Meaning:
    """What a name stands for: a definition, one of its constructors, or a name of std or the kit,
    which has no definition here. `told` is its own name."""

    definition: Definition | None
    constructor: str | None
    told: str

    @property
    def is_foreign(self):
        return self.definition is None


@dataclass(frozen=True)
class Word:
    """A piece of a text: where it is a name with a meaning, that, and what is behind it by dots."""

    text: str
    meaning: Meaning | None = None
    rest: str = ""


@dataclass(eq=False)
class Definition:
    source: Source
    name: str
    kind: str  # in specs record, data or function; in code type, trait, constant or law
    comment: list
    lines: list
    within: str = ""  # the line `module _ (..) where` that it stands under
    constructors: list = field(default_factory=list)
    fields: list = field(default_factory=list)

    @property
    def crate(self):
        return self.source.crate

    @property
    def is_code(self):
        return self.kind in CODE.values()

    @property
    def margin(self):
        return "  " if self.within else ""

    @property
    def text(self):
        return "\n".join(([self.within] if self.within else []) + self.lines)

    @cached_property
    def words(self):
        return list(Scope(self).words())

    @cached_property
    def bound(self):
        """The names that are bound in it, or are its fields."""
        scope = Scope(self)
        return {name for unit in scope.units() for name in scope.bound(unit)}

    @cached_property
    def cited(self):
        """The meanings of its names, each once, in their order, but its own and foreign ones."""
        said = {word.meaning: None for word in self.words if word.meaning}
        return [it for it in said if it.definition not in (None, self)]

    def declare(self, kind):
        """Finds its constructors or fields, as what is of that kind has them."""
        pattern, margin = PARTS.get(kind), len(self.margin) + (4 if self.is_code else 2)
        for line in self.lines[1:] if pattern else []:
            found = pattern.match(line)
            if found and len(line) - len(line.lstrip()) == margin:
                into = self.constructors if kind in ("data", "enum") else self.fields
                into.append(found.group(1))
        return self


class Source:
    """A file of specs/ or src/: what its names mean, and the definitions that stand in it."""

    def __init__(self, repository, crate, module, path):
        self.repository, self.crate, self.module, self.path = repository, crate, module, path
        self.lines = path.read_text(encoding="utf-8").splitlines()
        self.names, self.aliases = {}, {}
        for use in filter(None, map(USE.match, self.lines)):
            if use.group(4):
                self.aliases[use.group(4)] = use.group(1, 2)
            self.take(use.group(3), *use.group(1, 2))
        if path.suffix == ".rt":
            for where, names, one in RUST_USE.findall("\n".join(self.lines)):
                self.take(names or one, "rust", where)

    def take(self, names, crate, module):
        """Takes the names of an import, with where each comes from; the first of a name counts."""
        for name in re.split(r",\s*", (names or "").strip()):
            told, _, here = name.strip().partition(" as ")
            if told:
                self.names.setdefault(here or told, (crate, module, told))

    @property
    def place(self):
        """Its path in its crate."""
        return self.path.relative_to(CRATES / self.crate)

    @cached_property
    def head(self):
        """The comment at the head of a file of specs."""
        said = []
        for line in self.lines:
            if not line.startswith("-- ") or line.startswith("-- ----"):
                break
            said.append(line[3:])
        return said

    @cached_property
    def definitions(self):
        found = read_code(self) if self.path.suffix == ".rt" else read_specs(self)
        return {it.name: it for it in found}

    @cached_property
    def constructors(self):
        """The definition of each constructor of specs/ that stands here."""
        told = [it for it in self.definitions.values() if not it.is_code]
        return {name: it for it in told for name in it.constructors}

    def here(self, name):
        """What a name that isn't imported means here."""
        if name in self.definitions:
            return Meaning(self.definitions[name], None, name)
        if name in self.constructors:
            return Meaning(self.constructors[name], name, name)
        return None

    def meaning(self, name):
        """What a name with its dots means here, and how many of its parts are that."""
        parts = re.split(r"\.|::", name)
        if parts[0] in self.aliases and len(parts) > 1:
            return self.repository.resolve(*self.aliases[parts[0]], parts[1]), 2
        if parts[0] in self.names:
            return self.repository.resolve(*self.names[parts[0]], self), 1
        return self.here(parts[0]), 1


# ---- reading files


def comment_above(lines, at, mark):
    """The comment above a line, without its marks; a line of dashes is a title and no comment."""
    first = at
    while first > 0 and re.match(rf"\s*{mark}(?!----)", lines[first - 1]):
        first -= 1
    return [line.strip()[len(mark):].strip() for line in lines[first:at]]


def read_specs(source):
    """The definitions of a file of specs/, those within a `module _` too, but no example."""
    lines, within, above = source.lines, "", 0
    at = 0
    while at < len(lines):
        if lines[at].startswith("module _"):
            within, above = lines[at], at
        elif lines[at] and not lines[at].startswith(" "):
            within = ""
        head = HEAD.match(lines[at].removeprefix("  ") if within else lines[at])
        if head is None or head.group(2) in NO_HEAD or lines[at].startswith("pub mod "):
            at += 1
            continue
        end = end_of(lines, at, within)
        comment = comment_above(lines, at, "-- ")
        if within and above == at - 1:
            comment = comment_above(lines, above, "-- ")
        kind = (head.group(1) or "function").strip()
        found = Definition(source, head.group(2), kind, comment, lines[at:end], within)
        yield found.declare(kind)
        at = end


def end_of(lines, at, within):
    """The line behind a definition: an empty one, or a comment at its margin."""
    mark = re.compile(r"(?:  )?-- " if within else r"-- ")
    end = at + 1
    while end < len(lines) and lines[end].strip() and not mark.match(lines[end]):
        end += 1
    return end


def read_code(source):
    """The types, traits and constants of a file of src/, and the laws of a `law.rt`."""
    lines, within = source.lines, None
    for at, line in enumerate(lines):
        impl = IMPL.match(line)
        within = impl.group(1) if impl else None if line.startswith("}") else within
        item = ITEM.match(line.strip() if within and " const " in line else line)
        if item is None or item.group(1) == "fn" and not source.path.stem.endswith("law"):
            continue
        kind, name = item.groups()
        end = at + 1
        if not line.rstrip().endswith(";"):
            while lines[end].rstrip() not in ("}", "{", "{}"):
                end += 1
            end += lines[end].rstrip() == "}"
        above = at
        while lines[above - 1].strip().startswith("#["):
            above -= 1
        comment = comment_above(lines, above, "///") or comment_above(lines, above, "//")
        named = f"{within}.{name}" if within else name
        yield Definition(source, named, CODE[kind], comment, lines[at:end]).declare(kind)


class Repository:
    """The files of all crates, each read once."""

    @cache
    def source(self, crate, module):
        """The file of a module: of src/ where it is `declared`; none of std's and the kit's."""
        folder, *parts = module.split(".")
        path = CRATES / crate / "specs" / ("/".join([folder, *parts]) + ".antt")
        if folder == "declared":
            path = CRATES / crate / "src" / ("/".join(parts) + ".rt")
        return Source(self, crate, module, path) if path.exists() else None

    def code(self, crate, stem):
        return self.source(crate, f"declared.{stem}")

    def crates(self):
        """The crates of crates.txt, each behind all that it stands on."""
        lines = [it.split(":") for it in (TOP / "crates.txt").read_text().splitlines() if it]
        below = {crate: wanted.split() for crate, wanted in lines}
        order = {}

        def visit(crate):
            if crate in below and crate not in order:
                for other in below[crate]:
                    visit(other)
                order[crate] = None

        for crate in below:
            visit(crate)
        return list(order)

    def resolve(self, crate, module, name, source=None):
        """What a name of a module means; source is the file that imports it, where that is code."""
        if crate == "rust":
            return self.resolve_rust(module, name, source)
        if module.startswith("declared."):
            return self.resolve_declared(crate, module.split(".")[1:], name)
        found = self.source(crate, module)
        if found is None:
            return Meaning(None, None, name)
        return found.here(name) or found.meaning(name)[0]

    def resolve_declared(self, crate, parts, name):
        """A type of the code by its file and itself, a variant of one, or a constant."""
        constructor = None
        if "TheVariants" in parts:
            stem, told, constructor = parts[:-2], parts[-2], name
        elif "TheConstants" in parts:
            at = parts.index("TheConstants")
            stem, told = parts[:at], ".".join(parts[at + 1:] + [name])
        else:
            stem, told = parts[:-1], parts[-1]
        source = self.code(crate, ".".join(stem))
        definition = source and source.definitions.get(told)
        return definition and Meaning(definition, constructor, constructor or told)

    def resolve_rust(self, path, name, source):
        """A name that code imports: from a file of its crate, or from what a crate hands out."""
        first, *rest = path.split("::")
        crate = source.crate if first == "crate" else first
        if not (CRATES / crate).exists():
            return Meaning(None, None, name)
        inner = first == "crate" and rest
        stem = ".".join(rest) if inner else self.exports(crate).get(name)
        found = self.code(crate, stem) if stem else None
        definition = found and found.definitions.get(name)
        return definition and Meaning(definition, None, name)

    @cache
    def exports(self, crate):
        """The module of each name that a crate's root hands out."""
        root = self.code(crate, "lib")
        handed = root.names.items() if root else []
        return {here: path.replace("::", ".") for here, (kind, path, _) in handed if kind == "rust"}


# ---- what the words of a definition mean


class Scope:
    """Cuts the text of a definition into words, and tells what is bound in it, or a label, from
    names of definitions."""

    def __init__(self, definition):
        self.definition, self.source = definition, definition.source

    def words(self):
        for number, unit in enumerate(self.units()):
            if number:
                yield Word("\n")
            yield from self.cut(unit, self.bound(unit))

    def units(self):
        """The parts of the text in which a name is bound or isn't: of a function its signature and
        each of its equations."""
        definition = self.definition
        if definition.kind != "function":
            yield definition.text
            return
        unit = [definition.within] if definition.within else []
        for number, line in enumerate(definition.lines):
            if number and line.startswith(f"{definition.margin}{definition.name} "):
                yield "\n".join(unit)
                unit = []
            unit.append(line)
        yield "\n".join(unit)

    def bound(self, unit):
        shown = self.definition.within + "\n" + COMMENT.sub("", unit)
        names = set(self.definition.fields)
        for found in TELESCOPE.findall(shown):
            names.update(found.split())
        for found in LAMBDA.findall(shown):
            names.update(re.findall(r"[A-Za-z_]\w*", re.sub(r":[^)]*", "", found)))
        names.update(LET.findall(shown))
        if self.definition.is_code:
            names.update(PARAMETER.findall(shown))
        if self.definition.kind == "function":
            names.update(self.patterns(shown))
        return names - {self.definition.name}

    def patterns(self, unit):
        """The names that the left side of an equation binds."""
        head = self.definition.margin + self.definition.name
        equation = re.search(rf"^{head}\b(?! :)(.*?) =(?:\s|$)", unit, re.M | re.S)
        words = TOKEN.findall(equation.group(1)) if equation else []
        words = [it for it in words if not it.isspace()] + [")"]
        for before, word, behind in zip([""] + words, words, words[1:]):
            applied = before == "(" and re.match(r'[A-Za-z_({["]', behind)
            if NAME.match(word) and not applied and not self.is_constructor(word):
                yield word

    def is_constructor(self, word):
        meaning, _ = self.source.meaning(word)
        if "." in word or meaning is None:
            return "." in word
        return meaning.constructor is not None or meaning.is_foreign

    def cut(self, unit, bound):
        words = TOKEN.findall(unit)
        solid = [at for at, word in enumerate(words) if not word.isspace()]
        before = {at: words[one] for one, at in zip(solid, solid[1:])}
        behind = {at: words[one] for at, one in zip(solid, solid[1:])}
        for at, word in enumerate(words):
            projected = at > 0 and words[at - 1] == "."
            if not NAME.match(word) or projected or word.split(".")[0] in bound:
                yield Word(word)
            elif self.is_label(word, before.get(at, ""), behind.get(at, "")):
                yield Word(word)
            else:
                yield self.meant(word)

    def is_label(self, word, before, behind):
        """A field that is declared or set, or the name of a clause, a function or a parameter."""
        if behind == "=" and before in ("{", ";"):
            return True
        if self.definition.is_code:
            clause = before in ("ensures", "requires", "ghost") and behind in (":", "{")
            return clause or before == "fn" or behind == ":" and before in ("pub", ",", "(")
        return behind == ":" and word in self.definition.fields

    def meant(self, word):
        meaning, taken = self.source.meaning(word)
        if word in self.definition.constructors:
            meaning, taken = Meaning(self.definition, word, word), 1
        if meaning is None:
            return Word(word)
        pieces = re.split(r"(\.|::)", word)
        return Word(word, meaning, "".join(pieces[2 * taken - 1:]))
