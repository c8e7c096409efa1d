#!/usr/bin/env python3
"""Writes docs/STATEMENT.md to standard output: the top call and its clauses, the contracts of the
devices, the laws of the machine and of its runners, and all definitions that these cite.

    python3 tools/statement.py > docs/STATEMENT.md

Each definition has a heading, which is its name, and a name is of one definition: what has a name
that is another's too is written with its crate before it, and with its file where the crate has
that name twice; a constructor with its type. An import under another name is written under its own.
"""

import re
import sys
from collections import Counter, defaultdict
from textwrap import dedent

from specs import Definition, Meaning, Repository

CALL = ("sendmail_run", "program", "sendmail")
DEVICES = [
    ("mail_edge", "files", "Files"),
    ("mail_edge", "source", "Source"),
    ("mail_edge", "sink", "Sink"),
    ("mail_edge", "clock", "Clock"),
    ("spool_disk", "spool", "Spool"),
    ("link_edge", "floor", "Floor"),
    ("link_edge", "dialer", "Dialer"),
    ("spawn_edge", "spawner", "Spawner"),
]
# Crates whose laws are on the page, and those whose definitions come first.
LAWS = ["mail_core", "queue_run"]
FIRST = ["sendmail_run", "mail_core"]

INTRODUCTION = """\
`make statement` writes this page from the specs. [THEOREM.md](THEOREM.md) says in words what stands
here, and leads into it. First comes [the call](#the-call) that the program makes, with its clauses;
then what they take the [devices](#the-devices) to do, and the [laws](#the-laws) on what the clauses
speak of. Behind these stand the definitions that they cite, by crate, from the top down, and at the
end the [index](#index).

Above each definition are its comment and links to all that it cites. A name means one definition:
where two have the same, or something else is called so, as what is bound or is a field, the crate
stands before it, and the file where that is needed. A constructor is found under its type, which so
stands before it. Names of std and of the kit are theirs, and have no heading.

| Sign | Means |
|---|---|
| `x ≡ y`, `x ≢ y` | they are the same, they aren't |
| `A × B`, `A ⊎ B`, `A → B`, `¬ A` | both, one of the two, where A then B, not A |
| `(x : T) → A`, `(x : T) × A` | A of each x, A of some x |
| `Type 0` | a statement, or a type of values |
| `record`; `r.f` | all of its fields are there, and hold; one of them |
| `data` | one of its constructors, and no more ways |
| `λ x. e`, `f x y` | the function of x, a function at arguments |
| `Unit {0}`, `⊥` | what always holds, what never does |
| `[]`, `x ∷ xs`, `xs ++ ys` | lists: none, one in front, one behind the other |
| `None`, `Some x`; `IfSome o p` | there is none, there is x; p holds of it where there is one |
| `Ok x`, `Err e`; `IfOk r p` | a result, a refusal; p holds of the result where there is one |
| `module _ (x : T) where` | what stands under it has x as its first argument |
| `pub`, `abbrev`, `unfoldable` | for the prover |
| `old`, `new`, `now` | before the call, behind it, in both |
| `codes "ab"` | the bytes of that text; texts are lists of bytes |
"""


# ---- names


def anchor(heading):
    """The name by which a heading is linked."""
    return re.sub(r"[^\w\- ]", "", heading.lower()).replace(" ", "-")


def last(name):
    return name.split(".")[-1]


class Names:
    """How definitions and constructors are written, so that each name is one's: taken are the names
    that stand for something else, as those of std and all that are bound somewhere."""

    def __init__(self, shown, taken):
        self.taken = taken
        self.tops = Counter(it.name for it in shown)
        self.in_crate = Counter((it.crate, it.name) for it in shown)
        self.constructors = Counter(name for it in shown for name in it.constructors)
        self.in_types = Counter((it.name, name) for it in shown for name in it.constructors)
        self.headings, self.anchors, used = {}, {}, set()
        # A type keeps its name as its heading where a function's differs in case alone.
        for definition in sorted(shown, key=lambda it: it.name[:1].islower() or it.name.isupper()):
            heading = next(it for it in self.ways(definition) if anchor(it) not in used)
            used.add(anchor(heading))
            self.headings[definition], self.anchors[definition] = heading, anchor(heading)

    def ways(self, definition):
        name, kind = self.name(definition), definition.kind
        return name, f"{name} ({kind})", f"{name} ({kind} of {definition.crate})"

    def name(self, definition):
        """With its crate where the name is another's too, and its file where that is needed."""
        if self.tops[definition.name] == 1 and definition.name not in self.taken:
            return definition.name
        if self.in_crate[definition.crate, definition.name] == 1:
            return f"{definition.crate}.{definition.name}"
        module = definition.source.module.removeprefix("declared.")
        return f"{definition.crate}.{module}.{definition.name}"

    def constructor(self, definition, name):
        if self.constructors[name] == 1 and name not in self.taken and not self.tops[name]:
            return name
        alone = self.in_types[definition.name, name] == 1
        return f"{definition.name if alone else self.name(definition)}.{name}"

    def of(self, meaning):
        if meaning.is_foreign:
            return meaning.told
        if meaning.constructor:
            return self.constructor(meaning.definition, meaning.constructor)
        return self.name(meaning.definition)

    def link(self, definition):
        return f"[{self.name(definition)}](#{self.anchors[definition]})"

    def entries(self):
        """The links of the index: a constructor's is that of its type."""
        for definition, place in self.anchors.items():
            yield self.name(definition), place
            yield from ((self.constructor(definition, it), place) for it in definition.constructors)


# ---- what is on the page


def read_call(repository):
    """The top call's signature, and each of its clauses as a definition of its own."""
    crate, file, name = CALL
    source = repository.code(crate, file)
    lines = source.lines
    at = next(n for n, line in enumerate(lines) if line.startswith(f"pub fn {name}<"))
    end = next(n for n in range(at, len(lines)) if lines[n] == "{")
    first = at
    while lines[first - 1].startswith("///"):
        first -= 1
    starts = [n for n in range(at, end) if re.match(r"    (requires|ensures) ", lines[n])]
    comment = [line[4:] for line in lines[first:at]]
    call = Definition(source, name, "call", comment, lines[at:starts[0]])
    clauses = []
    for begin, behind in zip(starts, starts[1:] + [end]):
        text = [line[4:] for line in lines[begin:behind]]
        clauses.append(Definition(source, " ".join(text[0].split()[:2]), "law", [], text))
    return call, clauses


def laws_of(repository, crate):
    """The laws that the crate hands out, by its files, of which `law.rt` is the first."""
    public = repository.exports(crate)
    for stem in sorted(set(public.values()), key=lambda it: (it != "law", it)):
        for definition in repository.code(crate, stem).definitions.values():
            if definition.kind == "law" and public.get(definition.name) == stem:
                yield definition


def reached(*roots):
    """All that the roots cite, and what these cite in turn: what the first ones cite first, and
    what is nearest to them."""
    given = {it for some in roots for it in some}
    order = {}
    for level in roots:
        while level:
            cited = (meaning.definition for it in level for meaning in it.cited)
            level = list(dict.fromkeys(it for it in cited if it not in order and it not in given))
            order.update(dict.fromkeys(level))
    return list(order)


# ---- comments


def plain(text):
    """A comment as Markdown: outside of backquotes no sign has a meaning."""
    parts = re.split(r"(`[^`]*`)", text)
    return "".join(it if it[:1] == "`" else re.sub(r"([<*\[\]])", r"\\\1", it) for it in parts)


class Page:
    def __init__(self, repository):
        self.repository = repository
        self.call, self.clauses = read_call(repository)
        self.devices = [repository.code(*it[:2]).definitions[it[2]] for it in DEVICES]
        self.laws = [law for crate in LAWS for law in laws_of(repository, crate)]
        self.below = reached(self.clauses, self.devices, self.laws)
        shown = self.devices + self.laws + self.below
        whole = self.clauses + shown
        said = {it.meaning for one in whole for it in one.words if it.meaning}
        bound = {name for one in whole for name in one.bound}
        crates = {it.crate for it in shown}
        self.names = Names(shown, {it.told for it in said if it.is_foreign} | bound | crates)
        self.near = defaultdict(list)
        for definition in shown:
            self.near[definition.crate, definition.name].append(definition)

    def lines(self):
        yield from ["# The statement of the top call", "", INTRODUCTION]
        yield from self.contents()
        yield from ["## The call", "", *self.prose(self.call), ""]
        yield from ["```rust", *self.call.lines, "```", ""]
        for clause in self.clauses:
            yield from self.told(clause, f"`{clause.name}`", self.cites(clause))
        for title, definitions in (("The devices", self.devices), ("The laws", self.laws)):
            yield from [f"## {title}", ""]
            for definition in definitions:
                yield from self.described(definition)
        for crate in self.crates():
            yield from self.crate(crate)
        yield from self.index()

    def crates(self):
        """The call's and the machine's, and then the others, each before all that it stands on."""
        there = {it.crate for it in self.below}
        below = [it for it in reversed(self.repository.crates()) if it not in FIRST]
        return [it for it in FIRST + below if it in there]

    def contents(self):
        counts = Counter(it.crate for it in self.below)
        said = ", ".join(f"[{crate}](#{crate}) {counts[crate]}" for crate in self.crates())
        yield from [f"Definitions by crate: {said}.", ""]

    def crate(self, crate):
        yield from [f"## {crate}", ""]
        files = defaultdict(list)
        for definition in self.below:
            if definition.crate == crate:
                files[definition.source].append(definition)
        for source, definitions in files.items():
            head = plain(" ".join(source.head))
            yield from [f"**{source.place}**" + (f": {head}" if head else ""), ""]
            for definition in definitions:
                yield from self.described(definition)

    def index(self):
        letters = defaultdict(list)
        entries = sorted(set(self.names.entries()), key=lambda it: (last(it[0]).lower(), it))
        for name, place in entries:
            letters[last(name)[0].upper()].append(f"[{name}](#{place})")
        yield from ["## Index", "", "By a name's last part; a constructor leads to its type.", ""]
        for letter, links in sorted(letters.items()):
            yield from [f"**{letter}** " + ", ".join(links), ""]

    # ---- one definition

    def described(self, definition):
        said = " ".join(self.prose(definition))
        said += "." if said and said[-1] not in ".:;" else ""
        sentence = f"{said} {self.cites(definition)}".strip()
        yield from self.told(definition, self.names.headings[definition], sentence)

    def told(self, definition, heading, sentence):
        yield from [f"### {heading}", *([sentence, ""] if sentence else [])]
        for line in dedent(self.text(definition)).split("\n"):
            yield "    " + line if line else ""
        yield ""

    def cites(self, definition):
        """Links to all that it cites; of a type in brackets the constructors that don't name it."""
        cited = defaultdict(list)
        for meaning in definition.cited:
            shown = self.names.of(meaning)
            named = meaning.constructor is None or "." in shown
            cited[meaning.definition] += [] if named else [shown]
        links = [self.names.link(it) + (f" ({', '.join(some)})" if some else "")
                 for it, some in cited.items()]
        return f"Cites {', '.join(links)}." if links else ""

    def text(self, definition):
        """Its text, with each name as it is written on this page."""
        out = "".join(self.word(definition, word) for word in definition.words)
        for name in definition.constructors if definition.kind == "data" else []:
            # Where the name is also bound, it is no name of a definition there.
            shown = self.names.constructor(definition, name)
            out = re.sub(rf"^( +){name} :", rf"\1{shown} :", out, count=1, flags=re.M)
        return "\n".join(line for line in out.split("\n") if not line.startswith("    #["))

    def word(self, definition, word):
        if word.meaning is None:
            return word.text
        shown = self.names.of(word.meaning)
        if definition.kind in ("type", "constant"):
            shown = shown.replace(".", "::")
        return shown + word.rest

    def prose(self, definition):
        """Its comment by paragraphs, where names in backquotes lead to their definitions."""
        text = re.sub(r"\[(`[^`]*`)\]", r"\1", "\n".join(definition.comment))
        paragraphs = [plain(" ".join(it.split())) for it in re.split(r"\n\s*\n", text)]
        lead = lambda found: self.lead(definition, found.group(1))
        return [re.sub(r"`([^`]+)`", lead, it) for it in paragraphs if it]

    def lead(self, definition, name):
        meaning = definition.source.meaning(name)[0] if re.fullmatch(r"\w+", name) else None
        near = self.near[definition.crate, name]
        if meaning is None and len(near) == 1:
            meaning = Meaning(near[0], None, name)
        if meaning is None or meaning.definition not in self.names.anchors:
            return f"`{name}`"
        return f"[`{self.names.of(meaning)}`](#{self.names.anchors[meaning.definition]})"


def main():
    sys.stdout.write("\n".join(Page(Repository()).lines()).rstrip() + "\n")


if __name__ == "__main__":
    main()
