#!/usr/bin/env python3
"""Draws the crates of the program, from crates.txt: docs/architecture.svg, and a table of them.

    python3 tools/architecture.py

Each crate stands above those that it stands on, and an arrow goes down to each of these but where
one of the others stands on it too. The table goes into docs/ARCHITECTURE.md between its marks.
"""

from crates import TOP, crates, kit, levels, product, reduced

PAGE, DRAWING = TOP / "docs/ARCHITECTURE.md", TOP / "docs/architecture.svg"
MARKS = "<!-- crates: begin -->\n", "<!-- crates: end -->\n"
# A box, a letter, what an arrow takes that passes by, a row, and the edge of the drawing.
HIGH, LETTER, PASS, ROW, EDGE = 26, 7.3, 10, 96, 40
# What each colour stands for, by names of crates or their fronts.
GROUPS = (
    (
        "devices, and the program",
        "#f4d9c6",
        "sendmail mail_edge link_edge spawn_edge spool_disk delivery_devices told_devices "
        "queue_devices session_devices shared_devices",
    ),
    (
        "configuration and rules",
        "#d6e4f5",
        "addr_ cf_ map_ rule_ ruleset_ alias_ mail_judge",
    ),
    ("sessions, headers, letters", "#dcefd8", "smtp_ mail_header header_ mailer_ dsn_"),
    ("the queue", "#f5ecc8", "qf_ spool_store queue_"),
    ("the whole", "#e6dcf0", ""),
)


def colour(name):
    for exact in (True, False):
        for _, fill, words in GROUPS[:-1]:
            for it in words.split():
                if name == it if exact else it.endswith("_") and name.startswith(it):
                    return fill
    return GROUPS[-1][1]


def wide(item):
    return len(item) * LETTER + 26 if isinstance(item, str) else PASS


def chains(near, height):
    """Each arrow as what it goes by: a crate, a place in each row between, and a crate."""
    for name, on in near.items():
        for it in on:
            between = range(height[name] - 1, height[it], -1)
            yield [name, *((name, it, at) for at in between), it]


def rows(near, height):
    """The crates of each level with the arrows that pass, placed so that few arrows cross."""
    said = {at: [] for at in range(1, max(height.values()) + 1)}
    ends = {}
    for name in near:
        said[height[name]].append(name)
        ends[name] = ([], [])
    for chain in chains(near, height):
        for item in chain[1:-1]:
            said[item[2]].append(item)
            ends[item] = ([], [])
        for above, under in zip(chain, chain[1:]):
            ends[above][1].append(under)
            ends[under][0].append(above)
    place = {item: at / len(row) for row in said.values() for at, item in enumerate(row)}
    for turn in range(60):
        for row in said.values():
            near_by = {it: ends[it][turn % 2] or [it] for it in row}
            mean = {it: sum(place[x] for x in near_by[it]) / len(near_by[it]) for it in row}
            row.sort(key=lambda it: mean[it])
            place.update({item: (at + 0.5) / len(row) for at, item in enumerate(row)})
    return said


def places(said):
    """The middle and the top of each box and passing arrow, and the width of the drawing."""
    total = max(sum(wide(it) for it in row) for row in said.values()) + 2 * EDGE
    found = {}
    for at, row in said.items():
        free = (total - 2 * EDGE - sum(wide(it) for it in row)) / (len(row) + 1)
        left = EDGE + free
        for item in row:
            found[item] = (left + wide(item) / 2, (max(said) - at) * ROW + 50)
            left += wide(item) + free
    return found, total


def arrow(points):
    (x, y), *rest = points
    y += HIGH
    path = f"M{x:.0f} {y}"
    for number, (to, top) in enumerate(rest, 1):
        low = top - 4 if number == len(rest) else top
        bend = (low - y) / 2
        path += f" C{x:.0f} {y + bend:.0f} {to:.0f} {low - bend:.0f} {to:.0f} {low}"
        if number < len(rest):
            path += f" L{to:.0f} {top + HIGH}"
        x, y = to, top + HIGH
    return f'<path d="{path}" fill="none" stroke="#8a8f98" marker-end="url(#tip)"/>'


def box(name, middle, top):
    side = len(name) * LETTER + 14
    left = middle - side / 2
    return (
        f'<rect x="{left:.1f}" y="{top}" width="{side:.1f}" height="{HIGH}" rx="4" '
        f'fill="{colour(name)}" stroke="#5c6470"/>\n'
        f'<text x="{middle:.1f}" y="{top + 17}" text-anchor="middle">{name}</text>'
    )


def legend(top):
    out, left = [], EDGE
    for text, fill, _ in GROUPS:
        out.append(
            f'<rect x="{left}" y="{top}" width="14" height="14" fill="{fill}" stroke="#5c6470"/>'
        )
        out.append(f'<text x="{left + 20}" y="{top + 12}">{text}</text>')
        left += 46 + len(text) * LETTER
    return out


def drawing(of):
    height, near = levels(of), reduced(of)
    said = rows(near, height)
    at, total = places(said)
    tall = len(said) * ROW + 50
    out = [
        f'<svg xmlns="http://www.w3.org/2000/svg" viewBox="0 0 {total:.0f} {tall}" '
        'font-family="DejaVu Sans Mono, Menlo, Consolas, monospace" font-size="12" fill="#20242a">',
        '<defs><marker id="tip" viewBox="0 0 8 8" refX="7" refY="4" markerWidth="7" '
        'markerHeight="7" orient="auto"><path d="M0 0L8 4L0 8z" fill="#8a8f98"/></marker></defs>',
        f'<rect width="{total:.0f}" height="{tall}" fill="#ffffff"/>',
    ]
    out += [f'<text x="8" y="{(len(said) - it) * ROW + 67}">{it}</text>' for it in said]
    out += [arrow([at[item] for item in chain]) for chain in chains(near, height)]
    out += [box(name, *at[name]) for name in near]
    return "\n".join([*out, *legend(tall - 30), "</svg>", ""])


def table(of, all_of):
    height, near, of_kit = levels(of), reduced(of), kit()
    out = [
        "| | Crate | Stands on, beside what these stand on | Of the kit | Called by `tests_..` |\n",
        "|---|---|---|---|---|\n",
    ]
    for name in sorted(of, key=lambda it: (-height[it], list(of).index(it))):
        tests = [it[6:] for it in all_of if it.startswith("tests_") and name in all_of[it]]
        told = {"mail_base": "all", "sendmail": "its own"}.get(name, ", ".join(tests))
        told = told or "through those above"
        out.append(
            f"| {height[name]} | [{name}](../crates/{name}/README.md) | {', '.join(near[name])} "
            f"| {', '.join(of_kit[name])} | {told} |\n"
        )
    return "".join(out)


def pages():
    """The drawing, and the table."""
    all_of = crates()
    of = product(all_of)
    return drawing(of), table(of, all_of)


def main():
    drawn, rows_of = pages()
    DRAWING.write_text(drawn)
    page = PAGE.read_text()
    front, back = page.split(MARKS[0])[0], page.split(MARKS[1])[1]
    PAGE.write_text(f"{front}{MARKS[0]}{rows_of}{MARKS[1]}{back}")


if __name__ == "__main__":
    main()
