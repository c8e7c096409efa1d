"""What crates.txt says: which crate stands on which, and how high each stands."""

from pathlib import Path

TOP = Path(__file__).resolve().parent.parent


def listed():
    lines = (TOP / "crates.txt").read_text().splitlines()
    return {name: on.split() for name, _, on in (line.partition(":") for line in lines if line)}


def crates():
    """Each crate with those of this repository that it stands on, in the order of the list."""
    said = listed()
    return {name: [it for it in on if it in said] for name, on in said.items()}


def kit():
    """Each crate with those of the kit that it stands on."""
    said = listed()
    return {name: [it for it in on if it not in said] for name, on in said.items()}


def below(of, name):
    """All that stands under a crate."""
    return set(of[name]).union(*(below(of, it) for it in of[name]))


def product(of):
    """The program's crates: `sendmail` and all that it stands on."""
    inside = below(of, "sendmail") | {"sendmail"}
    return {name: on for name, on in of.items() if name in inside}


def levels(of):
    """How many crates the longest chain has from each down to one that stands on none."""
    found = {}

    def level(name):
        if name not in found:
            found[name] = 1 + max((level(it) for it in of[name]), default=0)
        return found[name]

    return {name: level(name) for name in of}


def reduced(of):
    """Each crate with those that it stands on, but for those on which another of these stands."""
    return {
        name: [it for it in on if not any(it in below(of, other) for other in on if other != it)]
        for name, on in of.items()
    }
