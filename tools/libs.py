#!/usr/bin/env python3
"""Gives a checkout the libraries that `rt ci` has proved on this machine.

    python3 tools/libs.py [CHECKOUT]

`rt check` takes over what checks kept, and nothing of what `rt ci` kept, so that it would prove each
library below a crate again. This puts into `out/` of each crate what `rt ci` keeps of the same text
over the same libraries, with the mark by which the other commands know it. It reads the inside of
`rt`, and no verdict of the gate rests on it: `rt ci` looks at no `out/`.
"""

import importlib.machinery
import importlib.util
import os
import shutil
import sys

RT = os.path.realpath(shutil.which("rt") or "/usr/local/bin/rt")


def load():
    loader = importlib.machinery.SourceFileLoader("rt_command", RT)
    made = importlib.util.module_from_spec(importlib.util.spec_from_loader("rt_command", loader))
    sys.modules["rt_command"] = made
    loader.exec_module(made)
    return made


def is_given(rt, kept, crate, key):
    """Whether the library stands in `out/` of the crate now, put there before or by this."""
    out, stamp = f"{crate.folder}/out/rlib", crate.stamp()
    mark = f"{out}/of-ci"
    if crate.is_built() and os.path.exists(mark):
        with open(mark, encoding="utf-8") as it:
            if it.read() == key + stamp:
                return True
    if not os.path.isdir(kept.place(crate, False, key)):
        return False
    shutil.rmtree(out, ignore_errors=True)
    os.makedirs(out)
    if not kept.give(crate, False, key):
        return False
    for name, text in ("stamp", stamp), ("of-ci", key + stamp):
        with open(f"{out}/{name}", "w", encoding="utf-8") as it:
            it.write(text)
    return True


def main():
    rt = load()
    root = os.path.realpath(sys.argv[1] if len(sys.argv) > 1 else ".")
    os.chdir(root)
    rt.Crate.allowed = rt.handles_of(root)
    crates = rt.crates_of(root)
    kept = rt.Kept(crates)
    stands, lacking = [], []
    for crate in crates:
        if crate.is_program:
            continue
        below = all(it.name in kept.rlibs for it in crate.below())
        if below and is_given(rt, kept, crate, kept.key(crate)):
            kept.is_built(crate)
            stands.append(crate.name)
        else:
            lacking.append(crate.name)
    print("stand:", *stands)
    print("not proved yet:", *lacking)


if __name__ == "__main__":
    main()
