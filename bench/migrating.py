#!/usr/bin/env python3
"""Tries what docs/MIGRATING.md says of the features of m4, beside Sendmail's own program.

Use: UNPACKED=FOLDER bench/migrating.py [--only WORD] [--theirs] [PROGRAM], where FOLDER has Debian's
packages, as bench/speed/unpack.sh puts them there. Each feature of bench/migrating/features.txt is
made into a configuration by m4, its maps by makemap for the other program, and its lines are put to
`-bt` of both. It prints for each feature whether the file is taken, how many of its lines are ignored,
and each line that both answer in different ways, and in the end counts. `--theirs` shows what the
other program answers, and needs no program of ours. A file that is refused gives status 1. Build the
program first, by `make run`. This is no part of the gate.
"""

import argparse
import os
import shutil
import subprocess
import sys
import tempfile
from pathlib import Path

sys.dont_write_bytecode = True
PLACE = Path(__file__).resolve().parent
sys.path.append(str(PLACE))

import compared  # noqa: E402

BUILT = PLACE.parent / "crates/sendmail/out/sendmail"
UNPACKED = Path(os.environ.get("UNPACKED", "/"))
SENDMAIL = UNPACKED / "usr/libexec/sendmail"
MACROS = UNPACKED / "usr/share/sendmail/cf"
# In front of each feature. `BARE` stands for no such features, `NULL` for those and no mailers.
FRONT = """divert(0)dnl
OSTYPE(`linux')dnl
define(`confDOMAIN_NAME', `mx.example')dnl
define(`ALIAS_FILE', `')dnl
define(`STATUS_FILE', `')dnl
define(`HELP_FILE', `')dnl
define(`confAUTH_MECHANISMS', `NONE')dnl
define(`confSERVICE_SWITCH_FILE', `@DIR@/switch')dnl
define(`QUEUE_DIR', `@DIR@/queue')dnl
"""
USUAL = "FEATURE(`nocanonify')dnl\nFEATURE(`accept_unresolvable_domains')dnl\n"
# A client of somewhere else, since one without an address may relay.
BEHIND = "MAILER(`local')dnl\nMAILER(`smtp')dnl\nLOCAL_CONFIG\nCwmx.example\nD{client_addr}10.0.0.9\n"


class Feature:
    """A feature: the lines of its macros, the files that it names, and what is asked."""

    def __init__(self, name):
        self.name, self.macros, self.files, self.asked = name, [], {}, []
        self.front, self.behind = USUAL, BEHIND

    def take(self, line):
        if line == "BARE":
            self.front = ""
        elif line == "NULL":
            self.front = self.behind = ""
        elif line.startswith("> "):
            name, text = line[2:].split(" ", 1)
            self.files[name] = text.replace("\\n", "\n").replace("\\t", "\t")
        elif "(`" in line:
            self.macros.append(line + "dnl\n")
        else:
            self.asked.append(line)

    def source(self, folder):
        text = FRONT + self.front + "".join(self.macros) + self.behind
        return text.replace("@DIR@", str(folder))


def features():
    found = []
    for line in (PLACE / "migrating/features.txt").read_text().splitlines():
        if line.startswith("== "):
            found.append(Feature(line[3:]))
        else:
            found[-1].take(line)
    return found


def environment():
    paths = {str(path.parent) for path in UNPACKED.glob("usr/lib/**/*.so*")}
    return dict(os.environ, TZ="UTC", LD_LIBRARY_PATH=":".join(sorted(paths)))


def made(feature, folder):
    """The configuration, with all that it names."""
    for name in ("queue", "bulk"):
        (folder / name).mkdir()
    (folder / "switch").write_text("hosts files\naliases files\npasswd files\n")
    (folder / "try.mc").write_text(feature.source(folder))
    command = [UNPACKED / "usr/bin/m4", f"-D_CF_DIR_={MACROS}/", MACROS / "m4/cf.m4"]
    ran = subprocess.run(
        [*command, folder / "try.mc"], capture_output=True, env=environment(), check=True
    )
    config = folder / "try.cf"
    config.write_bytes(ran.stdout)
    for name, text in feature.files.items():
        (folder / name).write_text(text)
        if any(f"@DIR@/{name}'" in line for line in feature.macros if "hash" in line):
            command = [SENDMAIL / "makemap", "-C", config, "hash", folder / name]
            subprocess.run(command, input=text.encode(), env=environment(), check=True)
    return config


def theirs(feature, config, folder):
    """What the other program answers, as compared.py reads it."""
    # The package's program is set-gid, and would drop the paths of its libraries.
    shutil.copyfile(SENDMAIL / "sendmail", folder / "sendmail")
    (folder / "sendmail").chmod(0o755)
    inner = 'hostname mx.example; exec "$0" "$@"'
    command = ["unshare", "--uts", "sh", "-c", inner, folder / "sendmail", "-bt", "-C", config]
    asked = "".join(f"{it}\n" for line in feature.asked for it in compared.typed(line))
    ran = subprocess.run(
        command, input=asked.encode(), capture_output=True, env=environment(), check=False
    )
    chunks = compared.answered(ran.stdout.decode("latin-1") + ran.stderr.decode("latin-1"))
    for line in feature.asked:
        count = len(compared.typed(line))
        own, chunks = chunks[:count], chunks[count:]
        yield compared.their_results(line, own) if len(own) == count else ["nothing"]


def tried(feature, program, shows_theirs):
    """The numbers of lines that agree, and of those that don't; whether the file was taken."""
    with tempfile.TemporaryDirectory(dir=Path.home()) as folder:
        folder = Path(folder)
        folder.chmod(0o755)
        config = made(feature, folder)
        their_answers = list(theirs(feature, config, folder))
        if shows_theirs:
            for line, their in zip(feature.asked, their_answers):
                print(f"{feature.name}: {line}: {their}")
            return 0, 0, True
        ran = subprocess.run(
            [program, "-bt", f"-C{config}"], input="", capture_output=True, text=True, check=False
        )
        ignored = ran.stdout.count("warning: ")
        if ran.returncode:
            print(f"{feature.name}: refused: {ran.stderr.strip()}")
            return 0, 0, False
        same = other = 0
        for line, our, their in zip(
            feature.asked, compared.ours(program, config, feature.asked), their_answers
        ):
            mine = compared.our_results(line, our)
            if mine == their:
                same += 1
            else:
                other += 1
                print(f"{feature.name}: {line}\n    here {mine}\n    there {their}")
        print(f"{feature.name}: taken, {ignored} lines ignored, {same} of {same + other} agree")
        return same, other, True


def main():
    parser = argparse.ArgumentParser(description=__doc__.splitlines()[0])
    parser.add_argument("--only", default="")
    parser.add_argument("--theirs", action="store_true")
    parser.add_argument("program", nargs="?", default=BUILT)
    words = parser.parse_args()
    if not (SENDMAIL / "sendmail").exists() or not MACROS.exists():
        print("skipped: no Sendmail, or no macros of it")
        return 0
    if not words.theirs and not Path(words.program).exists():
        print("build the program first: make run")
        return 2
    counts = [0, 0, 0]
    for feature in features():
        if words.only in feature.name:
            same, other, is_taken = tried(feature, words.program, words.theirs)
            counts = [counts[0] + same, counts[1] + other, counts[2] + (not is_taken)]
    if not words.theirs:
        print(f"{counts[0]} lines agree, {counts[1]} don't, {counts[2]} files are refused")
    return 1 if counts[2] else 0


if __name__ == "__main__":
    sys.exit(main())
