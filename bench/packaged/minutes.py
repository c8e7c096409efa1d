"""Types docs/TEN_MINUTES.md: from the installation on in a system of its own, and whole, with the
clone and `make run` before that."""

import os
import re
import subprocess
import time

from installing import TOP, lacks
from package import ENTER
from sites import Strange, expect

DATE = re.compile(r"\w{3} \w{3} [ \d]\d [\d:]{8} \d{4}")
MARK = "-- typed --"
FRONT = 'cd "$TOP"; ip link set lo up; set -m; PATH=/usr/local/sbin:/usr/local/bin:$PATH\n'


PAGE = "docs/TEN_MINUTES.md"
INSTALLS = "**Install it**"


def front(text):
    """What is typed before the installation, which stands there indented, as the rest does in
    fences."""
    lines = text.partition(INSTALLS)[0].splitlines(keepends=True)
    return "```\n" + "".join(it.removeprefix("    ") for it in lines if it[:4] == "    ") + "```\n"


def steps(text):
    """The commands that are typed by root, each with what must come of it."""
    for block in re.findall(r"^```\n(.*?)^```", text, re.MULTILINE | re.DOTALL):
        for step in re.split(r"^# ", block, flags=re.MULTILINE)[1:]:
            lines = step.splitlines(keepends=True)
            last = next(at for at, line in enumerate(lines) if not line.endswith("\\\n"))
            yield "".join(lines[: last + 1]), "".join(lines[last + 1 :])


def play(program, folder):
    """From the installation on, with the program that is there."""
    return installed(folder, TOP, {"PROGRAM": str(program)})


def lacking():
    if os.geteuid() != 0:
        return "skipped: it wants root"
    missing = lacks("unshare", "ip", "make", "useradd")
    return f"skipped: no {missing}" if missing else None


def installed(folder, top, more):
    """Types what installs the program of a checkout, and what comes behind that."""
    if why := lacking():
        return why
    wanted = list(steps((top / PAGE).read_text()))
    script = FRONT + "".join(f"echo '{MARK}'\n{asked}" for asked, _ in wanted)
    enter = ENTER.replace('sh -c "$3"', 'bash -c "$3"').replace('cp "$2" "$1/top/made.deb" && ', "")
    command = ["unshare", "-mnpf", "--kill-child", "sh", "-c", enter, "sh", folder, "", script]
    environment = os.environ | {"TOP": str(top)} | more
    ran = subprocess.run(command, capture_output=True, text=True, env=environment, check=False)
    came = ran.stdout.split(MARK + "\n")[1:]
    for (asked, text), it in zip(wanted, came):
        expect(f"# {asked}", DATE.sub("(date)", it).replace("\r", ""), DATE.sub("(date)", text))
    if len(came) != len(wanted):
        raise Strange(f"{len(came)} of {len(wanted)} commands were typed: {ran.stderr}")
    return f"{len(wanted)} commands, of which each prints what stands there"


def whole(_program, folder):
    """From the clone on: this checkout's last commit is cloned into a folder, where it is proved and
    built, which takes hours where nothing is kept."""
    if lacks("git", "rt"):
        return "skipped: no git, or no toolchain"
    room = folder / "typed"
    room.mkdir()
    told, place, environment = [], room, os.environ | {"REPOSITORY": str(TOP)}
    for asked, text in steps(front((TOP / PAGE).read_text())):
        begun = time.monotonic()
        script = f"{asked}\nstatus=$?\npwd >&3\nexit $status"
        with open(folder / "place", "w+", encoding="utf-8") as kept:
            ran = subprocess.run(
                ["bash", "-c", f"exec 3>&{kept.fileno()}; {script}"],
                capture_output=True, text=True, cwd=place, env=environment, check=False,
                pass_fds=[kept.fileno()],
            )
            kept.seek(0)
            place = kept.read().strip() or place
        expect(f"status of # {asked}, which says {ran.stderr}", ran.returncode, 0)
        expect(f"# {asked}", ran.stdout, text)
        told.append(f"`{asked.strip()}` in {time.monotonic() - begun:.0f} s")
    inner = folder / "inner"
    inner.mkdir()
    environment = {"PROGRAM": ""}
    return ", ".join(told) + "; then " + installed(inner, room / "sendmail", environment)
