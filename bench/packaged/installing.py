"""`make install` below a folder, the manual pages, and the units."""

import os
import shutil
import subprocess
from pathlib import Path

from sites import expect

TOP = Path(__file__).resolve().parent.parent.parent
HOST = "mx.example"
MADE = {"etc/mail/sendmail.cf", "etc/mail/aliases", "etc/mail/local-host-names"}
MADE |= {"var/spool/mqueue.lock"}


def lacks(*names):
    """The first of these programs that isn't there."""
    return next((name for name in names if shutil.which(name) is None), None)


def make(target, program, **values):
    """Calls `make` at the top of the repository."""
    words = [f"{name}={value}" for name, value in values.items()]
    command = ["make", "-s", "-C", TOP, target, f"PROGRAM={program}", f"HOST={HOST}", *words]
    return subprocess.run(command, capture_output=True, text=True, check=False)


def install(program, folder, **values):
    ran = make("install", program, **values)
    expect("what make install says", (ran.returncode, ran.stdout, ran.stderr), (0, "", ""))
    return folder


def files(folder):
    return {str(path.relative_to(folder)) for path in folder.rglob("*") if path.is_file()}


def mode(path):
    return oct(path.stat().st_mode & 0o7777)


def comes_and_goes(program, folder):
    """What is there already stays, and so does what a site owns."""
    ran = make("install", folder / "none", DESTDIR=folder)
    expect("status without a program", ran.returncode != 0, True)
    expect("what is said without a program", "make run proves and builds it" in ran.stderr, True)
    expect("what is there without a program", files(folder), set())
    install(program, folder, DESTDIR=folder)
    came = files(folder)
    expect("what a site owns", MADE <= came, True)
    expect("mode of the queue", mode(folder / "var/spool/mqueue"), "0o700")
    expect("mode of the lock", mode(folder / "var/spool/mqueue.lock"), "0o600")
    expect("mode of the program", mode(folder / "usr/local/sbin/sendmail"), "0o755")
    own = folder / "etc/mail/aliases"
    own.write_text("postmaster: ann\n")
    install(program, folder, DESTDIR=folder)
    expect("aliases behind a second one", own.read_text(), "postmaster: ann\n")
    expect("files behind a second one", files(folder), came)
    ran = make("uninstall", program, DESTDIR=folder)
    expect("status of make uninstall", (ran.returncode, ran.stderr), (0, ""))
    expect("what stays", files(folder), MADE)
    return f"{len(came)} files come and go, and {len(MADE)} and the queue stay"


def pages(_program, _folder):
    """Each page is shown without a warning."""
    if missing := lacks("man"):
        return f"skipped: no {missing}"
    found = sorted((TOP / "docs/man").glob("*.[158]"))
    for path in found:
        command = ["man", "--warnings", "-E", "UTF-8", "-l", path]
        environment = os.environ | {"LC_ALL": "C.UTF-8", "MANWIDTH": "80"}
        ran = subprocess.run(command, capture_output=True, text=True, env=environment, check=False)
        expect(f"warnings of {path.name}", (ran.returncode, ran.stderr), (0, ""))
    return f"{len(found)} without a warning"


def units(program, folder):
    """Each unit, with its commands in place."""
    if missing := lacks("systemd-analyze"):
        return f"skipped: no {missing}"
    install(program, folder, PREFIX=folder, SETUP="no")
    found = sorted((folder / "lib/systemd/system").iterdir())
    for path in found:
        name = path.parent / path.name.replace("@.", "@one.")
        if name != path:
            name.symlink_to(path)
        command = ["systemd-analyze", "verify", "--man=no", f"./{name.name}"]
        ran = subprocess.run(
            command, capture_output=True, text=True, cwd=path.parent, check=False
        )
        expect(f"what is said of {path.name}", (ran.returncode, ran.stderr), (0, ""))
    return f"{len(found)} are content"
