"""sendmail-check over configurations with each kind of fault, and over the one to start with."""

import os
import subprocess

from installing import install
from sites import expect

GOOD = """Djmx.example
O QueueDirectory=@DIR@/queue
Mlocal, P=/bin/true, F=lsDFMA, A=true $u
"""
# What stands behind the good lines, the status, and a word of what is said.
CASES = {
    "good": ("", 0, "it can be run"),
    "an option": ("O LogLevel=9\n", 0, "ignored: O LogLevel=9\n    no level"),
    "a milter": ("Xf, S=local:/x\n", 0, "ignored: Xf, S=local:/x\n    no milter"),
    "a certificate": ("O ServerKeyFile=/k\n", 0, "no TLS"),
    "a rule for a header": ("HTo: $>Check\n", 0, "rules for a header aren't run"),
    "a map": ("Kd dns -R A\n", 0, "weak: Kd dns -R A\n    look-ups in a map of this class"),
    "a set": ("Scheck_relay\n", 0, "weak: Scheck_relay\n    this set isn't asked"),
    "a bad line": ("R$*\n", 78, ":4: refused: NoTab"),
    "a class's file": ("Fw/none\n", 78, "refused: NoSuchFile"),
    "a map's file": ("Kt text /none\n", 66, "no file /none"),
    "no aliases": ("O AliasFile=/none\n", 66, "no file /none"),
    "bad aliases": ("O AliasFile=@DIR@/aliases\n", 65, "aliases:2: alias refused: aliases(5)\n    ab"),
    "a mailer": ("Mx, P=/none, A=x $u\n", 1, "the mailer x has no program /none"),
    "a directory": ("Qslow, P=/none, R=1\n", 1, "the queue's directory /none isn't there"),
    "one on two lines": ("Qslow, R=1,\n  P=/none\n", 1, "directory /none isn't there"),
}


def ask(folder, name, *more):
    """What sendmail-check says."""
    environment = os.environ | {"SENDMAIL": str(folder / "sbin/sendmail")}
    command = [folder / "sbin/sendmail-check", "-C", name, *more]
    return subprocess.run(command, capture_output=True, text=True, env=environment, check=False)


def play(program, folder):
    install(program, folder, PREFIX=folder, SETUP="no")
    (folder / "queue").mkdir()
    (folder / "aliases").write_text("a: b\nab\n")
    name = folder / "try.cf"
    for about, (lines, status, says) in CASES.items():
        name.write_text((GOOD + lines).replace("@DIR@", str(folder)))
        ran = ask(folder, name)
        expect(f"status of {about}, which says {ran.stdout}{ran.stderr}", ran.returncode, status)
        expect(f"{says!r} of {about} in {ran.stdout}", says in ran.stdout, True)
        expect(f"errors of {about}", ran.stderr, "")
        brief = ask(folder, name, "--aliases")
        wanted = 0 if status == 1 else status
        expect(f"status of {about} with --aliases", brief.returncode, wanted)
    expect("files of the queue", list((folder / "queue").iterdir()), [])
    return f"{len(CASES)} configurations"
