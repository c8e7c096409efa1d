"""The Debian package: made, and installed, tried, removed and purged in another system."""

import os
import shutil
import subprocess
from pathlib import Path

from installing import TOP, lacks
from sites import Strange, expect

# A system of its own, over the files of this one; all that it changes is forgotten.
ENTER = """
mount -t tmpfs room "$1" && mkdir "$1/up" "$1/work" "$1/top" &&
mount -t overlay -o "lowerdir=/,upperdir=$1/up,workdir=$1/work" system "$1/top" &&
mount --bind /proc "$1/top/proc" && mount --rbind /dev "$1/top/dev" &&
cp "$2" "$1/top/made.deb" && exec chroot "$1/top" sh -c "$3"
"""
TRY = r"""
PATH=/usr/sbin:/usr/bin:/sbin:/bin
fail() { echo "$*"; exit 1; }
dpkg -i /made.deb || fail dpkg -i
[ "$(stat -c %a,%U /var/spool/mqueue)" = 700,root ] || fail mode of the queue
sendmail-check || fail sendmail-check
[ "$(printf '5 root\n' | sendmail -bt)" = '5 returns: root' ] || fail -bt
man -w mailq newaliases aliases mqueue sendmail.cf sendmail sendmail-check || fail pages
printf '%s\r\n' 'HELO c' 'MAIL FROM:<root>' 'RCPT TO:<postmaster>' DATA 'Subject: hi' '' hello . QUIT |
    sendmail -bs || fail -bs
sendmail -q && [ "$(mailq)" = 'Total requests: 0' ] || fail -q
[ "$(grep -c hello /var/mail/root)" = 1 ] || fail the box of root
newaliases || fail newaliases
echo 'root: daemon' >> /etc/mail/aliases
dpkg -i /made.deb || fail dpkg -i again
grep -q 'root: daemon' /etc/mail/aliases || fail what a site owns is changed
dpkg -r sendmail-proved || fail dpkg -r
[ ! -e /usr/sbin/sendmail ] || fail the program is there
[ -e /etc/mail/sendmail.cf ] || fail what a site owns is gone
dpkg -P sendmail-proved || fail dpkg -P
[ ! -e /etc/mail ] || fail what a site owns is there
ls /var/spool/mqueue/sfw000000000001 || fail the queue is gone
echo all of it
"""


def call(command, what, **more):
    ran = subprocess.run(
        command, stdout=subprocess.PIPE, stderr=subprocess.STDOUT, text=True, check=False, **more
    )
    if ran.returncode != 0:
        raise Strange(f"{what}: status {ran.returncode}\n{ran.stdout}")
    return ran.stdout


def copied(folder):
    """The repository's files, in a folder of their own."""
    names = call(["git", "-C", TOP, "ls-files", "-z"], "git ls-files").split("\0")
    for name in filter(None, names):
        if not name.startswith("crates/"):
            (folder / name).parent.mkdir(parents=True, exist_ok=True)
            shutil.copy2(TOP / name, folder / name)
    return folder


def play(program, folder):
    if missing := lacks("dpkg-buildpackage", "gcc", "make"):
        return f"skipped: no {missing}"
    tree = copied(folder / "tree")
    quick = {"DPKG_DEB_COMPRESSOR_TYPE": "gzip", "DPKG_DEB_COMPRESSOR_LEVEL": "1"}
    environment = os.environ | quick | {"PROGRAM": str(program)}
    call(["make", "-s", "deb"], "make deb", cwd=tree, env=environment)
    made, = folder.glob("*.deb")
    text = call(["dpkg-deb", "--contents", made], "contents")
    expect("whether files are root's", "root/root" in text, True)
    said = f"{made.name} of {made.stat().st_size // 1024} KB"
    return f"{said}, " + tried(made, folder)


def tried(made, folder):
    """Installs the package, tries it, removes it and purges it."""
    if os.geteuid() != 0:
        return "not installed: that wants root"
    if Path("/etc/mail").exists() or Path("/usr/sbin/sendmail").exists():
        return "not installed: a mail server is here"
    room = folder / "room"
    room.mkdir()
    enter = ["unshare", "-mpf", "--kill-child", "sh", "-c", ENTER, "sh", room, made, TRY]
    said = call(enter, "the package in a system of its own")
    expect("whether all was tried", said.endswith("all of it\n"), True)
    return "installed, tried, removed and purged"
