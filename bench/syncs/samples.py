"""A small record by hand, and what must be said of it when a line of it is taken out or moved.

It has a message with a part, which a child's program takes, and the record of its end; then the
finish of the message, and the dial for the part.
"""

from rules import Watch

QUEUE = "/queue"
ONE, TWO = "w000000000001", "w000000000002"
HEADS = {ONE: "V1\\nv1\\ngmqueue\\n", TWO: f"V1\\nv1\\np{ONE} 1\\ngmqueue\\n"}
SESSION = "5<socket:[21]>"
START = "clone3({flags=CLONE_VM|CLONE_VFORK, exit_signal=SIGCHLD}, 88) = 12"


def made(name, descriptor):
    return f"{descriptor}<{QUEUE}/{name}>"


def file_lines(name, text, key):
    """A file is made, written, synced."""
    opened = f'openat(AT_FDCWD</>, "{QUEUE}/{name}", O_WRONLY|O_CREAT|O_EXCL, 0600)'
    return {
        f"{key} made": f"{opened} = {made(name, 6)}",
        f"{key} written": f'write({made(name, 6)}, "{text}"..., 90) = 90',
        f"{key} synced": f"fsync({made(name, 6)}) = 0",
    }


def name_lines(old, new, key):
    """A file gets another name, and the directory is synced."""
    return {
        f"{key} named": f'rename("{QUEUE}/{old}", "{QUEUE}/{new}") = 0',
        f"{key} directory": f"fsync(3<{QUEUE}>) = 0",
    }


def stored(entry, key):
    lines = file_lines(f"df{entry}", "hello\\r\\n", f"{key} body")
    lines |= file_lines(f"tf{entry}", HEADS[entry], f"{key} control")
    return lines | name_lines(f"tf{entry}", f"qf{entry}", key)


def read(entry, key):
    opened = f'openat(AT_FDCWD</>, "{QUEUE}/df{entry}", O_RDONLY)'
    return {f"{key} read": f"{opened} = {made(f'df{entry}', 6)}"}


def sample():
    """The record, each line with a name."""
    lines = {
        "begun": 'execve("/sendmail", ["sendmail"], 0x7ff /* 3 vars */) = 0',
        "accepted": f"accept4(4<socket:[20]>, NULL, NULL, SOCK_CLOEXEC) = {SESSION}",
    }
    lines |= stored(TWO, "part") | stored(ONE, "message")
    final = f"250 2.0.0 {ONE} Message accepted for delivery\\r\\n"
    lines["final 250"] = f'sendto({SESSION}, "{final}", 55, 0, NULL, 0) = 55'
    lines |= read(ONE, "message")
    lines["start"] = START
    lines["program"] = '12 execve("/bin/true", ["true"], 0x7ff /* 1 var */) = 0'
    lines |= file_lines(f"tf{ONE}", "V1\\nv2\\ngmqueue\\n", "record control")
    lines |= name_lines(f"tf{ONE}", f"qf{ONE}", "record")
    lines |= name_lines(f"qf{ONE}", f"sf{ONE}", "finish")
    lines["removed"] = f'unlink("{QUEUE}/df{ONE}") = 0'
    lines["removal directory"] = f"fsync(3<{QUEUE}>) = 0"
    lines |= read(TWO, "part")
    lines["dial"] = "connect(6<socket:[22]>, {sa_family=AF_INET}, 16) = -1 EINPROGRESS (Operation)"
    return lines


# What must be said where the lines of these names are taken out; None where nothing may be said.
WITHOUT = {
    ("part body synced",): "comes before the sync of df",
    ("part control synced",): "comes before the sync of tf",
    ("part named",): f"comes before the renaming to qf{TWO}",
    ("part directory",): f"before the sync of the directory behind the renaming to qf{TWO}",
    ("message body synced",): "comes before the sync of df",
    ("message control synced",): "comes before the sync of tf",
    ("message named",): f"a final 250 of {ONE} comes before the renaming to qf{ONE}",
    ("message directory",): f"a final 250 of {ONE} comes before the sync of the directory",
    ("message read",): "a child's start comes before any body was read",
    ("record control synced",): "comes before the sync of tf",
    ("record directory", "finish directory"): "the removal of the body",
    ("finish named",): f"df{ONE} is removed before the renaming to sf{ONE}",
    ("record directory",): None,
    ("finish directory", "removal directory"): None,
    ("final 250",): None,
    ("part read",): None,
}
OTHER = f'openat(AT_FDCWD</>, "/other/df{TWO}", O_WRONLY|O_CREAT|O_EXCL, 0600) = 6</other/df{TWO}>'
# What must be said where a sync of the file system stands in place of the first of these lines, and
# the others are taken out: one that went well, one that failed, and one that never was.
JOINT = ("message body synced", "message control synced", "part body synced", "part control synced")
SYNCFS = {
    f"13 syncfs(3<{QUEUE}>) = 0": None,
    f"13 syncfs(3<{QUEUE}>) = -1 EIO (Input/output error)": "comes before the sync of df",
    "13 close(3) = 0": "comes before the sync of df",
}
# What must be said where one begins before the files are written whose syncs it stands for, and
# ends behind them; and where it stands for the sync of the directory, behind the renaming or
# before it.
EARLY = "comes before the sync of df"
NAMED = {True: None, False: "before the sync of the directory"}
# Whether a change in another directory may come at the end where these are taken out.
ELSEWHERE = {
    (): True,
    ("finish directory",): True,
    ("removal directory",): False,
    ("finish directory", "removal directory"): False,
}
# What must be said where the line of the first name comes in front of that of the second.
AHEAD = {
    ("final 250", "message directory"): "a final 250",
    ("final 250", "message named"): "a final 250",
    ("message control synced", "message control written"): "comes before the sync of tf",
    ("message body synced", "message body written"): "comes before the sync of df",
    ("start", "message read"): "a child's start comes before any body",
    ("removed", "record directory"): "is removed before the renaming",
}


def said_of(lines):
    """What is wrong of these lines, where one process makes each call that names no other."""
    whole = (line if line[:1].isdigit() else f"11 {line}" for line in lines)
    return Watch().go_through(whole).wrong


def began():
    """A child that syncs file systems, up to its call."""
    yield START.replace("12", "13")
    yield '13 execve("/bin/sync", ["sync", "-f", "q"], 0x7ff /* 1 var */) = 0'


def joint(call):
    """The record with a sync of the file system behind both messages, before any is renamed."""
    lines = {key: line for key, line in sample().items() if key not in JOINT}
    keys = [key for key in lines if key.startswith(("part", "message")) and key != "part read"]
    names = [key for key in keys if key.endswith(("named", "directory"))]
    for key in lines:
        if key == "part named":
            yield from (lines[it] for it in keys if it not in names and it != "message read")
            yield from began()
            yield call
            yield from (lines[it] for it in names)
        elif key not in keys or key == "message read":
            yield lines[key]


def early():
    """The record with such a call that begins before anything is written, and ends in time."""
    lines = joint("13 <... syncfs resumed>) = 0")
    return [*began(), f"13 syncfs(3<{QUEUE}> <unfinished ...>", *lines]


def named(is_behind):
    """The record with such a call in place of the syncs of the directory behind the message."""
    lines = sample()
    keys = [key for key in lines if key != "message directory"]
    place = keys.index("message named") + is_behind
    call = [*began(), f"13 syncfs(3<{QUEUE}>) = 0"]
    return [lines[it] for it in keys[:place]] + call + [lines[it] for it in keys[place:]]


def wrong_samples():
    """Where the script itself isn't as it must be."""
    lines = sample()
    if said := said_of(lines.values()):
        yield f"the whole sample: {said}"
    for call, wanted in SYNCFS.items():
        said = said_of(joint(call))
        if bool(said) != bool(wanted) or wanted and not any(wanted in text for text in said):
            yield f"with {call}: {said}"
    if not any(EARLY in text for text in said_of(early())):
        yield f"a sync that begins too early: {said_of(early())}"
    for is_behind, wanted in NAMED.items():
        said = said_of(named(is_behind))
        if bool(said) != bool(wanted) or wanted and not any(wanted in text for text in said):
            yield f"a name synced with all, {is_behind}: {said}"
    for names, wanted in WITHOUT.items():
        said = said_of(line for key, line in lines.items() if key not in names)
        if bool(said) != bool(wanted) or wanted and not any(wanted in text for text in said):
            yield f"without {names}: {said}"
    for (name, other), wanted in AHEAD.items():
        keys = [key for key in lines if key != name]
        keys.insert(keys.index(other), name)
        said = said_of(lines[key] for key in keys)
        if not any(wanted in text for text in said):
            yield f"'{name}' ahead of '{other}': {said}"
    for names, may in ELSEWHERE.items():
        said = said_of([*(line for key, line in lines.items() if key not in names), OTHER])
        if bool(said) == may or said and "comes before the sync of /queue" not in said[0]:
            yield f"a change in another directory without {names}: {said}"
    for names, wanted in WITHOUT.items():
        if wanted and names[0].endswith(("synced", "directory")):
            yield from wrong_shapes(lines, names)


def wrong_shapes(lines, names):
    """A sync that failed is none, and one that is told in two lines is one."""
    failed = {name: lines[name].replace("= 0", "= -1 EIO (Input/output error)") for name in names}
    if not said_of({**lines, **failed}.values()):
        yield f"{names} may fail"
    split = []
    for key, line in lines.items():
        front, _, back = line.partition(")")
        halves = [f"{front} <unfinished ...>", f"<... fsync resumed>){back}"]
        split += halves if key in names else [line]
    if said := said_of(split):
        yield f"{names} in two lines: {said}"
