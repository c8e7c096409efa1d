"""What is measured of each server: a row's name, its value, and whether more of it is better."""

import os
import smtplib
import socket
import subprocess
import time
from pathlib import Path

from installed import UNPACKED
from servers import below
from sites import Strange

SOURCE = "usr/sbin/smtp-source"
# Seconds that one round may take.
MOST = 600
TICKS = os.sysconf("SC_CLK_TCK")


def timed(times, call, *words):
    """Does a call, and adds its milliseconds."""
    begun = time.perf_counter()
    given = call(*words)
    times.append((time.perf_counter() - begun) * 1000)
    return given


def probe(folder, rounds=50):
    """The median milliseconds of the making of a file, of its sync with 1 kB, and of that of its
    directory behind a renaming; of a renaming over a file, and of a removal."""
    place = os.open(folder, os.O_RDONLY | os.O_DIRECTORY)
    made, files, names, replaced, removed = [], [], [], [], []
    for number in range(2 * rounds):
        path, last = f"{folder}/probe", f"{folder}/probe{number % rounds}"
        file = timed(made, os.open, path, os.O_WRONLY | os.O_CREAT | os.O_EXCL)
        os.write(file, b"x" * 1024)
        timed(files, os.fsync, file)
        timed(replaced if number >= rounds else [], os.rename, path, last)
        timed(names, os.fsync, place)
        os.close(file)
    for number in range(rounds):
        timed(removed, os.unlink, f"{folder}/probe{number}")
    os.close(place)
    return [sorted(them)[len(them) // 2] for them in (made, files, names, replaced, removed)]


def shared(number, parts):
    """A number in so many parts that are as equal as can be."""
    return [number // parts + (part < number % parts) for part in range(parts)]


def send(server, to, messages, sessions, size, is_kept):
    """Hands over so many messages by smtp-source, one for each port of a server at once, as far as
    there are sessions for them, and gives its seconds."""
    paths = [f"{UNPACKED or ''}/usr/lib/{name}" for name in ("postfix", "x86_64-linux-gnu")]
    libraries = dict(os.environ, LD_LIBRARY_PATH=":".join(paths))
    parts = min(len(server.ports), sessions)
    begun, runs = time.monotonic(), []
    each = zip(server.ports, shared(messages, parts), shared(sessions, parts))
    for port, own, lines in each:
        words = ["-d"] if is_kept else []
        words += ["-s", str(lines), "-m", str(own), "-l", str(size), "-M", "c.example"]
        words += ["-f", "bob@mx.example", "-t", to, f"127.0.0.1:{port}"]
        command = [str(Path(UNPACKED or "/", SOURCE)), *words]
        runs.append(subprocess.Popen(command, env=libraries, stderr=subprocess.PIPE))
    try:
        said = [run.communicate(timeout=MOST)[1] for run in runs]
    except subprocess.TimeoutExpired:
        for run in runs:
            run.kill()
        raise Strange(f"smtp-source to {server.name} takes more than {MOST} seconds") from None
    if any(run.returncode for run in runs):
        raise Strange(f"smtp-source to {server.name}: {b''.join(said).decode()[:200]}")
    return time.monotonic() - begun


def receipt(server, words, sessions, size, is_kept):
    """Messages a second, of which none is delivered meanwhile."""
    server.clear()
    messages = words.messages if size < 10_000 else max(words.messages // 4, sessions)
    with server.receiving():
        send(server, "ann@mx.example", sessions, sessions, size, is_kept)
        before = server.count()
        taken = send(server, "ann@mx.example", messages, sessions, size, is_kept)
        if server.count() - before != messages:
            raise Strange(f"{server.name} has {server.count() - before} entries of {messages}")
    return messages / taken


def delivery(server, entries, to):
    """The seconds that a queue takes to be empty."""
    server.clear()
    with server.receiving():
        send(server, to, entries, 10, 1000, True)
    if server.count() != entries:
        raise Strange(f"{server.name} has {server.count()} entries, and not {entries}")
    return server.deliver()


def processor(run):
    """The milliseconds of processor of a server so far."""
    total = 0
    for number in below(run.pid):
        fields = Path(f"/proc/{number}/stat").read_text().rpartition(")")[2].split()
        total += int(fields[11]) + int(fields[12])
    return total / TICKS * 1000


def memory(run):
    """The sum of what its processes have of the machine's memory (PSS), in KiB."""
    total = 0
    for number in below(run.pid):
        text = Path(f"/proc/{number}/smaps_rollup").read_text()
        total += int(text.partition("\nPss:")[2].split()[0])
    return total


def memories(server, sessions):
    """Memory idle, and with so many sessions that were greeted."""
    server.clear()
    with server.serving() as run:
        time.sleep(2)
        idle, lines = memory(run), []
        for _ in range(sessions):
            line = socket.create_connection(("127.0.0.1", server.port), 60)
            line.recv(1000)
            line.sendall(b"EHLO c.example\r\n")
            line.recv(1000)
            lines.append(line)
        busy = memory(run)
        for line in lines:
            line.close()
    return idle, busy


def body(server, size):
    """Memory while a message of so many bytes has come, whose end hasn't."""
    server.clear()
    with server.serving() as run:
        with smtplib.SMTP("127.0.0.1", server.port, "c.example", 60) as session:
            session.ehlo()
            session.mail("bob@mx.example")
            session.rcpt("ann@mx.example")
            session.putcmd("data")
            session.getreply()
            session.sock.sendall(b"Subject: large\r\n\r\n" + (b"x" * 78 + b"\r\n") * (size // 80))
            time.sleep(2)
            found = memory(run)
            session.sock.shutdown(socket.SHUT_RDWR)
    return found


def turn_over(server, entries):
    """The seconds of a queue run over so many entries none of which is due."""
    waits(server)
    server.multiply(entries)
    return server.finds_none()


def configuration(folder):
    """The file that m4 makes of a configuration's macros."""
    source, config = folder / "mode.mc", folder / "mode.cf"
    text = (Path(__file__).resolve().parent / "mode.mc").read_text()
    source.write_text(text.replace("@DIR@", str(folder)))
    macros = Path(UNPACKED or "/", "usr/share/sendmail/cf")
    program = Path(UNPACKED or "/", "usr/bin/m4")
    command = [program, f"-D_CF_DIR_={macros}/", macros / "m4/cf.m4", source]
    ran = subprocess.run(command, capture_output=True, env=loaded(), check=True)
    config.write_bytes(ran.stdout)
    return config


def loaded():
    """An environment in which programs that were unpacked find their libraries."""
    paths = {str(path.parent) for path in Path(UNPACKED or "/none").glob("usr/lib/**/*.so*")}
    return dict(os.environ, LD_LIBRARY_PATH=":".join(sorted(paths)))


def answers(server, config, lines):
    """The seconds that address test mode takes for so many lines, and in another run of it what
    it has of the machine's memory behind them, in KiB."""
    quiet = {"stdout": subprocess.DEVNULL, "stderr": subprocess.DEVNULL}
    quiet |= {"env": server.environment(), "stdin": subprocess.PIPE}
    asked, ends = b"3,0 user@host.example\n" * lines, []
    for _ in range(2):
        begun = time.monotonic()
        with subprocess.Popen(server.test_mode(config), **quiet) as run:
            run.stdin.write(asked)
            run.stdin.flush()
            if ends:
                has = memory_of(run)
            run.stdin.close()
            run.wait(MOST)
        if run.returncode:
            raise Strange(f"-bt of {server.name} ends with status {run.returncode}")
        ends.append(time.monotonic() - begun)
    return ends[0], has


def memory_of(run):
    """The memory of a program that has answered all that it was asked: it sleeps, and does nothing
    meanwhile."""
    before = None
    while True:
        time.sleep(0.2)
        fields = Path(f"/proc/{run.pid}/stat").read_text().rpartition(")")[2].split()
        state, spent = fields[0], fields[11:13]
        if state == "S" and spent == before:
            return memory(run)
        before = spent


def waits(server):
    """A queue with one entry that was tried and waits."""
    server.clear()
    with server.serving():
        with smtplib.SMTP("127.0.0.1", server.port, "c.example", 60) as session:
            session.sendmail("bob@mx.example", ["ann@void.example"], "Subject: hi\r\n\r\nhello\r\n")
        time.sleep(3)
    if server.count() != 1:
        raise Strange(f"{server.name} has {server.count()} entries, and not one that waits")


def large(server, entries, seconds=10):
    """Over so many entries that wait: seconds until a session is greeted, memory then, and
    milliseconds of processor in a second without work."""
    waits(server)
    server.multiply(entries)
    begun = time.monotonic()
    with server.serving() as run:
        started = time.monotonic() - begun
        time.sleep(1)
        kept, before = memory(run), processor(run)
        time.sleep(seconds)
        idle = (processor(run) - before) / seconds
    return started, kept, idle
