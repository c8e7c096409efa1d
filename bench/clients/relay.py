"""A relay from a port of 127.0.0.1 to `sendmail -bs`, which keeps what both sides said.

Each connection begins the program anew, with its standard input and output joined to it. They are
served one after another, since one process at a time owns a queue. Where it is direct the program
gets the connection itself, as inetd gives it, and nothing of what is said is kept.
"""

import re
import socket
import subprocess
import threading

DATA_END = b"\r\n.\r\n"
REPLY = re.compile(rb"(?:(\d{3})-[^\r\n]*\r\n)*(\d{3}) [^\r\n]*\r\n")


class Session:
    """One connection: what each side said, as (is it the client, bytes), and how the program
    ended."""

    def __init__(self):
        self.said, self.status, self.errors = [], None, b""

    def sent(self):
        return b"".join(said for is_client, said in self.said if is_client)

    def got(self):
        return b"".join(said for is_client, said in self.said if not is_client)

    def turns(self):
        """What the client sent between two pieces of what it got."""
        joined, was_client = [], False
        for is_client, said in self.said:
            if is_client:
                joined.append(joined.pop() + said if was_client else said)
            was_client = is_client
        return joined

    def replies(self):
        """The replies whole, that of several lines as one, and what isn't a reply, if there is."""
        got, found, at = self.got(), [], 0
        while at < len(got):
            reply = REPLY.match(got, at)
            if reply is None:
                return found, got[at:]
            found.append(reply[0])
            at = reply.end()
        return found, b""

    def exchanges(self):
        """The pairs of a command, or `.` for the end of data, and its reply; the greeting first.
        Data without an end is `gone`, which has no reply."""
        replies, sent = iter(self.replies()[0]), self.sent()
        found = [("greeting", next(replies, b""))]
        while sent:
            line, _, sent = sent.partition(b"\n")
            reply = next(replies, b"")
            found.append((line.rstrip(b"\r").decode("latin-1"), reply))
            if line[:4].upper() == b"DATA" and reply[:3] == b"354":
                whole = (b"\r\n" + sent).partition(DATA_END)
                sent = whole[2]
                found.append((".", next(replies, b"")) if whole[1] else ("gone", b""))
        return found


class Relay:
    """Listens until it is closed. `sessions` has what was served so far."""

    def __init__(self, command, is_direct):
        self.command, self.is_direct, self.sessions = command, is_direct, []
        self.listener = socket.create_server(("127.0.0.1", 0))
        self.port = self.listener.getsockname()[1]
        self.thread = threading.Thread(target=self.serve_all, daemon=True)
        self.thread.start()

    def serve_all(self):
        while True:
            try:
                connection, _ = self.listener.accept()
            except OSError:
                return
            session = Session()
            self.sessions.append(session)
            serve = self.serve_direct if self.is_direct else self.serve
            with connection:
                serve(connection, session)

    def serve_direct(self, connection, session):
        pipe = subprocess.PIPE
        ends = {"stdin": connection, "stdout": connection, "stderr": pipe}
        with subprocess.Popen(self.command, **ends) as it:
            connection.close()
            session.errors = it.stderr.read()
        session.status = it.returncode

    def serve(self, connection, session):
        pipe = subprocess.PIPE
        with subprocess.Popen(self.command, stdin=pipe, stdout=pipe, stderr=pipe, bufsize=0) as it:
            up = threading.Thread(target=give, args=(connection, it.stdin, session), daemon=True)
            up.start()
            take(it.stdout, connection, session)
            hang_up(connection)
            up.join()
            session.errors = it.stderr.read()
        session.status = it.returncode

    def close(self):
        """Waits for the last session's end."""
        self.listener.shutdown(socket.SHUT_RDWR)
        self.thread.join(60)
        self.listener.close()


def give(connection, stdin, session):
    """What the client says goes to the program, up to the end of either."""
    try:
        while more := connection.recv(65536):
            session.said.append((True, more))
            stdin.write(more)
    except OSError:
        pass
    finally:
        stdin.close()


def take(stdout, connection, session):
    """What the program says goes to the client, and is kept where the client is gone too."""
    is_there = True
    while more := stdout.read(65536):
        session.said.append((False, more))
        try:
            if is_there:
                connection.sendall(more)
        except OSError:
            is_there = False


def hang_up(connection):
    try:
        connection.shutdown(socket.SHUT_RDWR)
    except OSError:
        pass
