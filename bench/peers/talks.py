"""What becomes of a letter's recipients by the log of a server, as one reads it by the standards.

A log is a list of pairs: the verb of a command, `greeting` before the first one and `.` for the end
of a message, and what followed: the bytes of a reply, or why there was no whole one.
"""

CLOSED, STALLED = "connection lost", "device fault"
MOST_LINES, MOST_LINE, MOST_NOTE = 100, 2048, 512


def read(verb, reply):
    """What a reply makes of a recipient, and whether it is one that counts."""
    if isinstance(reply, str):
        return f"deferred {reply}", False
    lines = reply.split(b"\n")
    is_whole = lines.pop() == b"" and 0 < len(lines) <= MOST_LINES
    codes = {line[:3] for line in lines}
    if not is_whole or len(codes) > 1 or any(len(line) >= MOST_LINE for line in lines):
        return "deferred bad reply", False
    code, text = reply[:3], lines[0].removesuffix(b"\r")[4:]
    note = (code + b" " + text)[:MOST_NOTE].decode("latin-1")
    if code == b"354" if verb == "DATA" else code[:1] == b"2":
        return "sent", True
    if code[:1] == b"4":
        return f"deferred {note}", True
    if code[:1] == b"5":
        return f"failed 5.0.0 {note}", True
    return "deferred bad reply", False


def rows_by(talk, count, is_lmtp=False):
    """What becomes of so many recipients, each of whom may be asked for. Behind a reply that isn't
    whole nothing is read."""
    settled, asked, last = {}, 0, f"deferred {STALLED}"
    for verb, reply in talk:
        row, counts = read(verb, reply)
        if verb == "RCPT" and counts:
            if row != "sent":
                settled[asked] = row
            asked += 1
        elif verb == "." and is_lmtp and counts:
            settled[next(place for place in range(count) if place not in settled)] = row
        elif verb != "QUIT":
            last = row
        if not counts:
            break
    return [settled.get(place, last) for place in range(count)]
