#!/usr/bin/env python3
"""Compares what program mailers are handed here and by Sendmail's own program.

Use: bench/handed.py UNPACKED [COMMAND], where UNPACKED is the folder of unpacked packages (`dpkg
-x`) and COMMAND runs the program `handed`, by default the built one. Sendmail's own program takes
each message by SMTP and delivers it to a program that keeps its arguments and its input; the
program `handed` is given the same message, with the id and the moments that it had there.

First come ten messages (handed/messages.py) for four mailers (handed/mailers.cf). Where the texts
aren't the same they must be so by the forms of handed/alike.py. Then come a hundred headers
(handed/headers.txt), each in a message of its own, for a mailer of a configuration that m4 makes
with masquerading (handed/masked.mc). What is said there of each, whether both give the same header,
must be so. It ends with status 1 where something isn't as it says. This is no part of the gate.
"""

import sys
import tempfile
from collections import Counter
from itertools import groupby
from pathlib import Path

sys.dont_write_bytecode = True
HERE = Path(__file__).resolve().parent / "handed"
# In place of this folder, whose queue.py would stand for that of Python.
sys.path[:1] = [str(HERE)]

from alike import Text, forms, moment, name, taken  # noqa: E402
from messages import MESSAGES, Message, header_messages  # noqa: E402
from ours import BUILT, Ours  # noqa: E402
from theirs import Strange, Theirs  # noqa: E402

HEAD = """V10/Berkeley
O DeliveryMode=interactive
O MaxMessageSize=16777216
O AuthMechanisms=NONE
O DefaultUser=0:0
O ServiceSwitchFile=@DIR@/switch
"""


def batches(message):
    """A message for each mailer: its recipients have one host."""
    for host, users in groupby(message.recipients, lambda user: user.partition(b"@")[2]):
        named = f"{message.name}, to {host.decode()}"
        yield Message(named, message.sender, tuple(users), message.text)


def both(ours, theirs, config, message):
    """What both hand over of a message that makes one batch."""
    there = theirs.hand(config, message.sender, message.recipients, message.text)
    if len(there) != 1:
        raise Strange(f"{message.name}: {len(there)} programs were started")
    identity, created = taken(there[0].text)
    here = ours.hand(config, message, identity, created, moment(there[0].text, created))
    return here, there[0]


def compare_texts(ours, theirs):
    """Ten messages for four mailers. Gives how many texts aren't explained."""
    config = theirs.configuration("mailers.cf", HEAD + (HERE / "mailers.cf").read_text())
    used, texts, strange, arguments = Counter(), 0, 0, 0
    for message in MESSAGES:
        for batch in batches(message):
            here, there = both(ours, theirs, config, batch)
            texts += 1
            arguments += here.arguments == [it.replace(b"-<>", b"-") for it in there.arguments]
            how = forms(here.text, there.text, message.text)
            strange += how is None
            used.update(how or ())
            if how is None:
                print(f"{batch.name}:\n  here  {here.text!r}\n  there {there.text!r}")
    print(f"{len(MESSAGES)} messages, {texts} texts: {texts - strange} are the same by these forms")
    for form, count in used.items():
        print(f"  {count}: {form}")
    print(f"  {arguments} have the same arguments")
    return strange + texts - arguments


def compare_headers(ours, theirs):
    """A hundred headers. Gives how many of them aren't as they are said to be."""
    made = theirs.expanded((HERE / "masked.mc").read_text())
    config = theirs.configuration("masked.cf", made)
    found, strange = {}, 0
    for rule, message in header_messages(HERE / "headers.txt"):
        here, there = both(ours, theirs, config, message)
        is_alike = is_same(here.text, there.text, message.text)
        counts = found.setdefault(rule, Counter())
        counts[is_alike] += 1
        if is_alike != (rule == "alike"):
            strange += 1
            texts = shown(here.text, there.text)
            print(f"{message.name!r}, {rule}:\n  here  {texts[0]}\n  there {texts[1]}")
    total = sum(sum(counts.values()) for counts in found.values())
    alike = sum(counts[True] for counts in found.values())
    print(f"{total} headers, {alike} are the same")
    for rule, counts in found.items():
        if rule != "alike":
            print(f"  {counts[False]}: {rule}")
    return strange


def shown(ours, theirs):
    """The headers that stand in one of two texts alone."""
    sides = [Text(text).headers[1:] for text in (ours, theirs)]
    return [[it for it in side if it not in sides[1 - at]] for at, side in enumerate(sides)]


def is_same(ours, theirs, own):
    """Whether both have the same headers but for `Received`, by the forms, and the same body."""
    texts = [Text(text) for text in (ours, theirs)]
    for text in texts:
        text.headers = [header for header in text.headers if name(header) != b"received"]
    return forms(texts[0].bytes(), texts[1].bytes(), own) is not None


def main():
    if len(sys.argv) < 2 or not (len(sys.argv) > 2 or BUILT.exists()):
        print("Use: bench/handed.py UNPACKED [COMMAND], with crates/handed built by `rt run`")
        return 2
    unpacked = Path(sys.argv[1]).resolve()
    if not (unpacked / "usr/libexec/sendmail/sendmail").exists():
        print("skipped: Sendmail's own program isn't there")
        return 0
    with tempfile.TemporaryDirectory(dir=Path.home()) as folder:
        Path(folder).chmod(0o755)
        ours, theirs = Ours(sys.argv[2:]), Theirs(unpacked, Path(folder))
        strange = compare_texts(ours, theirs) + compare_headers(ours, theirs)
    return 1 if strange else 0


sys.exit(main())
