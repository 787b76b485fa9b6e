"""Orders of the sessions of a script: merges of its commands, and texts that are mostly none."""

import random
import zlib
from collections import Counter, defaultdict, deque

from mgedmodel.script import Fault, commands_of

FILE = "o.order"  # no script saves to it
SPELLINGS = (["--replay", FILE], [f"--replay={FILE}"])
PIECES = (b" ", b"  ", b"\t", b"\r", b"\n", b"", b"\x00", b"\xff", b"0", b"9", b"1", b"8", b"x", b" 1", b" 2 ", b" +1", b" 01", b"order", b" order 1", b"#", b" 12", b",", b"\xd9\xa1")


def commands_in(script):
    """The commands of a script, none where it has a fault."""
    try:
        return commands_of(script)
    except Fault:
        return []


def merge_of(number, script):
    """An order of a script. It is made from the number and the lines alone, so that without some line it is much the same."""
    lines, seen = defaultdict(deque), Counter()
    for session, line in commands_in(script):
        seen[session, line] += 1
        lines[session].append(zlib.crc32(b"%d %d %d %s" % (number, session, seen[session, line], line)))
    order = []
    while lines:
        session = min(lines, key=lambda session: lines[session][0])
        order.append(session)
        lines[session].popleft()
        if not lines[session]:
            del lines[session]
    return order


def text_of(order):
    return b"order" + b"".join(b" %d" % session for session in order)


def good_text(number, script):
    """The text of an order, with a line feed or without, and with something after that."""
    rng = random.Random(number)
    return text_of(merge_of(number, script)) + rng.choice((b"", b"\n", b"\n", b"\n1.1 ok v1 0\n", b"\norder 1 1\n", b"\n" + bytes(200_000), b"\n\xff\r"))


def broken_text(number, script):
    """The text of an order with some faults in its first line, or another text."""
    rng = random.Random(number)
    order = merge_of(number, script)
    way = rng.randrange(8)
    if way == 0 and order:
        del order[rng.randrange(len(order))]
    elif way == 1:
        order.insert(rng.randint(0, len(order)), rng.randint(0, 9))
    elif way == 2 and order:
        order[rng.randrange(len(order))] = rng.randint(0, 9)
    text = text_of(order)
    at = rng.randint(0, len(text))
    if way == 3:
        text = text[:at] + rng.choice(PIECES) + text[at:]
    elif way == 4:
        text = text[:at] + rng.choice(PIECES) + text[at + 1 :]
    elif way == 5:
        text = text[:at]
    elif way == 6:
        text += rng.choice(PIECES)
    elif way == 7:
        text = rng.choice((b"", b"\n", b"\n" + text, b" " + text, b"\xef\xbb\xbf" + text, text.upper(), text[6:], text + text, text + b" " * 131_100, text + b" 1" * 70_000, bytes(131_079)))
    return text + rng.choice((b"", b"\n", b"\n", b"\n1.1 ok v1 0\n"))
