"""Rows of models, as `load TEXT => saved WRITTEN` and `load TEXT => line L KIND`, and of words, as `options WORD .. => load
NAME`, `.. => demo N`, `.. => nothing` and each of these with ` replay NAME`, and with ` workers N` where these are not the
usual number, with texts as docs/CASES.md escapes them."""

import os
import re

from .calls import USUAL_WORKERS, Ended, asked_by
from .models import read_model
from .refused import Refused
from .written import text_of

ESCAPED = {b"\\": b"\\", b"s": b" ", b"t": b"\t", b"r": b"\r", b"n": b"\n"}
ESCAPES = {byte: b"\\" + letter for letter, byte in ESCAPED.items()}
# An escape: a byte by its letter, a byte by its number, or a text so many times.
PART = re.compile(rb"\\(?:([\\strn])|x([0-9a-fA-F]{2})|([0-9]+)\(((?:[^\\)]|\\.)*)\)|)", re.DOTALL)
TURN = re.compile(rb"%(?:\+([0-9]+))?")
PLAIN = re.compile(rb"[^ -~]|[\\=]|^ | $")


def answer_of(text):
    """What a text is as a model."""
    try:
        return b"saved " + text_of(read_model(text))
    except Refused as refusal:
        return str(refusal).encode()


def asked_of(words):
    """What the words of the command line ask for."""
    try:
        asked = asked_by([os.fsdecode(word) for word in words])
    except Ended:
        return b"usage"
    values = dict(asked._asdict(), workers=asked.workers if asked.workers != USUAL_WORKERS else None)
    told = [f"{what} {value}" for what, value in values.items() if value is not None]
    return " ".join(told if asked.load or asked.demo is not None else ["nothing", *told]).encode()


# What is answered of that which stands after the first word of a row.
KINDS = {
    b"load": lambda given: answer_of(unescaped(given)),
    b"options": lambda given: asked_of([unescaped(word) for word in given.split()]),
}


def differing(file):
    """The number of the rows of a file, and of each that differs its text, what is wanted and what came."""
    rows = [line for line in file.split(b"\n") if line and not line.startswith(b"#")]
    found = []
    for row in rows:
        asked, arrow, wanted = row.partition(b" => ")
        kind, _, given = asked.partition(b" ")
        if kind not in KINDS or not arrow:
            raise ValueError(f"no row: {row.decode('latin-1')}")
        came = KINDS[kind](given)
        if came != unescaped(wanted):
            found.append((asked, wanted, escaped(came)))
    return len(rows), found


def row_of(text):
    return b"load %s => %s\n" % (escaped(text), escaped(answer_of(text)))


def unescaped(text):
    return PART.sub(byte_or_turns, text)


def byte_or_turns(part):
    letter, digits, count, repeated = part.groups()
    if letter:
        return ESCAPED[letter]
    if digits:
        return bytes([int(digits, 16)])
    if count is None:
        raise ValueError(f"no escape: {part.string[part.start() :].decode('latin-1')}")
    turns = range(1, int(count) + 1)
    return unescaped(b"".join(TURN.sub(lambda place: b"%d" % (turn + int(place[1] or 0)), repeated) for turn in turns))


def escaped(text):
    """A text in one row, in printable characters alone. No `=` stands in it, so nothing in it is an arrow."""
    return PLAIN.sub(lambda part: ESCAPES.get(part[0], b"\\x%02x" % part[0][0]), text)
