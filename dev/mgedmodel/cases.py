"""Cases of scripts, as docs/CASES.md has them, each with what it wants of a call."""

import os
import random
from dataclasses import dataclass, field

from .calls import call
from .rows import unescaped
from .script import Fault, commands_of

DEVICES = ("reads-fail", "writes-fail", "room", "step", "held")  # what only the program's own devices do
BLOCKS = ("script", "transcript", "or", "begins", "ends")
MERGES = 20  # that are tried of a case whose order is free, beside three of its own


@dataclass
class Case:
    name: str
    words: list = field(default_factory=list)
    files: dict = field(default_factory=dict)
    puts: list = field(default_factory=list)  # of each its name, its number of bytes or None, and its bytes
    blocks: dict = field(default_factory=dict)  # lists of texts
    answers: list = field(default_factory=list)
    numbers: dict = field(default_factory=dict)
    is_talk: bool = False
    is_replayed: bool = False
    line: str = ""

    def text(self, block):
        return b"".join(self.blocks.get(block, ()))

    def wholes(self):
        """The transcripts of which one is wanted, where the case says any."""
        if self.is_talk:
            heads = [head + b" %d" % body.count(b"\n") if head.startswith(b"ok") else head for head, body in self.answers]
            answers = (b"1.%d %s\n%s" % (i + 1, head, body) for i, (head, (_, body)) in enumerate(zip(heads, self.answers)))
            return [b"order%s\n%s" % (b" 1" * len(heads), b"".join(answers))]
        if "transcript" in self.blocks:
            return [self.text("transcript"), *(b"".join(other) for other in self.blocks.get("others", ()))]
        is_free = self.is_replayed or self.text("begins") or self.text("ends") or "bytes" in self.numbers
        return [] if is_free else [b""]


def cases_of(text):
    """The cases of a file."""
    setup, lines, name = [], None, None
    for line in text.split(b"\n"):
        if line == b"setup" or line.startswith(b"case "):
            if lines is not None:
                yield case_of(name, lines)
            name, lines = line[5:].decode(), None if line == b"setup" else list(setup)
            setup = [] if lines is None else setup
        else:
            (setup if lines is None else lines).append(line)
    if lines is not None:
        yield case_of(name, lines)


def case_of(name, lines):
    case, into = Case(name), None
    for line in lines:
        head, _, rest = line.partition(b" ")
        word = head.decode("latin-1")
        if not line or line.startswith(b"#"):
            continue
        if line[:1] in b"|+":
            into.append(unescaped(line[2:] if line[1:2] == b" " else line[1:]) + (b"\n" if line[:1] == b"|" else b""))
        elif line[:1] == b">":
            case.is_talk, into = True, None
            case.blocks.setdefault("script", []).append(unescaped(line[2:] if line[1:2] == b" " else line[1:]) + b"\n")
        elif word in ("ok", "refused"):
            case.answers.append((unescaped(line), b""))
            into = Body(case.answers)
        elif word == "or":
            into = []
            case.blocks.setdefault("others", []).append(into)
        elif word in BLOCKS:
            into = case.blocks.setdefault(word, [])
        elif word == "file":
            into = case.files[rest.decode()] = []
        elif word == "put":
            put, _, size = rest.decode().partition(" ")
            into = []
            case.puts.append((put, int(size) if size else None, into))
        elif word == "words":
            case.words += [os.fsdecode(unescaped(word)) for word in rest.split()]
        elif word == "line":
            case.line += unescaped(rest).decode("latin-1")
        elif word == "replayed":
            case.is_replayed = True
        else:
            case.numbers[word] = [int(number) for number in rest.split()]
    return case


class Body:
    """The body of the last answer."""

    def __init__(self, answers):
        self.answers = answers

    def append(self, text):
        head, body = self.answers[-1]
        self.answers[-1] = head, body + text


class Folder:
    """The files that are there, and those that are put; the calls with these numbers fail."""

    def __init__(self, files, fail_at):
        self.files, self.fail_at, self.made, self.puts = files, fail_at, 0, []

    def count(self):
        self.made += 1
        if self.made in self.fail_at:
            raise OSError

    def get(self, name, most):
        self.count()
        return self.files[name][:most] if name in self.files else None

    def put(self, name, text):
        self.count()
        self.puts.append((name, text))


def differences(case):
    """What differs of a case, or None where it asks for devices that this evaluator does not have."""
    if any(word in case.numbers for word in DEVICES):
        return None
    return [text for order in orders_of(case) for text in differences_in(case, order)]


def orders_of(case):
    """The orders in which a case is tried. None is the one of its lines, or that of a file."""
    if not case.is_replayed:
        return [None]
    try:
        lines = [number for number, _ in commands_of(case.text("script"))]
    except Fault:
        return [None]
    draws = random.Random(0)
    return [lines, sorted(lines), sorted(lines, reverse=True)] + [draws.sample(lines, len(lines)) for _ in range(MERGES)]


def differences_in(case, order):
    folder = Folder({name: b"".join(text) for name, text in case.files.items()}, case.numbers.get("files-fail", ()))
    left = [len(case.text("script"))]

    def script():
        left[0] = 0
        return case.text("script")

    number, line, written = 5, "mgedrt: read", b""
    try:
        number, line, written, files = call(case.words, folder.get, script, order)
        try:
            for name, text in files:
                folder.put(name, text)
        except OSError:
            number, line = 6, "mgedrt: write"
    except OSError:
        pass
    return [text for text, holds in claims(case, number, line, written, folder.puts, left[0]) if not holds]


def claims(case, number, line, written, puts, left):
    """What a case says, and whether it holds."""
    refused = any(head.startswith(b"refused") for head, _ in case.answers)
    status = case.numbers.get("status", [min(number, 1) if case.is_replayed else int(refused)])
    wholes, size = case.wholes(), case.numbers.get("bytes", [len(written)])
    yield f"status {number}", [number] == status
    yield f"line {line}", line == case.line
    yield f"transcript {written[:2000]!r}", not wholes or written in wholes
    yield f"beginning of {written[:2000]!r}", written.startswith(case.text("begins"))
    yield f"end of {written[-2000:]!r}", written.endswith(case.text("ends"))
    yield f"bytes {len(written)}", [len(written)] == size
    yield f"left {left}", [left] == case.numbers.get("left", [left])
    if case.puts or not case.is_replayed:
        yield f"files {[name for name, _ in puts]}", [name for name, _ in puts] == [name for name, _, _ in case.puts]
        for (name, text), (_, size, wanted) in zip(puts, case.puts):
            yield f"file {name}", len(text) == size if size is not None else text == b"".join(wanted)
