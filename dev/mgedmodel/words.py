"""Lines as words, numbers, lengths, names and texts. A command of a model may have line feeds in its groups; a line of a script has none."""

import re

from .refused import Refused, syntax_unless

MOST_OPEN = 4_100  # groups within each other
MOST_OF_A_TEXT = 1_024  # bytes of a title, and of a value that is kept
NEVER = re.compile(rb"[\x00-\x08\x0b\x0c\x0e-\x1f\x7f\\]")
NOT_OUTSIDE = re.compile(rb'["\[\]$;]')
PIECE = re.compile(rb"(?P<blanks>[ \t\r\n]+)|(?P<open>\{)|(?P<close>\})|(?P<atom>[^ \t\r\n{}]+)")
NUMBER = re.compile(rb"([+-]?)(?=[0-9])0*([0-9]{0,9})(?:\.0*)?")
LENGTH = re.compile(rb"([+-]?)(?=[0-9])0*([0-9]{0,9})(?:\.(?:([0-9])0*)?)?")
MILLIMETRE = 10  # tenths, which lengths count
NAME = re.compile(rb"[A-Za-z0-9_][A-Za-z0-9_.-]{0,63}")


class Word:
    """An atom, or a group with its words: the place of its first byte in the line, and the place after its last one."""

    def __init__(self, line, start, end=None, words=None):
        self.line, self.start, self.end, self.words = line, start, end, words

    @property
    def is_atom(self):
        return self.words is None

    @property
    def text(self):
        """The bytes of an atom, or those that stand between the braces of a group."""
        return self.line[self.start : self.end] if self.is_atom else self.line[self.start + 1 : self.end - 1]


def read_words(line):
    """The words of a line outside all groups, and where the last one ends."""
    syntax_unless(not NEVER.search(line))
    whole = Word(line, 0, words=[])
    opened, before, end = [whole], "blanks", 0
    for piece in PIECE.finditer(line):
        kind = piece.lastgroup
        if kind == "open":
            syntax_unless(before not in ("atom", "close") and len(opened) <= MOST_OPEN)
            group = Word(line, piece.start(), words=[])
            opened[-1].words.append(group)
            opened.append(group)
        elif kind == "close":
            syntax_unless(len(opened) > 1)
            opened.pop().end = piece.end()
        elif kind == "atom":
            syntax_unless(before != "close")
            syntax_unless(len(opened) > 1 or not NOT_OUTSIDE.search(piece.group()))
            opened[-1].words.append(Word(line, piece.start(), piece.end()))
        if kind != "blanks":
            end = piece.end()
        before = kind
    syntax_unless(len(opened) == 1)
    return whole.words, end


def counts_as_atom(word):
    """Whether a word is an atom, or a group of one atom and nothing else."""
    return word.is_atom or len(word.words) == 1 and word.words[0].is_atom


def atom(word):
    syntax_unless(counts_as_atom(word))
    return word.text if word.is_atom else word.words[0].text


def text_from(line, words, first, end):
    """The words from this one on as a text: what stands between the braces of a single group, else the bytes as they stand."""
    is_group = len(words) == first + 1 and not words[first].is_atom
    return words[first].text if is_group else line[words[first].start : end]


def is_text(text):
    """Whether a text may be a title, or a value that is kept: it can stand between braces."""
    if len(text) > MOST_OF_A_TEXT or b"\n" in text or b"\r" in text:
        return False
    try:
        words, _ = read_words(b"{%s}" % text)
    except Refused:
        return False
    return len(words) == 1


def number(text, least, most):
    """The number that a text is, or None where it is none or not in its range."""
    form = NUMBER.fullmatch(text)
    if not form:
        return None
    value = int(form.group(1) + (form.group(2) or b"0"))
    return value if least <= value <= most else None


def length(text, least, most):
    """The length that a text is, in tenths of a millimetre, or None where it is none or not in its range. A length is a whole
    number, or has one digit after the point and then zeros."""
    form = LENGTH.fullmatch(text)
    if not form:
        return None
    value = int(form.group(1) + (form.group(2) or b"0") + (form.group(3) or b"0"))
    return value if least <= value <= most else None


def length_text(tenths):
    """A length as it is written: a whole number of millimetres where it is one, else with a point and one digit."""
    whole, tenth = divmod(abs(tenths), MILLIMETRE)
    return "-" * (tenths < 0) + str(whole) + (f".{tenth}" if tenth else "")


def name(text):
    """The name that a text is, or None."""
    return text.decode("ascii") if NAME.fullmatch(text) else None


def name_at(atoms, place):
    """The name that the word of this number is. Words are numbered from 1."""
    found = name(atoms[place - 1])
    if found is None:
        raise Refused(f"name {place}")
    return found


def number_at(atoms, place, most, least=None, read=number):
    """The number that the word of this number is, from the least, else the most with the other sign, to the most. It is read
    as a plain number, or as a length."""
    found = read(atoms[place - 1], -most if least is None else least, most)
    if found is None:
        raise Refused(f"number {place}")
    return found
