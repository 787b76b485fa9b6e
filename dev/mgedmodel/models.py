"""A whole model as a text, read as docs/TEXT_FORM.md says: the directory that its commands fill, or its first fault."""

import re

from .directory import Directory
from .refused import Refused, refuse_unless
from .texts import read_attr_set, read_put, read_title, text_of_atom
from .words import read_words

COMMENT = re.compile(rb"[ \t\r]*#[^\n]*")
BLANK = re.compile(rb"[ \t\r]*")
END = re.compile(rb"[{}\n]")


def read_model(text):
    """The directory of a text. A fault is reported as `line L KIND`."""
    directory = Directory()
    for line, command in commands_of(text):
        try:
            add(directory, command)
        except Refused as refusal:
            raise Refused(f"line {line} {str(refusal).split()[0]}") from None
    return directory


def commands_of(text):
    """The commands, each with the number of the line on which it begins."""
    start, line = 0, 1
    while start < len(text):
        comment = COMMENT.match(text, start)
        end = comment.end() if comment else end_of(text, start)
        if not comment and not BLANK.fullmatch(text, start, end):
            yield line, text[start:end]
        line += text.count(b"\n", start, end + 1)
        start = end + 1


def end_of(text, start):
    """The place of the first line feed at which as many groups are closed as opened, or the end of the text."""
    opened = 0
    for piece in END.finditer(text, start):
        if piece.group() == b"\n" and opened == 0:
            return piece.start()
        opened += {b"{": 1, b"}": -1, b"\n": 0}[piece.group()]
    return len(text)


def add(directory, command):
    try:
        words, end = read_words(command)
    except Refused:
        raise Refused("words") from None
    head = text_of_atom(words[0])
    if head == "put":
        directory.make(*read_put(words))
    elif head == "attr":
        directory.keep(*read_attr_set(words, directory.objects))
    elif head == "title":
        directory.set_title(read_title(command, words, end))
    else:
        refuse_unless(head == "units" and [text_of_atom(word) for word in words[1:]] == ["mm"], "type")
