"""A whole call of the program: the words of its command line, the model that they ask for, its script, and the order in
which that is run."""

import os
import re
from collections import namedtuple

from . import demos
from .models import read_model
from .refused import Refused, refuse_unless
from .script import Fault, Outcome, commands_of, in_order, is_merge, order_of, run
from .words import name

MOST_OF_A_MODEL = 16_777_216  # bytes
MOST_OF_AN_ORDER = 131_078  # bytes that are asked for: the longest line of an order has one less, with its line feed as many

USUAL_WORKERS = 4
MOST_WORKERS = 16

# What words ask for: the name of a file to load, the number of a demo, and the name of a file with an order, or None; and how
# many workers, on which nothing that comes depends.
Asked = namedtuple("Asked", "load demo replay workers", defaults=[None] * 3 + [USUAL_WORKERS])


class Ended(Exception):
    """The call ends without a run: the number of the status, and what its line tells."""


def call(words, get, script, order=None, marks=frozenset()):
    """What a call comes to. `get` answers the bytes of the file of a name, at most so many as it is asked for, or None where
    there is none; `script` answers the script. The words are looked at first, then the model, then the script, then the file
    of the order. A demo has a model and a script of its own, and neither is asked for. Where the words ask for no order, the
    sessions are run in the one that is given, if it is one of the script, and else as their lines stand. Commands that are
    marked find no memory."""
    try:
        asked = asked_by(words)
        directory = directory_of(asked, get)
        commands = commands_in(demos.SCRIPT.encode() if asked.demo is not None else script())
        if asked.replay:
            order = order_in(get(asked.replay, MOST_OF_AN_ORDER), asked.replay, commands)
    except Ended as end:
        number, told = end.args
        return Outcome(number, f"mgedrt: {told}")
    return run(in_order(commands, order) if is_merge(order, commands) else commands, directory, marks)


def asked_by(words):
    """What words ask for: `--load NAME`, `--demo N`, `--replay NAME` and `--workers N`, each also with `=`, and at most once.
    No other words are allowed, nor a demo beside a file to load."""
    given, words = {}, iter(words)
    for word in words:
        option, sign, value = word.partition("=")
        if not sign:
            value = next(words, "")
        if option in given or option not in READERS or READERS[option](value) is None:
            raise Ended(2, "usage")
        given[option] = READERS[option](value)
    if len(given.keys() & {"--load", "--demo"}) > 1:
        raise Ended(2, "usage")
    return Asked(**{option[2:]: value for option, value in given.items()})


def name_of(value):
    return name(os.fsencode(value))


def number_of(value):
    return int(value) if re.fullmatch("[0-9]{1,9}", value) else None


def workers_of(value):
    number = number_of(value)
    return number if number is not None and 1 <= number <= MOST_WORKERS else None


READERS = {"--load": name_of, "--demo": number_of, "--replay": name_of, "--workers": workers_of}


def directory_of(asked, get):
    """The directory at first, or None for an empty one."""
    try:
        if asked.demo is not None:
            return read_model(demos.text(asked.demo).encode())
        return loaded(asked.load, get) if asked.load else None
    except Refused as refusal:
        raise Ended(3, f"load {refusal}") from None


def loaded(file, get):
    """The directory of a model file."""
    text = get(file, MOST_OF_A_MODEL + 1)
    refuse_unless(text is not None, f"missing {file}")
    refuse_unless(len(text) <= MOST_OF_A_MODEL, "size")
    return read_model(text)


def commands_in(text):
    """The commands of a script."""
    try:
        return commands_of(text)
    except Fault as fault:
        raise Ended(4, f"script {fault}") from None


def order_in(text, file, commands):
    """The order that the text of a file has, which is one of these commands."""
    if text is None:
        raise Ended(8, f"replay missing {file}")
    order = order_of(text)
    if not is_merge(order, commands):
        raise Ended(8, "replay order")
    return order
