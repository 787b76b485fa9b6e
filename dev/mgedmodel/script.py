"""The commands of a script, their run in an order of the sessions, its transcript and its status."""

import re
from collections import Counter, defaultdict, deque, namedtuple

from .directory import Directory
from .kept import KeptTiles
from .lines import read_line
from .listings import MOST_USED
from .refused import Refused, refuse_unless

MOST_BYTES = 4_194_304
MOST_LINES = 65_536
MOST_OF_A_LINE = 65_536  # bytes
BLANKS = b" \t\r"
SESSION = re.compile(rb"@([1-8])(?: (.*))?", re.DOTALL)
ORDER = re.compile(rb"order((?: [1-8])*)")

# What a call comes to: the status's number, its line on standard error, which may be empty, the bytes written, and the
# files that are put then, each a name and its bytes.
Outcome = namedtuple("Outcome", "number line written files", defaults=[b"", ()])


class Fault(Exception):
    """A fault of the whole script; the text is what the status line tells of it."""


class Session:
    """What one session has answered, the bytes of the bodies and files of its accepted commands, and the tiles that it keeps."""

    def __init__(self):
        self.answers, self.count, self.used, self.kept = [], 0, 0, KeptTiles()

    def room(self):
        return MOST_USED - self.used

    def answer(self, header, body=()):
        self.count += 1
        self.answers.append(header)
        self.answers += body


def commands_of(script):
    """The session and the line of each command."""
    if len(script) > MOST_BYTES:
        raise Fault("size")
    lines, commands = script.split(b"\n"), []
    if lines[-1] == b"":
        lines.pop()
    for place, line in enumerate(lines, 1):
        number, rest = session_of(place, line)
        if rest.strip(BLANKS) and not rest.lstrip(BLANKS).startswith(b"#"):
            commands.append((number, rest))
    return commands


def session_of(place, line):
    """The session of a line, and what is after it."""
    if place > MOST_LINES:
        raise Fault(f"line {place} lines")
    if len(line) > MOST_OF_A_LINE:
        raise Fault(f"line {place} long")
    if not line.startswith(b"@"):
        return 1, line
    form = SESSION.fullmatch(line)
    if not form:
        raise Fault(f"line {place} session")
    return int(form[1]), form[2] or b""


def order_of(text):
    """The sessions of the commands in the order that a text has on its first line, or None where that is no such line."""
    form = ORDER.fullmatch(text.partition(b"\n")[0])
    return [int(digit) for digit in form[1].split()] if form else None


def is_merge(order, commands):
    """Whether each session comes in an order as often as it has commands."""
    return order is not None and Counter(order) == Counter(number for number, _ in commands)


def in_order(commands, order):
    """The commands with the sessions in this order, and those of one session as they were."""
    lines = defaultdict(deque)
    for number, line in commands:
        lines[number].append(line)
    return [(number, lines[number].popleft()) for number in order]


def marks_in(text):
    """The commands that a transcript answers with out of memory, each as its session and number."""
    lines, marks = iter(text.decode("latin-1").split("\n")[1:-1]), set()
    for line in lines:
        label, outcome, _, rest = line.split(" ", 3)
        if outcome == "ok":
            for _ in range(int(rest)):
                next(lines)
        elif rest == "memory":
            marks.add(label)
    return marks


def run(commands, directory=None, marks=frozenset()):
    """What commands come to that are run in this order. At first there is this directory, else an empty one. A command that is
    marked finds no memory."""
    directory, version, any_refused = directory or Directory(), 0, False
    sessions, files = defaultdict(Session), []
    for number, line in commands:
        session = sessions[number]
        label = f"{number}.{session.count + 1}"
        try:
            if label in marks:
                find_no_memory(session, line)
            command = read_line(line)
            body, put = command.act(directory, session)
            size = sum(len(text) + 1 for text in body) + sum(len(text) for _, text in put)
            refuse_unless(size <= session.room(), "quota")
        except Refused as refusal:
            any_refused = True
            session.answer(f"{label} refused v{version} {refusal}")
            continue
        version += command.is_edit
        session.used += size
        files += put
        session.answer(f"{label} ok v{version} {len(body)}", body)
    lines = ["order" + "".join(f" {number}" for number, _ in commands)]
    for number in sorted(sessions):
        lines += sessions[number].answers
    return Outcome(int(any_refused), "", "".join(line + "\n" for line in lines).encode("latin-1"), tuple(files))


def find_no_memory(session, line):
    """Refuses a command as out of memory. One that shoots at a view empties the list of kept tiles."""
    try:
        if read_line(line).shoots:
            session.kept.let_go()
    except Refused:
        pass
    raise Refused("memory")
