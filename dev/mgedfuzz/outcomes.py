"""What the runs of a call come to, of the program and of the evaluator, and where these differ. The files of an outcome are
all that are in the folder then, as bytes by their names."""

import os
import subprocess
import tempfile
import zlib
from collections import namedtuple

from mgedmodel.calls import call as evaluated
from mgedmodel.script import Outcome, order_of

from .orders import FILE, SPELLINGS, broken_text, commands_in, good_text
from .reducing import smaller_call

SECONDS = 120  # that the program may take for one call
TRIES = 10  # how often a smaller call is run to see whether it still differs, where its sessions race

# What one run is given, and what is reported of it.
Given = namedtuple("Given", "words files script told")
# A run, what is wanted of it, and what came.
Difference = namedtuple("Difference", "given wanted came")


def wanted_of(given, order=None):
    outcome = evaluated(given.words, lambda file, most: given.files[file][:most] if file in given.files else None, lambda: given.script, order)
    return outcome._replace(files={**given.files, **dict(outcome.files)})


def outcome_of(program, given, seconds=SECONDS):
    with tempfile.TemporaryDirectory() as folder:
        write_files(folder, given.files)
        try:
            ran = subprocess.run([program, *given.words], input=given.script, capture_output=True, timeout=seconds, cwd=folder)
        except subprocess.TimeoutExpired:
            return Outcome("none", f"(not ended after {seconds:.0f} seconds)", files={})
        line = ran.stderr.decode("latin-1")
        return Outcome(ran.returncode, line[:-1] if line.endswith("\n") else line + "(no line feed)" if line else "", ran.stdout, files_of(folder))


def runs_of(program, call, by_workers=False):
    """The runs of a call, each with what is wanted and what came. First the program is free in the order of the sessions, and
    the evaluator takes the order that came; so it is once more with some numbers of workers, where these are asked for. Then
    the program is to do the same by its own transcript. At last files of orders are given to both."""
    free = Given(call.words, call.files, call.script, "a run in any order")
    came = outcome_of(program, free)
    order = order_of(came.written)
    wanted = wanted_of(free, order)
    yield Difference(free, wanted, came)
    for given in given_to_workers(free) if by_workers else ():
        other = outcome_of(program, given)
        yield Difference(given, wanted if order_of(other.written) == order else wanted_of(free, order_of(other.written)), other)
    if came.number in (0, 1):
        again = by_order(free, came.written, len(came.written), "a replay of its own transcript")
        yield Difference(again, came._replace(files={**came.files, FILE: came.written}), outcome_of(program, again))
    for number, text, told in ((call.merge, good_text, "an order of a file"), (call.broken, broken_text, "a file that may be no order")):
        if number is not None:
            given = by_order(free, text(number, call.script), number, told)
            yield Difference(given, wanted_of(given), outcome_of(program, given))


def given_to_workers(free):
    """The run with 1, 3, 16 and another number of workers, which the words don't name yet."""
    if not any(word.startswith("--workers") for word in free.words):
        for count in (1, 3, 16, 1 + zlib.crc32(free.script) % 16):
            words = [f"--workers={count}"] if count % 2 else ["--workers", str(count)]
            yield free._replace(words=words + free.words, told=f"a run in any order with {count} workers")


def by_order(free, text, number, told):
    """A run by the order of a file; the number says how that is spelled."""
    words = SPELLINGS[number % 2]
    words = free.words + words if number // 2 % 2 else words + free.words
    return Given(words, {**free.files, FILE: text}, free.script, told)


def difference_in(program, call, by_workers=False):
    """The first run of a call that comes to something else than is wanted, or None."""
    return next((run for run in runs_of(program, call, by_workers) if run.wanted != run.came), None)


def write_files(folder, files):
    for name, text in files.items():
        with open(os.path.join(folder, name), "wb") as file:
            file.write(text)


def files_of(folder):
    files = {}
    for name in os.listdir(folder):
        with open(os.path.join(folder, name), "rb") as file:
            files[name] = file.read()
    return files


def compare(program, calls, place, times=1, by_workers=False):
    """Whether the calls come to the same, each so many times, and with several numbers of workers where that is asked for. The
    first that doesn't is made smaller, and written beside what it comes to."""
    for number, call in calls:
        for _ in range(times):
            found = difference_in(program, call, by_workers)
            if found:
                write_difference(place(number), smallest(program, call, found, by_workers))
                return False
    return True


def smallest(program, call, found, by_workers=False):
    """The difference of a smaller call, where one is found."""

    def differs(call):
        nonlocal found
        races = len({session for session, _ in commands_in(call.script)}) > 1
        again = next(filter(None, (difference_in(program, call, by_workers) for _ in range(TRIES if races else 1))), None)
        found = again or found
        return again is not None

    smaller_call(call, differs)
    return found


def write_difference(path, found, told="A call, made smaller", by="by dev/model"):
    given, wanted, came = found
    where, ours, theirs = first_difference(wanted, came)
    difference = f"{where}\nwanted: {ours}\ncame:   {theirs}"
    by_evaluator = [
        f"--- Wanted, {by}: {ending(wanted)}\n{shown(wanted.written)}",
        *files_shown("Wanted, the file", changed(wanted, given)),
    ]
    write_call(path, given, came, told, f"First difference: {difference}", by_evaluator)


def write_call(path, given, came, told="A call", difference="", wanted=()):
    """Writes what a call was given and what came, and what was wanted where that is known."""
    with open(path + ".mged", "wb") as file:
        file.write(given.script)
    if given.files:
        os.makedirs(path + ".files", exist_ok=True)
        write_files(path + ".files", given.files)
    parts = [
        f"{told}; the bytes of its script are in {os.path.basename(path)}.mged, and those of its files, if any, in .files.",
        f"It is {given.told}. {difference}".rstrip(),
        f"--- The words: {given.words}",
        *files_shown("The file", given.files),
        f"--- The script\n{shown(given.script)}",
        *wanted,
        f"--- Came, of the program: {ending(came)}\n{shown(came.written)}",
        *files_shown("Came, the file", changed(came, given)),
    ]
    with open(path + ".txt", "w", encoding="utf-8") as file:
        file.write("\n\n".join(parts))
    print(f"{given.told}: {difference or ending(came)}\nwritten to {path}.txt")


def changed(outcome, given):
    """The files that are other than before the call."""
    return {name: text for name, text in outcome.files.items() if given.files.get(name) != text}


def first_difference(wanted, came):
    """Where the outcomes differ, what is wanted, and what came."""
    if wanted[:2] != came[:2]:
        return "how the call ends", ending(wanted), ending(came)
    if wanted.written != came.written:
        return first_line("the transcript", wanted.written, came.written)
    name = min(name for name in {*wanted.files, *came.files} if wanted.files.get(name) != came.files.get(name))
    if name not in wanted.files or name not in came.files:
        return f"the file {name}", *("there" if name in outcome.files else "not there" for outcome in (wanted, came))
    return first_line(f"the file {name}", wanted.files[name], came.files[name])


def first_line(of, ours, theirs):
    """The first line that differs."""
    ours, theirs = (text.split(b"\n") + [b"(no line)"] for text in (ours, theirs))
    at = next(i for i, (our, their) in enumerate(zip(ours, theirs)) if our != their)
    return f"line {at + 1} of {of}", shown(ours[at]), shown(theirs[at])


def ending(outcome):
    return f"status {outcome.number}, status line: {outcome.line or 'none'}"


def files_shown(head, files):
    return [f"--- {head} {name}\n{shown(text)}" for name, text in sorted(files.items())]


def shown(text):
    """Lines of bytes for a person: a byte that is no printable character as \\xNN, and long lines without their middle."""
    lines = ["".join(chr(byte) if 32 <= byte < 127 and byte != 92 else f"\\x{byte:02x}" for byte in line) for line in text.split(b"\n")]
    return "\n".join(line if len(line) <= 500 else f"{line[:240]} ..({len(line) - 480} left out).. {line[-240:]}" for line in lines)
