"""Scripts of eight sessions, run again and again while other processes keep the processors busy, and replayed."""

import hashlib
import os
import subprocess
import sys
import time
from collections import namedtuple
from contextlib import contextmanager

from mgedmodel.script import order_of

from .calls import know, model_and_directory
from .commands import Maker
from .orders import FILE, commands_in
from .outcomes import Difference, Given, by_order, outcome_of, write_call, write_difference
from .scripts import script_of_eight

MODEL = "m"  # the file that is loaded
MOST_WORKERS = 16
PROCESSORS = (1, 2, 4)  # on so many a run is held, in rotation
SLOWER = 60  # times the usual time, after which a run is a hang
LEAST_SECONDS = 10  # that a run may take in any case
MOST_SECONDS = 600  # that a run may take while its usual time is measured
BUSY = "import os, sys\nwhile os.getppid() == int(sys.argv[1]):\n    for _ in range(1_000_000):\n        pass"

# What is reported of a script: its kind, the number of its commands, of its runs, of the orders that came and of hangs, the usual
# seconds of a run and the most that one took.
Told = namedtuple("Told", "kind commands runs orders hangs usual longest")


def given_of(rng, kind=None):
    """The kind of a script of eight sessions, and what its runs are given. Half of the scripts are about a model that is
    loaded."""
    maker, words, files = Maker(rng), [], {}
    if rng.random() < 0.5:
        text, directory = next(filter(lambda made: made[1], iter(lambda: model_and_directory(rng), None)))
        words, files = ["--load", MODEL], {MODEL: text}
        know(maker, directory)
    kind, lines = script_of_eight(maker, (MODEL, "a", "b"), kind)
    return kind, Given(words, files, "".join(line + "\n" for line in lines).encode(), "a run in any order")


@contextmanager
def busy_processors(processors, count):
    """So many other processes on each of the processors, which end with this one at the latest."""
    made = []
    try:
        for processor in list(processors) * count:
            made.append(subprocess.Popen([sys.executable, "-c", BUSY, str(os.getpid())]))
            os.sched_setaffinity(made[-1].pid, {processor})
        yield
    finally:
        for process in made:
            process.kill()
            process.wait()


@contextmanager
def held_on(processors):
    """Runs are held on these processors."""
    before = os.sched_getaffinity(0)
    os.sched_setaffinity(0, processors)
    try:
        yield
    finally:
        os.sched_setaffinity(0, before)


def timed(program, given, seconds):
    began = time.monotonic()
    outcome = outcome_of(program, given, seconds)
    return outcome, time.monotonic() - began


def with_workers(given, workers):
    return given._replace(words=[*given.words, f"--workers={workers}"])


def usual_seconds(program, given):
    """The longest of a few runs, before other processes are started."""
    longest = max(timed(program, with_workers(given, workers), MOST_SECONDS)[1] for workers in (1, 4, MOST_WORKERS))
    if longest >= MOST_SECONDS:
        sys.exit(f"a run that nothing holds up has not ended after {MOST_SECONDS} seconds")
    return longest


class Runs:
    """The runs of one script. `place` says where a case is written, by the number of the run."""

    def __init__(self, program, given, place):
        self.program, self.given, self.place = program, given, place
        self.orders = {}  # what each order that came came to
        self.count, self.hangs, self.longest, self.differs = 0, 0, 0, False
        self.usual = usual_seconds(program, given)
        self.seconds = max(LEAST_SECONDS, SLOWER * self.usual)

    def run_all(self, times):
        """Runs the script so many times, with each number of workers on each number of processors. It stops where one order
        comes to two things."""
        there = sorted(os.sched_getaffinity(0))
        for number in range(times):
            count = min(PROCESSORS[number % len(PROCESSORS)], len(there))
            processors = [there[(number // len(PROCESSORS) + at) % len(there)] for at in range(count)]
            with held_on(processors):
                self.run(number, 1 + number % MOST_WORKERS, processors)
            if self.differs:
                return

    def run(self, number, workers, processors):
        given = with_workers(self.given, workers)._replace(told=f"run {number}, with {workers} workers, on processors {processors}")
        self.count += 1
        came = self.outcome(number, given)
        if came is None:
            return
        if came.number not in (0, 1) or order_of(came.written) is None:
            self.write(number, given, came)
            return
        order, digest = bytes(order_of(came.written)), digest_of(came)
        if order not in self.orders:
            self.orders[order] = digest
            self.replay(number, given, came)
        elif self.orders[order] != digest:
            self.write(number, given._replace(told=f"{given.told}; an earlier one of this order came to something else"), came)

    def replay(self, number, given, came):
        """Replays a run by its own transcript."""
        again = by_order(given, came.written, 0, f"the replay of {given.told}")
        wanted = came._replace(files={**came.files, FILE: came.written})
        replayed = self.outcome(number, again)
        if replayed is not None and replayed != wanted:
            write_difference(self.place(number), Difference(again, wanted, replayed), "A run and its replay", "by the run")
            self.differs = True

    def outcome(self, number, given):
        """What a run comes to, or None where it is a hang, which is written."""
        came, seconds = timed(self.program, given, self.seconds)
        self.longest = max(self.longest, seconds)
        if came.number != "none":
            return came
        self.hangs += 1
        write_call(self.place(number), given, came)
        return None

    def write(self, number, given, came):
        write_call(self.place(number), given, came)
        self.differs = True


def digest_of(outcome):
    return hashlib.sha256(repr((outcome[:3], sorted(outcome.files.items()))).encode()).digest()


def told_of(program, made, place, times, load):
    """Runs a script so many times, and tells of the runs; and whether one of them came to what it may not."""
    kind, given = made
    runs = Runs(program, given, place)
    with busy_processors(sorted(os.sched_getaffinity(0)), load):
        runs.run_all(times)
    return Told(kind, len(commands_in(given.script)), runs.count, len(runs.orders), runs.hangs, runs.usual, runs.longest), runs.differs
