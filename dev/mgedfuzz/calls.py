"""Random calls: the words of the command line, the files of the folder, a script, and the orders in which it is replayed."""

from collections import namedtuple

from mgedmodel.directory import Comb
from mgedmodel.models import read_model
from mgedmodel.refused import Refused
from mgedmodel.trees import leaves_of
from mgedmodel.written import text_of

from .commands import Maker
from .models import model
from .mutating import mutated
from .scripts import script

# The files are bytes by their names. `merge` and `broken` are numbers: from one an order of the script is made, and from the
# other a file that may be none. Where they are None the script is not replayed so.
Call = namedtuple("Call", "words files script merge broken", defaults=[None] * 2)

LOADED = ("m", "cup.asc", "s", "_0-.A", "n" * 64)  # names of files to load
OTHERS = ("M", "cup", "m.asc")
# Words that are refused. `NAME` stands for that of the file.
BAD_WORDS = (
    ["--load"], ["--load="], ["--load", ""], ["--load", "-NAME"], ["--load=-NAME"], ["--load", "--"], ["--load", "-"], ["--load", "--load"], ["--load", "--load", "NAME"],
    ["--load", "NAME", "--load", "NAME"], ["--load=NAME", "--load=NAME"], ["--load=NAME", "--load", "NAME"], ["--load", "NAME", "--load=NAME"], ["--load=NAME", "NAME"],
    ["--load", "a/b"], ["--load", "./NAME"], ["--load=../NAME"], ["--load", "/NAME"], ["--load", ".NAME"], ["--load=" + "n" * 65], ["--load", "NAME "], ["--load", " NAME"],
    ["--load", "NAME\n"], ["--load==NAME"], ["--load=NAME="], ["--load", "=NAME"], ["--load NAME"], ["--load", "caf\u00e9"], ["--load", "NAME\udcff"], ["\udcff"],
    ["--load", "NAME", "--"], ["--", "--load", "NAME"], ["--"], ["-"], [""], ["--load", "NAME", ""], ["NAME"], ["NAME", "--load"], ["load", "NAME"], ["-load", "NAME"],
    ["--loa", "NAME"], ["--l=NAME"], ["--loads", "NAME"], ["-l", "NAME"], ["-lNAME"], ["--LOAD", "NAME"], ["--no-load"], ["--file", "NAME"], ["--help"], ["-h"], ["--version"], ["-V"], ["help"],
    ["--demo"], ["--demo="], ["--demo", ""], ["--demo", "-1"], ["--demo=-1"], ["--demo=+1"], ["--demo=1.0"], ["--demo", "NAME"], ["--demo=0000000007"], ["--demo=1000000000"], ["--demo", "7", "--demo", "7"],
    ["--workers"], ["--workers="], ["--workers", ""], ["--workers", "0"], ["--workers=000"], ["--workers", "17"], ["--workers=17"], ["--workers=0000000004"], ["--workers", "4294967300"], ["--workers=260"], ["--workers", "-4"],
    ["--workers=-4"], ["--workers=+4"], ["--workers=4.0"], ["--workers", "NAME"], ["--workers", "4", "--workers", "4"], ["--workers=4", "--workers", "4"], ["--workers", "--workers=4"], ["--workers", "4", "4"], ["--workers4"],
    ["--work=4"], ["-w", "4"], ["--workers=4 "], ["--workers=\u0664"], ["--workers", "4", "--"], ["--workers", "--load=NAME"], ["--load", "--workers=4"], ["--workers", "0", "--load=NAME"], ["--load", "NAME", "--workers=17"],
    ["--demo=7", "--load=NAME"], ["--load", "NAME", "--demo", "7"], ["--demo", "--load=NAME"], ["--load", "--demo=7"], ["--demo", "7", "NAME"], ["--demo7"], ["--dem=7"], ["--demo=7 "], ["--demo=\u0667"],
)  # fmt: skip
BAD_WORDS += tuple([word.replace("load", "replay") for word in words] for words in BAD_WORDS if any("load" in word for word in words))
WORKERS = ("1", "1", "3", "3", "16", "16", "2", "4", "5", "8", "15", "007", "000000016")
MOST_USED = 2**26  # bytes of the bodies and files of one session


def call(rng, kind=None):
    """A call. A file of the folder may be loaded, and then the script is about what is in it. Where a kind of scripts is named,
    the script is of that kind."""
    if rng.random() < 0.01 and not kind:
        return filled(rng)
    file = rng.choice(LOADED)
    ways = (6, ()), (5, ("--load", "NAME")), (5, ("--load=NAME",)), (1, rng.choice(BAD_WORDS))
    words = [word.replace("NAME", file) for word in rng.choices(*zip(*((way, weight) for weight, way in ways)))[0]]
    files, maker = {}, Maker(rng)
    if words or rng.random() < 0.1:
        text, directory = model_and_directory(rng)
        files[rng.choice(OTHERS) if rng.random() < 0.05 else file] = text
        if words and directory:
            know(maker, directory)
    if rng.random() < 0.05:
        files = rng.choice(({}, dict(files, **{rng.choice(OTHERS): b"\x00put\n"})))
    lines = script(maker, (file, *OTHERS, "a"), kind)
    text = mutated(rng, lines) if rng.random() < 0.5 else "".join(line + "\n" for line in lines).encode()
    merge, broken = (rng.getrandbits(32) if rng.random() < share else None for share in (0.5, 0.3))
    return Call(with_workers(rng, words), files, text, merge, broken)


def with_workers(rng, words):
    """The words, in most calls with a number of workers before them or after them. Nothing that comes depends on it."""
    number = rng.choice(WORKERS)
    asked = rng.choice(([], ["--workers", number], [f"--workers={number}"]))
    return asked + words if rng.random() < 0.5 else words + asked


def model_and_directory(rng):
    """A model and what it is. Half of them may have a fault, and then there is no directory."""
    may_be_faulty = rng.random() < 0.5
    while True:
        text = model(rng)
        try:
            directory = read_model(text)
        except Refused:
            if may_be_faulty:
                return text, None
            continue
        return text if rng.random() < 0.7 else text_of(directory), directory


def know(maker, directory):
    maker.there = list(directory.objects)
    maker.members = {name: [leaf.name for leaf in leaves_of(thing.tree)] for name, thing in directory.objects.items() if isinstance(thing, Comb)}


def filled(rng):
    """A great model that one session saves so often that it comes about as far as the room of a session goes."""
    file, count, other = rng.choice(LOADED), rng.choice((5, 8, 16)), rng.choice((0, 1, -1, -2, -16, -200))
    size = MOST_USED // count - len(f"saved {file}\n") + other
    head, tail = "title {%s}\nunits mm\nput s sph V {0 0 0} r 5\nattr set s", "\n"
    fields = [f" k{i:05d} {{{'v' * 1_000}}}" for i in range((size - 200) // 1_009)]
    left = size - sum(map(len, (head % "", *fields, tail)))
    text = head % ("t" * left) + "".join(fields) + tail
    lines = [f"save {file}"] * (count + 2)
    for _ in range(rng.randint(1, 6)):
        lines.insert(rng.randint(0, len(lines)), rng.choice(("ls", "l s", "@2 save b", "save a/b", "title", "in s", "# save", "nirt -9 0 0 +x s", "@2 ls", "tree s", "save a")))
    return Call(["--load", file], {file: text.encode()}, "".join(line + "\n" for line in lines).encode())
