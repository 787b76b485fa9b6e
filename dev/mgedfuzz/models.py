"""Random texts of whole models: mostly well formed, with line feeds in groups, comments and blank lines, and some cut off."""

from . import texts
from .commands import Maker
from .mutating import BLANK_LINES, mutated

FEEDS = ("\n", "\n\t", "\r\n")
COMMENTS = ("# {", "#}", " \t# \" \\ ;", "##", "#")
OTHER_LINES = ("units mm", "{units} { mm }", "units in", "units mm mm", "title", "put", "put s", "attr", "attr set", "attr set s", "in s sph 0 0 0 5", "ls", "}", "{", "{\n}", "{\nunits\n} mm")


def model(rng):
    """The bytes of a text."""
    maker = Maker(rng)
    maker.is_strict = rng.random() < 0.7
    lines = rng.choice((objects, objects, objects, chain, great))(maker)
    if rng.random() < 0.5:
        lines = [texts.dressed(rng, line, FEEDS) if rng.random() < 0.6 else line for line in lines]
    for _ in range(rng.choice((0, 0, 1, 2))):
        lines.insert(rng.randint(0, len(lines)), rng.choice(COMMENTS + BLANK_LINES + ("units mm",)))
    if rng.random() < 0.1:
        lines.insert(rng.randint(0, len(lines)), rng.choice(OTHER_LINES))
    text = mutated(rng, lines, OTHER_LINES) if rng.random() < 0.4 else "\n".join(lines).encode() + rng.choice((b"\n", b""))
    if rng.random() < 0.1:
        text = text.replace(b"\n", b"\r\n")
    return text[: rng.randint(0, len(text))] if rng.random() < 0.1 else text


def objects(maker):
    lines = ["title {Cup}", "units mm"][: maker.rng.choice((0, 1, 2, 2))]
    for _ in range(maker.rng.randint(1, 12)):
        lines.append(maker.pick((6, maker.put), (1, maker.text)))
    return lines


def chain(maker):
    """Combinations one in the other, about as deep as they may be, in any order, and some that close a cycle."""
    rng, count = maker.rng, maker.rng.choice((3, 14, 15, 16, 16, 17))
    lines = [f"put c{i} comb tree {{u {{l c{i + 1}}} {{l {rng.choice((f'c{min(i + 2, count)}', 's', 'x'))}}}}}" for i in range(1, count)]
    lines.append(rng.choice((f"put c{count} comb id 0", f"put c{count} comb tree {{l s}}", f"put c{count} sph V {{0 0 0}} r 1")))
    if rng.random() < 0.3:
        lines.append(f"put {rng.choice(('s', 'x', 'd'))} comb tree {{l c{rng.randint(1, count)}}}")
    rng.choice((lambda: None, lines.reverse, lambda: rng.shuffle(lines)))()
    return lines


def great(maker):
    """A tree about as great as one may be, with other objects."""
    return [maker.put(), f"put a comb tree {texts.great_tree(maker.rng, ('s', 'x', '{s}', 's/', 's {1 0 0 7 0 1 0 0 0 0 1 0 0 0 0 1}'))}", maker.put()]
