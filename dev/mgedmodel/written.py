"""The written text of objects and of a whole directory. Bytes that no name has stand as the characters of their numbers."""

from .directory import Comb
from .solids import IDENTITY, group
from .trees import fold
from .words import length_text

SPELLED = {"u": "u", "+": "n", "-": "-", "^": "^"}


def text_of(directory):
    """The bytes of a whole directory."""
    lines = [f"title {{{directory.title.decode('latin-1')}}}", "units mm"]
    for name in directory.objects:
        lines += lines_of(directory, name)
    return "".join(line + "\n" for line in lines).encode("latin-1")


def lines_of(directory, name):
    """The lines of an object that is there: its `put`, and its `attr set` where it keeps attributes."""
    thing, kept = directory.objects[name], directory.kept.get(name)
    lines = [f"put {name} " + (comb_text(thing) if isinstance(thing, Comb) else thing.written())]
    if kept:
        lines.append(f"attr set {name} " + " ".join(f"{key} {{{value.decode('latin-1')}}}" for key, value in kept.items()))
    return lines


def written_lines_of(directory, names):
    """The lines of these names, one after the other. Each name is written once, however often it is given."""
    directory.refuse_missing(names)
    known = {name: lines_of(directory, name) for name in set(names)}
    return [line for name in names for line in known[name]]


def comb_text(comb):
    words = [f"{key} {value_text(value)}" for key, value in comb.attributes.items() if value is not None]
    return " ".join(["comb", *words] + ([f"tree {{{tree_text(comb.tree)}}}"] if comb.tree else []))


def value_text(value):
    if isinstance(value, bool):
        return "yes" if value else "no"
    return group(value) if isinstance(value, tuple) else str(value)


def tree_text(tree):
    return fold(tree, leaf_text, lambda op, left, right: f"{SPELLED[op]} {{{left}}} {{{right}}}")


def leaf_text(leaf):
    if leaf.placement == IDENTITY:
        return f"l {leaf.name}"
    rows = zip(leaf.placement.rows, leaf.placement.shift)
    return f"l {leaf.name} " + group([entry for row, part in rows for entry in (*row, length_text(part))] + [0, 0, 0, 1])
