"""The listings of trees: the members of a name, those of its members, and so on down."""

from .directory import Comb, mark_of
from .refused import Refused
from .trees import Node

MOST_USED = 67_108_864  # bytes that a session may use


def listings_of(directory, names):
    """The lines of the listings of these names. One that no session has room for is not made."""
    directory.refuse_missing(names)
    sizes, known = {}, {}
    if sum(len(title_of(directory, name)) + 1 + size_below(directory, name, 1, sizes) for name in names) > MOST_USED:
        raise Refused("quota")
    return [line for name in names for line in (title_of(directory, name), *lines_below(directory, name, 1, known))]


def title_of(directory, name):
    return name + mark_of(directory.objects.get(name))


def lines_below(directory, name, level, known):
    """The lines of the members of a name, each with those below it. `known` has what is known, by name and level."""
    if (name, level) not in known:
        known[name, level] = [
            line
            for op, member in members_of(directory, name)
            for line in (f"{'  ' * level}{op} {title_of(directory, member)}", *lines_below(directory, member, level + 1, known))
        ]
    return known[name, level]


def size_below(directory, name, level, known):
    """The number of bytes of these lines, with `known` as there."""
    if (name, level) not in known:
        known[name, level] = sum(
            2 * level + len(op) + 1 + len(title_of(directory, member)) + 1 + size_below(directory, member, level + 1, known)
            for op, member in members_of(directory, name)
        )
    return known[name, level]


def members_of(directory, name):
    """The leaves of a combination from left to right, each with its operator: that of the nearest node above it on whose
    right side it stands, and `u` where there is none."""
    thing, found = directory.objects.get(name), []
    todo = [("u", thing.tree)] if isinstance(thing, Comb) and thing.tree else []
    while todo:
        op, part = todo.pop()
        if isinstance(part, Node):
            todo += [(part.op, part.right), (op, part.left)]
        else:
            found.append((op, part.name))
    return found
