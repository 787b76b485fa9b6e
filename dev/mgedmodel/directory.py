"""The title, the named objects and what is kept with them, and their edits. An edit is made, or refused with everything as it was."""

from collections import namedtuple

from . import attributes
from .refused import Refused
from .trees import leaves_of, products_after, products_of, tree_of, with_leaves

MOST_LEAVES = 4_096
MOST_OBJECTS = 65_535
MOST_DEPTH = 16


class Comb(namedtuple("Comb", "attributes tree")):
    """A combination: its attributes, and its tree."""

    @property
    def is_region(self):
        return self.attributes["region"]


class Directory:
    """`objects` has the object of each name, in the order of the directory, and `kept` the attributes that are kept with
    some of them. `named` has every name that a tree has, and maybe others."""

    def __init__(self):
        self.title, self.objects, self.kept, self.named = b"", {}, {}, set()

    # Edits. The checks of each one stand in the order in which refusals are looked for.

    def make(self, name, thing):
        """`in` and `put`. A solid, and what no tree names and has no members, is in no cycle and makes nothing deeper."""
        if name in self.objects:
            raise Refused(f"exists {name}")
        self.refuse_full()
        if isinstance(thing, Comb) and (thing.tree or name in self.named):
            self.objects = self.sound(dict(self.objects, **{name: thing}), name)
        else:
            self.objects[name] = thing

    def extend(self, name, items, as_region):
        """`r`, which makes a region of what it extends, and `g`."""
        is_new = name not in self.objects
        old = Comb(attributes.OF_A_REGION if as_region else attributes.NONE, None) if is_new else self.comb(name)
        products = products_after(self.products(name, old), items)
        count = sum(map(len, products))
        if count > MOST_LEAVES:
            raise Refused(f"members {count}")
        if is_new:
            self.refuse_full()
        marked = dict(old.attributes, region=True) if as_region else old.attributes
        self.objects = self.sound(dict(self.objects, **{name: Comb(marked, tree_of(products))}), name)

    def remove(self, name, members):
        old = self.wanted_comb(name)
        products = self.products(name, old)
        self.refuse_absent(old, members)
        gone, left = set(members), []
        for product in products:
            kept = [(op, leaf) for op, leaf in product if leaf.name not in gone]
            head = product[0][1].name
            if kept and head in gone:
                raise Refused(f"heads {head}")
            left += [kept] if kept else []
        self.objects[name] = old._replace(tree=tree_of(left))

    def kill(self, names):
        self.refuse_missing(names)
        gone = set(names)
        self.objects = {name: thing for name, thing in self.objects.items() if name not in gone}
        self.kept = {name: pairs for name, pairs in self.kept.items() if name not in gone}

    def rename(self, old, new):
        if new in self.objects:
            raise Refused(f"exists {new}")
        self.refuse_missing([old])

        def renamed(thing):
            if not isinstance(thing, Comb):
                return thing
            return thing._replace(tree=with_leaves(thing.tree, lambda leaf: leaf._replace(name=new) if leaf.name == old else leaf))

        self.objects = self.sound({new if name == old else name: renamed(thing) for name, thing in self.objects.items()}, new)
        self.kept = {new if name == old else name: pairs for name, pairs in self.kept.items()}

    def place(self, name, member, placement):
        old = self.wanted_comb(name)
        self.refuse_absent(old, [member])
        placed = with_leaves(old.tree, lambda leaf: leaf._replace(placement=placement) if leaf.name == member else leaf)
        self.objects[name] = old._replace(tree=placed)

    def set_attribute(self, name, key, value):
        old = self.wanted_comb(name)
        self.objects[name] = old._replace(attributes=dict(old.attributes, **{key: value}))

    def keep(self, name, pairs):
        """`attr set`. A key that is kept stays at its place."""
        self.refuse_missing([name])
        self.kept.setdefault(name, {}).update(pairs)

    def set_title(self, text):
        self.title = text

    # Queries.

    def listing(self):
        return [name + mark_of(thing) for name, thing in self.objects.items()]

    # Checks.

    def refuse_full(self):
        if len(self.objects) == MOST_OBJECTS:
            raise Refused("full")

    def refuse_missing(self, names):
        for name in names:
            if name not in self.objects:
                raise Refused(f"missing {name}")

    def refuse_absent(self, comb, members):
        there = {leaf.name for leaf in leaves_of(comb.tree)}
        for member in members:
            if member not in there:
                raise Refused(f"absent {member}")

    def comb(self, name):
        if not isinstance(self.objects[name], Comb):
            raise Refused(f"not-comb {name}")
        return self.objects[name]

    def wanted_comb(self, name):
        self.refuse_missing([name])
        return self.comb(name)

    def products(self, name, comb):
        products = products_of(comb.tree)
        if products is None:
            raise Refused(f"not-list {name}")
        return products

    def sound(self, objects, edited):
        """These objects, where they have no cycle and are not too deep. A new cycle goes through the edited name."""
        members = {name: {leaf.name for leaf in leaves_of(thing.tree)} for name, thing in objects.items() if isinstance(thing, Comb)}
        if reaches_itself(members, edited):
            raise Refused(f"cycle {edited}")
        depth = greatest_depth(members)
        if depth > MOST_DEPTH:
            raise Refused(f"deep {depth}")
        self.named = set().union(*members.values())
        return objects


def mark_of(thing):
    """What stands after the name of an object, or of a name that has none."""
    if thing is None:
        return "?"
    return ("/R" if thing.is_region else "/") if isinstance(thing, Comb) else ""


def reaches_itself(members, name):
    seen, todo = set(), [name]
    while todo:
        for member in members.get(todo.pop(), ()):
            if member == name:
                return True
            if member not in seen:
                seen.add(member)
                todo.append(member)
    return False


def greatest_depth(members):
    depths = {}

    def depth(name):
        if name not in depths:
            depths[name] = 1 + max(map(depth, members[name]), default=0) if name in members else 0
        return depths[name]

    return max(map(depth, members), default=0)
