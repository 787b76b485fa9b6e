"""The regions of names, the partitions of a ray, and what a ray meets first."""

from collections import namedtuple

from .directory import Comb
from .positions import Position
from .refused import Refused
from .solids import IDENTITY, RAY_LENGTH
from .trees import Leaf, Node, fold, leaves_of, united

MOST_INSTANCES = 65_536
MOST_PRINTED = 4_294_967_295

# The leaves of a region's tree have solids in place of names; NOWHERE stands for what holds nowhere.
Region = namedtuple("Region", "path id air colour tree")
NOWHERE = Leaf(None, None)
WHITE = (255, 255, 255)


def shot(directory, ray, names):
    """The lines of the partitions of a ray."""
    regions = regions_of_names(directory, names)
    return [f"{place} {regions[place - 1].path} {start} {end}" for place, start, end in partitions(regions, ray)]


def regions_of_names(directory, names):
    directory.refuse_missing(names)
    size = sum(sizes_of(directory, names))
    if size > MOST_INSTANCES:
        raise Refused(f"instances {min(size, MOST_PRINTED)}")
    return [region for name in names for region in regions_of(directory, name, "", IDENTITY, ())]


def sizes_of(directory, names):
    """The number of solids that each name comes to, what is missing and what is empty counting one."""
    known = {}

    def size(name):
        if name not in known:
            thing = directory.objects.get(name)
            tree = thing.tree if isinstance(thing, Comb) else None
            known[name] = sum(size(leaf.name) for leaf in leaves_of(tree)) if tree else 1
        return known[name]

    return map(size, names)


def regions_of(directory, name, above, placement, combs):
    """The regions that a name comes to, in order. `above` is the path of what it is a member of, and `combs` has the
    attributes of the combinations on it, the topmost first."""
    thing, path = directory.objects.get(name), f"{above}/{name}"
    if thing is None or isinstance(thing, Comb) and thing.tree is None:
        return []
    if not isinstance(thing, Comb):
        return [Region(path, 0, 0, colour_by(combs), Leaf(thing, placement))]
    combs += (thing.attributes,)
    if thing.is_region:
        return [Region(path, thing.attributes["id"], thing.attributes["air"], colour_by(combs), expanded(directory, thing.tree, placement))]
    found, nodes = [], 0
    for part in united(thing.tree):
        if isinstance(part, Leaf):
            found += regions_of(directory, part.name, path, placement.after(part.placement), combs)
        else:
            nodes += 1
            found.append(Region(f"{path}#{nodes}", 0, 0, colour_by(combs), expanded(directory, part, placement)))
    return found


def colour_by(combs):
    """The colour of the topmost combination that has one and lets it be inherited, else of the last that has one."""
    coloured = [comb for comb in combs if comb["rgb"]]
    inherited = [comb for comb in coloured if comb["inherit"]]
    return (inherited or coloured[::-1] or [{"rgb": WHITE}])[0]["rgb"]


def expanded(directory, tree, placement):
    """The tree with each member that is a combination in its place, down to placed solids."""

    def of_leaf(leaf):
        thing, placed = directory.objects.get(leaf.name), placement.after(leaf.placement)
        if isinstance(thing, Comb):
            return expanded(directory, thing.tree, placed) if thing.tree else NOWHERE
        return Leaf(thing, placed) if thing else NOWHERE

    return fold(tree, of_leaf, Node)


class Cuts:
    """The cuts of a ray, and which intervals between them each region claims. A set of intervals is a whole number: its bit
    i says whether it has the interval from cut i to cut i + 1."""

    def __init__(self, regions, ray):
        self.parts = {}
        for region in regions:
            for leaf in leaves_of(region.tree):
                if leaf != NOWHERE and leaf not in self.parts:
                    self.parts[leaf] = leaf.name.part(leaf.placement, ray)
        ends = {Position(0), Position(RAY_LENGTH)}.union(*(part[:2] for part in self.parts.values() if part))
        self.cuts = sorted(ends)
        self.number = {cut: i for i, cut in enumerate(self.cuts)}
        held = {leaf: self.intervals(part) for leaf, part in self.parts.items()}
        self.claims = [fold(region.tree, lambda leaf: held.get(leaf, 0), joined) for region in regions]

    def intervals(self, part):
        return (1 << self.number[part.end]) - (1 << self.number[part.start]) if part else 0

    def changes(self, place, i):
        """Whether a region's claim changes at cut i."""
        claim = self.claims[place - 1]
        return claim >> i & 1 != (i > 0 and claim >> (i - 1) & 1)


def partitions(regions, ray):
    """The place, start and end of each partition, in the order of the ray."""
    return runs(regions, Cuts(regions, ray))


def runs(regions, woven):
    cuts, claims, found = woven.cuts, woven.claims, []
    for i in range(len(cuts) - 1):
        claiming = [place for place in range(1, len(regions) + 1) if claims[place - 1] >> i & 1]
        if not claiming:
            continue
        winner = min(claiming, key=lambda place: (regions[place - 1].air != 0, place))
        if found and found[-1][0] == winner and found[-1][2] == cuts[i]:
            found[-1][2] = cuts[i + 1]
        else:
            found.append([winner, cuts[i], cuts[i + 1]])
    return found


def first_of(regions, woven):
    """The place of the region of the first partition that has no air, and where it starts; 0 and None where there is none."""
    return next(((place, start) for place, start, _ in runs(regions, woven) if regions[place - 1].air == 0), (0, None))


def presented(regions, ray):
    """The place of the region that a ray presents, or 0."""
    return first_of(regions, Cuts(regions, ray))[0]


def seen_first(regions, ray):
    """The first partition whose region has no air, as that region and the level of what is hit at its start; None where there
    is none."""
    woven = Cuts(regions, ray)
    place, start = first_of(regions, woven)
    return (regions[place - 1], level_at(regions, woven, ray, start)) if place else None


def level_at(regions, woven, ray, start):
    """The level of the first instance, in the order of the regions' leaves, that has an end there, of the regions whose
    claim changes there."""
    i = woven.number[start]
    for place, region in enumerate(regions, 1):
        for leaf in leaves_of(region.tree) if woven.changes(place, i) else []:
            part = woven.parts.get(leaf)
            if part and start in part[:2]:
                return leaf.name.level(leaf.placement, part.start_face if part.start == start else part.end_face, ray)
    raise AssertionError("no instance has an end where a partition starts")


def first_overlaps(regions, ray):
    """The first run of each pair of regions without air that overlaps, by their places."""
    woven, found = Cuts(regions, ray), {}
    solid = [place for place, region in enumerate(regions, 1) if region.air == 0 and woven.claims[place - 1]]
    for one in solid:
        for two in solid:
            both = woven.claims[one - 1] & woven.claims[two - 1]
            if one < two and both:
                start = (both & -both).bit_length() - 1
                length = (~(both >> start) & (both >> start) + 1).bit_length() - 1
                found[one, two] = woven.cuts[start], woven.cuts[start + length]
    return found


def joined(op, left, right):
    return {"u": left | right, "+": left & right, "-": left & ~right, "^": left ^ right}[op]
