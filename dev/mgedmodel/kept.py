"""What names a tile of a picture, and the tiles that a session keeps."""

from collections import OrderedDict, namedtuple

from .shots import NOWHERE
from .trees import fold, leaves_of

MOST_KEPT = 4_096
MOST_SIZE = 128  # of the regions of a tile that is kept, together

TileName = namedtuple("TileName", "view number bodies")
# What a region is, wherever it stands. The tree has its nodes after what they join, as a list.
Body = namedtuple("Body", "id air colour tree solids")


class KeptTiles:
    """The names of the tiles that a session keeps, the last used last."""

    def __init__(self):
        self.names = OrderedDict()

    def found(self, names):
        """Those of the names of a picture's tiles that are kept. None stands for a tile that is not looked up."""
        return [name for name in names if name is not None and name in self.names]

    def take(self, names):
        """Keeps the tiles of a picture: those that are kept become the last used, and then come the others, for each of which
        the one used longest ago falls out where there are too many."""
        found = [(name, name in self.names) for name in names if name is not None]
        for name, is_kept in found:
            if is_kept:
                self.names.move_to_end(name)
        for name, is_kept in found:
            if not is_kept:
                self.put(name)

    def put(self, name):
        self.names[name] = True
        if len(self.names) > MOST_KEPT:
            self.names.popitem(last=False)

    def let_go(self):
        self.names.clear()


def tile_names(view, regions):
    """The name of each tile of a view, or None for one whose regions are too great to be kept."""
    boxes, sizes, bodies = [box_of(region.tree) for region in regions], [len(leaves_of(region.tree)) for region in regions], {}

    def body(place):
        if place not in bodies:
            bodies[place] = body_of(regions[place])
        return bodies[place]

    names = []
    for number, tile in enumerate(view.tile_boxes()):
        places = [place for place, box in enumerate(boxes) if box and box.common(tile)]
        is_small = sum(sizes[place] for place in places) <= MOST_SIZE
        names.append(TileName(view, number, tuple(map(body, places))) if is_small else None)
    return names


def box_of(tree):
    """The box of a tree, or None where it has none."""
    return fold(tree, lambda leaf: None if leaf == NOWHERE else leaf.name.box(leaf.placement), box_of_node)


def box_of_node(op, left, right):
    if op == "-" or right is None:
        return left if op != "+" else None
    if left is None:
        return right if op in ("u", "^") else None
    return left.with_all_of(right) if op in ("u", "^") else left.common(right)


def body_of(region):
    solids = [leaf for leaf in leaves_of(region.tree) if leaf != NOWHERE]
    marks = fold(region.tree, lambda leaf: ("nowhere" if leaf == NOWHERE else "solid",), lambda op, left, right: left + right + (op,))
    return Body(region.id, region.air, region.colour, marks, tuple(leaf.name.surface(leaf.placement) for leaf in solids))
