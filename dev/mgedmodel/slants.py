"""Rays in lattice directions, told point by point. Nothing is clipped or woven here: between two neighbouring places at which
a ray meets the faces of a solid one point tells whether the solid has what lies between them."""

from .positions import Position, fraction_between
from .shots import NOWHERE, joined, regions_of_names, runs
from .solids import RAY_LENGTH
from .trees import fold, leaves_of

BEGUN, ENDED = Position(0), Position(RAY_LENGTH)


def slant_shot(directory, ray, names):
    """The lines of the partitions of a ray along a whole vector, whose places count steps of it."""
    regions = regions_of_names(directory, names)
    return [f"{place} {regions[place - 1].path} {start} {end}" for place, start, end in runs(regions, Points(regions, ray))]


class Points:
    """Places of a ray in their order, and which intervals between them each region claims. A set of intervals is a whole number:
    its bit i says whether it has the interval from place i to place i + 1."""

    def __init__(self, regions, ray):
        leaves = dict.fromkeys(leaf for region in regions for leaf in leaves_of(region.tree) if leaf != NOWHERE)
        parts = {leaf: parts_inside(leaf.name.faces(leaf.placement), ray) for leaf in leaves}
        self.cuts = sorted({BEGUN, ENDED}.union(*(part for found in parts.values() for part in found)))
        number = {cut: i for i, cut in enumerate(self.cuts)}
        inside = {leaf: sum((1 << number[end]) - (1 << number[start]) for start, end in found) for leaf, found in parts.items()}
        self.claims = [fold(region.tree, lambda leaf: inside.get(leaf, 0), joined) for region in regions]


def parts_inside(faces, ray):
    """The parts of a ray that all faces hold, from one place at which it meets a face, begins or ends to the next."""
    places = sorted({BEGUN, ENDED, *(place for face in faces for place in face.met(ray) if BEGUN < place < ENDED)})
    return [part for part in zip(places, places[1:]) if is_inside(faces, ray, ray.point(fraction_between(*part)))]


def is_inside(faces, ray, point):
    return all(face.holds(ray, point) for face in faces)
