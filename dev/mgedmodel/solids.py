"""Planes, placements, boxes, solids, and the part of a ray in a solid. A solid tells its box as it is placed, its surface, by
which two placed solids are equal, and its faces, all of which hold the points inside. All lengths count tenths of a millimetre."""

from collections import namedtuple
from fractions import Fraction
from math import inf

from .positions import Position, sign_of
from .refused import Refused
from .words import MILLIMETRE, length_text

RAY_LENGTH = 1_048_576 * MILLIMETRE
FARTHEST = 16_384 * MILLIMETRE  # of a solid's lengths, and of a shift
MOST_OF_A_NORMAL = 16_384  # a plain number
DIRECTIONS = {"+x": (1, 0, 0), "-x": (-1, 0, 0), "+y": (0, 1, 0), "-y": (0, -1, 0), "+z": (0, 0, 1), "-z": (0, 0, -1)}
FACES = ((1, 2, 3, 4), (5, 6, 7, 8), (1, 2, 6, 5), (2, 3, 7, 6), (3, 4, 8, 7), (4, 1, 5, 8))

BRIGHTEST = 255

Part = namedtuple("Part", "start end start_face end_face")  # what a solid has of a ray; the face is 0 at an end of the ray


def dot(a, b):
    return sum(x * y for x, y in zip(a, b))


def less(a, b):
    return tuple(x - y for x, y in zip(a, b))


def plus(a, b):
    return tuple(x + y for x, y in zip(a, b))


def cross(a, b):
    return (a[1] * b[2] - a[2] * b[1], a[2] * b[0] - a[0] * b[2], a[0] * b[1] - a[1] * b[0])


class Ray(namedtuple("Ray", "start along")):
    """A ray, which is RAY_LENGTH steps along a whole vector long."""

    def point(self, steps):
        return tuple(part + steps * step for part, step in zip(self.start, self.along))


class Plane(namedtuple("Plane", "normal d")):
    """It holds the points p with normal * p at most d. Of the rays that lie in it, it holds some."""

    def holds_rays(self):
        return next(part for part in self.normal if part != 0) < 0

    def met(self, ray):
        """The places at which the line of a ray crosses it."""
        slope = dot(self.normal, ray.along)
        return [Position(Fraction(self.d - dot(self.normal, ray.start), slope))] if slope else []

    def holds(self, ray, point):
        """Whether it holds a point of a ray."""
        room = self.d - dot(self.normal, point)
        return room > 0 or room == 0 and (dot(self.normal, ray.along) != 0 or self.holds_rays())


class Round(namedtuple("Round", "centre radius axis", defaults=[None])):
    """What is round about a centre, or about the line through it along an axis, whose part of vectors then does not count. It
    holds the points that are as far away as the radius, but no ray along the axis there."""

    def across(self, vector):
        return tuple(part for axis, part in enumerate(vector) if axis != self.axis)

    def met(self, ray):
        """The places at which the line of a ray crosses it, or touches it."""
        along, away = self.across(ray.along), self.across(less(ray.start, self.centre))
        return roots(dot(along, along), dot(along, away), dot(away, away) - self.radius**2) if any(along) else []

    def holds(self, ray, point):
        away = self.across(less(point, self.centre))
        room = self.radius**2 - dot(away, away)
        return room > 0 or room == 0 and any(self.across(ray.along))


def roots(a, b, c):
    """Where a x**2 + 2 b x + c is 0, with a over 0."""
    k = b * b - a * c
    return [Position(Fraction(-b, a), sign, Fraction(k, a * a)) for sign in (-1, 1)] if k >= 0 else []


class Placement(namedtuple("Placement", "rows shift")):
    """A turn of the axes, as the rows of a matrix, and then a shift."""

    def turned(self, vector):
        return tuple(dot(row, vector) for row in self.rows)

    def placed(self, point):
        return plus(self.turned(point), self.shift)

    def after(self, lower):
        """The placement that does what the lower one does and then what this one does."""
        columns = list(zip(*lower.rows))
        return Placement(tuple(tuple(dot(row, column) for column in columns) for row in self.rows), self.placed(lower.shift))


class Box(namedtuple("Box", "low high")):
    """A box along the axes, from one point to another; its sides belong to it."""

    def with_all_of(self, other):
        """The least box that has both."""
        return Box(tuple(map(min, self.low, other.low)), tuple(map(max, self.high, other.high)))

    def common(self, other):
        """What both have in common, or None."""
        box = Box(tuple(map(max, self.low, other.low)), tuple(map(min, self.high, other.high)))
        return box if all(low <= high for low, high in zip(*box)) else None


def box_about(points):
    return Box(*(tuple(map(end, zip(*points))) for end in (min, max)))


EVERYWHERE = Box((-inf,) * 3, (inf,) * 3)
IDENTITY = Placement(((1, 0, 0), (0, 1, 0), (0, 0, 1)), (0, 0, 0))


def placement_of(numbers):
    """The placement of sixteen numbers, row by row, or None where they are none or shift too far."""
    rows = [tuple(numbers[first : first + 4]) for first in (0, 4, 8, 12)]
    turn, shift = tuple(row[:3] for row in rows[:3]), tuple(row[3] for row in rows[:3])
    lines = list(turn) + list(zip(*turn))
    is_turn = all(sorted(map(abs, line)) == [0, 0, 1] for line in lines)
    is_near = all(abs(part) <= FARTHEST for part in shift)
    return Placement(turn, shift) if is_turn and is_near and rows[3] == (0, 0, 0, 1) else None


def group(numbers, text=str):
    return "{%s}" % " ".join(map(text, numbers))


def lengths(numbers):
    return group(numbers, length_text)


def part_between(entered, left):
    """The part from the last place where a face is entered to the first where one is left, or None. Both are pairs of a place
    and a face; of the faces at one place the lowest counts."""
    start = max([Position(0), *(place for place, _ in entered)])
    end = min([Position(RAY_LENGTH), *(place for place, _ in left)])
    face_at = lambda end, crossed: min((face for place, face in crossed if place == end), default=0)
    return Part(start, end, face_at(start, entered), face_at(end, left)) if start < end else None


def crossings_of_planes(planes, ray):
    """Where a ray enters and where it leaves the planes, which stand by the numbers of their faces; None where one misses it."""
    entered, left = [], []
    for face, plane in planes.items():
        slope, room = dot(plane.normal, ray.along), plane.d - dot(plane.normal, ray.start)
        if slope != 0:
            (left if slope > 0 else entered).append((Position(Fraction(room, slope)), face))
        elif room < 0 or room == 0 and not plane.holds_rays():
            return None
    return entered, left


def part_in_planes(planes, ray):
    """The part of a ray that all planes hold, which stand by the numbers of their faces, or None."""
    crossed = crossings_of_planes(planes, ray)
    return part_between(*crossed) if crossed else None


def brightness(square):
    """The level of a face, from the square of the cosine between the ray and the face's normal."""
    return 55 + 200 * square.numerator // square.denominator


def level_of_plane(plane, ray):
    return brightness(Fraction(dot(plane.normal, ray.along) ** 2, dot(plane.normal, plane.normal)))


class Half:
    def __init__(self, normal, d):
        if not any(normal):
            raise Refused("shape normal")
        self.plane = Plane(normal, d)

    def written(self):
        return f"half N {group(self.plane.normal)} d {length_text(self.plane.d)}"

    def planes(self, placement):
        normal = placement.turned(self.plane.normal)
        return {1: Plane(normal, self.plane.d + dot(normal, placement.shift))}

    def box(self, placement):
        return EVERYWHERE

    def surface(self, placement):
        return "half", self.planes(placement)[1]

    def faces(self, placement):
        return list(self.planes(placement).values())

    def part(self, placement, ray):
        return part_in_planes(self.planes(placement), ray)

    def level(self, placement, face, ray):
        return level_of_plane(self.planes(placement)[face], ray) if face else BRIGHTEST


class Sphere:
    def __init__(self, centre, radius):
        if radius < 1:
            raise Refused("shape radius")
        self.centre, self.radius = centre, radius

    def written(self):
        return f"sph V {lengths(self.centre)} r {length_text(self.radius)}"

    def box(self, placement):
        centre = placement.placed(self.centre)
        return box_about([tuple(part + reach for part in centre) for reach in (-self.radius, self.radius)])

    def surface(self, placement):
        return "sph", placement.placed(self.centre), self.radius

    def faces(self, placement):
        return [Round(placement.placed(self.centre), self.radius)]

    def crossed(self, placement, ray):
        """Where the ray is nearest to the centre, and the square of half of what it has of the sphere, over 0 where it has any."""
        to_centre = less(placement.placed(self.centre), ray.start)
        nearest = dot(to_centre, ray.along)
        return nearest, self.radius**2 - (dot(to_centre, to_centre) - nearest**2)

    def part(self, placement, ray):
        nearest, k = self.crossed(placement, ray)
        return part_between([(Position(nearest, -1, k), 1)], [(Position(nearest, 1, k), 1)]) if k > 0 else None

    def level(self, placement, face, ray):
        return brightness(Fraction(self.crossed(placement, ray)[1], self.radius**2)) if face else BRIGHTEST


class Cylinder:
    """A cylinder along an axis. Its faces are the base, the top and the round side."""

    BASE, TOP, SIDE = 1, 2, 3

    def __init__(self, base, height, radius):
        if sum(part != 0 for part in height) != 1:
            raise Refused("shape axis")
        if radius < 1:
            raise Refused("shape radius")
        self.base, self.height, self.radius = base, height, radius

    def written(self):
        return f"rcc V {lengths(self.base)} H {lengths(self.height)} r {length_text(self.radius)}"

    def ends(self, placement):
        """The centres of the base and of the top."""
        return [placement.placed(centre) for centre in (self.base, plus(self.base, self.height))]

    def caps(self, placement):
        """The planes of the base and of the top, with normals of length 1 away from each other."""
        base, top = self.ends(placement)
        up = tuple(map(sign_of, less(top, base)))
        down = tuple(-part for part in up)
        return {self.BASE: Plane(down, dot(down, base)), self.TOP: Plane(up, dot(up, top))}

    def box(self, placement):
        """A disc of the radius about each end has no extent along the axis."""
        ends = self.ends(placement)
        reach = tuple(0 if part else self.radius for part in less(*ends))
        return box_about([side(end, reach) for end in ends for side in (less, plus)])

    def surface(self, placement):
        caps = self.caps(placement)
        return "rcc", caps[self.BASE], caps[self.TOP], placement.placed(self.base), self.radius

    def faces(self, placement):
        base, top = self.ends(placement)
        axis = next(axis for axis, part in enumerate(less(top, base)) if part)
        return [*self.caps(placement).values(), Round(base, self.radius, axis)]

    def crossed(self, placement, ray):
        """Where a ray across the axis is nearest to it, None for one along it; and the square of the radius less that of the
        distance of the axis from the ray's line, which is whole as all lines run along axes."""
        base, top = self.ends(placement)
        to_base, between = less(base, ray.start), cross(less(top, base), ray.along)
        if any(between):
            return dot(to_base, ray.along), self.radius**2 - dot(to_base, between) ** 2 // dot(between, between)
        away = cross(to_base, ray.along)
        return None, self.radius**2 - dot(away, away)

    def part(self, placement, ray):
        crossed = crossings_of_planes(self.caps(placement), ray)
        nearest, k = self.crossed(placement, ray)
        if crossed is None or k <= 0:
            return None
        entered, left = crossed
        if nearest is not None:
            entered.append((Position(nearest, -1, k), self.SIDE))
            left.append((Position(nearest, 1, k), self.SIDE))
        return part_between(entered, left)

    def level(self, placement, face, ray):
        if face == self.SIDE:
            return brightness(Fraction(self.crossed(placement, ray)[1], self.radius**2))
        return level_of_plane(self.caps(placement)[face], ray) if face else BRIGHTEST


class Arb8:
    def __init__(self, vertices):
        self.vertices = vertices
        if all_in_one_plane(vertices):
            raise Refused("shape flat")
        for face in range(6):
            plane = plane_of(vertices, face)
            if plane is None:
                continue
            if any(dot(plane.normal, vertex) != plane.d for vertex in corners_of(vertices, face)):
                raise Refused(f"shape planar {face + 1}")
            if any(dot(plane.normal, vertex) > plane.d for vertex in vertices):
                raise Refused(f"shape convex {face + 1}")

    def written(self):
        return "arb8 " + " ".join(f"V{number} {lengths(vertex)}" for number, vertex in enumerate(self.vertices, 1))

    def planes(self, placement):
        """Of the faces 1 to 6, those that have a plane, and of 7 to 12, the sides of the box of the vertices."""
        vertices = [placement.placed(vertex) for vertex in self.vertices]
        sides = [plane_of(vertices, face) for face in range(6)] + box_sides(vertices)
        return {face: plane for face, plane in enumerate(sides, 1) if plane}

    def box(self, placement):
        return box_about([placement.placed(vertex) for vertex in self.vertices])

    def surface(self, placement):
        """All faces count, and None stands for one that has no plane."""
        planes = self.planes(placement)
        return "arb8", tuple(planes.get(face) for face in range(1, 13))

    def faces(self, placement):
        return list(self.planes(placement).values())

    def part(self, placement, ray):
        return part_in_planes(self.planes(placement), ray)

    def level(self, placement, face, ray):
        return level_of_plane(self.planes(placement)[face], ray) if face else BRIGHTEST


def box_of(numbers):
    """The solid of eight vertices that a box of six numbers is kept as, in the order in which these are given."""
    x_min, x_max, y_min, y_max, z_min, z_max = numbers
    around = ((y_min, z_min), (y_max, z_min), (y_max, z_max), (y_min, z_max))
    return Arb8([(x, y, z) for x in (x_min, x_max) for y, z in around])


def all_in_one_plane(points):
    sides = [less(point, points[0]) for point in points]
    return not any(dot(cross(a, b), c) for a in sides for b in sides for c in sides)


def corners_of(vertices, face):
    return [vertices[number - 1] for number in FACES[face]]


def plane_of(vertices, face):
    """The plane of a face with its normal away from the other vertices, or None where its corners lie on one line."""
    a, b, c, d = corners_of(vertices, face)
    for p, q, r in ((a, b, c), (a, b, d), (a, c, d), (b, c, d)):
        normal = cross(less(q, p), less(r, p))
        if any(normal):
            plane = Plane(normal, dot(normal, p))
            beyond = any(dot(normal, vertex) > plane.d for vertex in vertices)
            before = any(dot(normal, vertex) < plane.d for vertex in vertices)
            return plane if before or not beyond else Plane(tuple(-part for part in normal), -plane.d)
    return None


def box_sides(vertices):
    sides = []
    for axis in range(3):
        unit = tuple(int(axis == other) for other in range(3))
        along = [vertex[axis] for vertex in vertices]
        sides += [Plane(unit, max(along)), Plane(tuple(-part for part in unit), -min(along))]
    return sides
