"""Random commands, mostly well formed. Numbers come from a small grid, so that faces touch, rays lie in faces and
regions overlap; names come from a small pool, so that edits meet."""

from itertools import product
from math import gcd

from mgedmodel.lines import MOST_OF_A_STEP
from mgedmodel.pictures import ACROSS_AND_DOWN
from mgedmodel.solids import DIRECTIONS as STEPS
from mgedmodel.words import length_text

from . import texts

SOLIDS = ("s", "t", "b1", "b2", "h", "w", "k", "p.s")
COMBS = ("c", "d", "e.r", "f", "g1", "m", "n-1", "_0")
MISSING = ("zz", "q", "lid")
DIRECTIONS = ("+x", "-x", "+y", "-y", "+z", "-z")
STEPPED = range(-MOST_OF_A_STEP, MOST_OF_A_STEP + 1)
LATTICE = [steps for steps in product(STEPPED, repeat=3) if gcd(*steps) == 1]
ODD_STEPS = ("0 0 0", "2 2 0", "-4 0 0", "0 -2 4", "4 4 4", "3 -3 0", "5 0 0", "1 -5 0", "1 1 5", "0.5 1 0", "1.5 1 1", "1 2.0 -0", "+1 {2} 3.", "04 1 -00", "1 1 x", "1 1", "1 1 0 0", "1000000000 1 1", "+x")
COUNTS = ("0", "1", "5", "7", "100", "101", "999999", "1000000", "-0", "-1", "+5", "5.0", "5.5", "{5}", "{ 5 }", "5 6", "{}")
TRUTHS = ("yes", "no", "1", "0", "{yes}", "{ no }", "{1}", "YES", "yes no", "2")
COLOURS = ("1 2 3", "1/2/3", "0 255 256", "{0 0 255}", "{ 1 2\t3 }", "1 / 2 / 3", "{1} 2 3", "1 {2 3}", "1 2", "1 2 3 4", "1/2 3", "+1 2.0 -0", "{1/2/3}", "{ 1/2/3 }")
DEEP = ("{" * 4_100 + "}" * 4_100, "{" * 4_101 + "}" * 4_101)
KEYS = {"region": TRUTHS, "inherit": TRUTHS, "id": COUNTS, "air": COUNTS, "los": COUNTS, "mater": COUNTS, "rgb": COLOURS}
PICTURES = ("p.ppm", "q.ppm", "p.ppm", "s")
SIZES = ((1, 1), (1, 1), (1, 4), (3, 1), (2, 2), (4, 3), (5, 5), (8, 6), (17, 2), (3, 18))
ODD_SIZES = ((0, 5), (5, 0), (2_049, 1), (1, 2_049), (2_049, 0), (-1, 3), (3, "2.0"), ("2.5", 2), (999_999_999, 1), (1_000_000_000, 1))
ODD_CELLS = (0, -1, 999_999_999, 1_000_000_000, 524_288, "1.0", "1.5", "0.0", "0.1", "0.25", "999999999.9")
FAR = (-16_384, -16_383, -16_382, -1, 0, 0, 1, 2, 5_461, 16_383, 16_384)


class Maker:
    """Makes commands. It keeps what the lines so far made, as far as it can tell: names, members, and points of
    solids, at which rays are aimed."""

    def __init__(self, rng):
        self.rng = rng
        self.scale = rng.choice((1, 1, 1, 2, 7, 1_000))
        self.is_far = rng.random() < 0.15  # numbers about as large as they may be
        self.is_fine = not self.is_far and rng.random() < 0.4  # numbers count tenths of a millimetre, and else millimetres
        self.is_strict = False  # with fewer faults
        self.there, self.members, self.points = [], {}, []

    def pick(self, *weighed):
        weights, makers = zip(*weighed)
        return self.rng.choices(makers, weights)[0]()

    def often(self, share):
        return self.rng.random() < share

    def errs(self, share):
        return not self.is_strict and self.often(share)

    def grid(self):
        return self.rng.choice(FAR) if self.is_far else self.rng.randint(-1, 5) * self.scale

    def point(self):
        return [self.grid() for _ in range(3)]

    def length(self, number):
        """A number as the text of a length."""
        return length_text(number) if self.is_fine and isinstance(number, int) else str(number)

    def lengths(self, numbers, plain=0):
        """Numbers as the texts of lengths, but for the first ones, which are plain."""
        return [str(number) if at < plain else self.length(number) for at, number in enumerate(numbers)]

    def name(self):
        if self.there and not self.errs(0.05):
            return self.rng.choice(self.there)
        return self.rng.choice(MISSING if self.is_strict else SOLIDS + COMBS + MISSING)

    def comb_name(self):
        return self.rng.choice(list(self.members)) if self.members and self.often(0.95) else self.name()

    def new_name(self, pool):
        free = [name for name in pool if name not in self.there]
        name = self.rng.choice(free if free and not self.errs(0.1) else pool)
        self.there += [] if name in self.there else [name]
        return name

    def names(self, most):
        return [self.name() for _ in range(self.rng.randint(1, most))]

    def member_of(self, comb):
        known = self.members.get(comb)
        return self.rng.choice(known) if known and self.often(0.9) else self.name()

    # Solids.

    def solids(self, count):
        return [self.solid() for _ in range(count)]

    def solid(self):
        kind, numbers = self.pick((4, self.box), (3, self.eight), (4, self.sphere), (4, self.cylinder), (2, self.half))
        return f"in {self.new_name(SOLIDS)} {kind} " + " ".join(self.lengths(numbers, 3 if kind == "half" else 0))

    def box(self):
        sides = [self.rng.choice(((0, 4), (-1, 2), (2, 5), (5, 2), (4, -1), (1, 1 + self.often(0.9)))) for _ in range(3)]
        sides = [[self.grid(), self.grid()] if self.is_far else [entry * self.scale for entry in side] for side in sides]
        self.points += [[side[0] for side in sides], [sum(side) // 2 for side in sides], [side[1] for side in sides]]
        return "rpp", [entry for side in sides for entry in side]

    def sphere(self):
        centre, radius = self.point(), self.rng.choice((1, 2, 3, 3, 4, 5, 7)) * self.scale
        radius = self.rng.choice((1, radius, 16_383, 16_384)) if self.is_far else radius
        self.points += [centre, [entry + radius // 2 for entry in centre], [centre[0], centre[1], centre[2] + radius]]
        return "sph", centre + [radius]

    def cylinder(self):
        """A cylinder along an axis, mostly. Its radius reaches what a height does, so that edges meet faces and places of others."""
        base, radius, along = self.point(), self.rng.choice((1, 2, 3, 3, 4, 5, 7)) * self.scale, self.rng.randrange(3)
        height = [0, 0, 0]
        height[along] = self.rng.choice((-5, -3, -1, 1, 2, 4, 6)) * self.scale
        if self.is_far:
            radius = self.rng.choice((1, radius, 16_383, 16_384))
            height[along] = self.rng.choice((-16_384, -1, 1, 16_384))
        if self.errs(0.06):
            height[self.rng.randrange(3)] = self.rng.choice((0, 0, 1, -2)) * self.scale
        radius = self.rng.choice((0, -1)) if self.errs(0.03) else radius
        top = [sum(entries) for entries in zip(base, height)]
        side, rim = [(entry or radius) for entry in height], list(base)
        rim[(along + 1) % 3] += radius
        self.points += [base, top, rim, [sum(entries) for entries in zip(base, side)], [entry + part // 2 for entry, part in zip(base, height)]]
        return "rcc", base + height + [radius]

    def half(self):
        if self.is_far:
            return "half", self.point() + [self.grid()]
        return "half", [self.rng.randint(-3, 3) for _ in range(3)] + [self.grid() * self.rng.randint(1, 3)]

    def eight(self):
        """Eight vertices: mostly of a block, of a wedge, of a pyramid or of a solid of four vertices."""
        corners = [self.point() for _ in range(4)]
        vertices = self.pick((2, lambda: self.folded(corners)), (8, lambda: self.block(*corners)))
        if self.is_far and not self.is_strict:
            at, a, b, c = corners
            vertices = [at, a, b, b, c, c, c, c]
        self.points += [vertices[0], vertices[6], [sum(entries) // 8 for entries in zip(*vertices)]]
        return "arb8", [entry for vertex in vertices for entry in vertex]

    def folded(self, corners):
        """Four points in any order, each as often as it comes: a solid that the planes of its faces alone may not bound."""
        return [self.rng.choice(corners) for _ in range(8)]

    def block(self, at, a, b, c):
        if self.often(0.5):
            a, b, c = ([(entry or 3) * (axis == along) for axis, entry in enumerate(side)] for along, side in enumerate((a, b, c)))
        plus = lambda *parts: [sum(entries) for entries in zip(*parts)]
        base, far = [at, plus(at, a), plus(at, a, b), plus(at, b)], plus(at, c)
        if self.often(0.2):
            base[2] = base[3]
        ridge = [far, far, plus(far, b), plus(far, b)] if base[2] != base[3] else [far] * 4
        vertices = base + self.rng.choice(([plus(vertex, c) for vertex in base], ridge, [far] * 4))
        if self.errs(0.05):
            self.rng.shuffle(vertices)
        if self.errs(0.05):
            at = self.rng.randrange(8)
            vertices[at] = plus(vertices[at], self.rng.choice(([1, 0, 0], [0, -1, 0], [0, 0, 1])))
        return vertices

    # Rays.

    def nirt(self):
        start = list(self.rng.choice(self.points)) if self.points and self.often(0.8) else self.point()
        if self.often(0.7):
            along = self.rng.randrange(3)
            start[along] = self.rng.choice((-524_288, 524_288, -99_999) if self.is_far else (-9 * self.scale, 9 * self.scale))
            way = ("+" if start[along] < 0 else "-") + "xyz"[along]
        else:
            way = self.rng.choice(DIRECTIONS)
        if self.often(0.1):
            start[self.rng.randrange(3)] += self.rng.choice((-1, 1, 524_288, -524_289, 999_999_990))
        return f"nirt {' '.join(self.lengths(start))} {way} " + self.aims()

    def nirtd(self):
        """A ray in a lattice direction, mostly through a point of some solid."""
        start = list(self.rng.choice(self.points)) if self.points and self.often(0.8) else self.point()
        steps = self.rng.choice(LATTICE if self.often(0.85) else list(STEPS.values()))
        if self.often(0.7):
            back = self.rng.choice((99_999, 120_000) if self.is_far else (1, 3, 9)) * (1 if self.is_far else self.scale)
            start = [part - back * step for part, step in zip(start, steps)]
        is_odd = self.errs(0.1)
        if self.often(0.4 if is_odd else 0.1):
            start[self.rng.randrange(3)] += self.rng.choice((-1, 1, 524_288, -524_289, 999_999_990))
        text = self.rng.choice(ODD_STEPS) if is_odd else " ".join(map(str, steps))
        return f"nirtd {' '.join(self.lengths(start))} {text} " + self.aims()

    def along_axis(self):
        """A plain ray, or the same as one in a lattice direction."""
        head, x, y, z, way, *names = self.nirt().split(" ")
        steps = " ".join(map(str, STEPS[way]))
        return " ".join([head, x, y, z, way, *names] if self.often(0.3) else ["nirtd", x, y, z, steps, *names])

    def aims(self):
        return " ".join(self.comb_name() if self.often(0.4) else self.name() for _ in range(self.rng.choice((1, 1, 2, 3, 4))))

    # Views.

    def view(self):
        """The words of a view whose rays come near a point of some solid, mostly."""
        way, (width, height) = self.rng.choice(DIRECTIONS), self.rng.choice(SIZES)
        cell = self.rng.choice((1, 1, 2, 3, 5)) * (self.scale if self.often(0.7) else 1)
        centre = list(self.rng.choice(self.points)) if self.points and self.often(0.9) else self.point()
        across, down = ACROSS_AND_DOWN[STEPS[way]]
        back = self.rng.choice((524_288, 99_999) if self.is_far else (9 * self.scale, 9 * self.scale, 1, 0))
        corner = [
            part - cell * (width // 2 * u + height // 2 * v) - back * step for part, u, v, step in zip(centre, across, down, STEPS[way])
        ]
        if self.errs(0.06):
            width, height = self.rng.choice(ODD_SIZES)
        if self.errs(0.05):
            cell = self.rng.choice(ODD_CELLS)
        if self.errs(0.05):
            corner[self.rng.randrange(3)] += self.rng.choice((-1, 1, 524_288, -524_289, 999_999_990))
        return f"{way} {' '.join(self.lengths(corner + [cell]))} {width} {height}"

    def picture(self):
        return f"rt {self.rng.choice(PICTURES)} {self.view()} {self.aims()}"

    def check(self):
        return f"rtcheck {self.view()} {self.aims()}"

    def area(self):
        return f"rtarea {self.view()} {self.aims()}"

    def edges(self):
        return f"rtedge {self.rng.choice(PICTURES)} {self.view()} {self.aims()}"

    def shoot(self):
        return self.pick((6, self.nirt), (4, self.nirtd), (2, self.picture), (2, self.check), (1, self.area), (1, self.edges))

    # Texts and listings.

    def put(self):
        return texts.put(self, SOLIDS, COMBS)

    def text(self):
        return self.pick((5, self.put), (3, lambda: texts.keep(self)), (1, lambda: texts.title(self)))

    def listing(self):
        return self.rng.choice(("l", "l", "tree", "tree", "tree")) + " " + " ".join(self.names(3))

    # Combinations.

    def comb(self):
        members, ops = self.names(5), ["u"] * 5
        members = list(dict.fromkeys(members)) if self.often(0.7) else members
        name = self.new_name(COMBS) if self.often(0.8) else self.comb_name()
        if self.often(0.6):
            ops = self.rng.choices("uuu--+^", k=5)
        self.members.setdefault(name, []).extend(members)
        if set(ops) == {"u"}:
            return f"g {name} " + " ".join(members)
        return f"r {name} " + " ".join(f"{op} {member}" for op, member in zip(ops, members))

    def rm(self):
        name = self.comb_name()
        return f"rm {name} " + " ".join(self.member_of(name) for _ in range(self.rng.randint(1, 3)))

    def kill(self):
        names = self.names(2)
        self.there = [name for name in self.there if name not in names]
        return "kill " + " ".join(names)

    def mvall(self):
        old, new = self.name(), self.new_name(SOLIDS + COMBS + MISSING)
        self.there = [name for name in self.there if name != old]
        if old in self.members:
            self.members[new] = self.members.pop(old)
        return f"mvall {old} {new}"

    def matrix(self, step):
        columns, signs = self.rng.sample(range(3), 3), [self.rng.choice((1, 1, -1)) for _ in range(3)]
        if self.often(0.4):
            columns, signs = [0, 1, 2], [1, 1, 1]
        rows = [[sign * (axis == column) for axis in range(3)] + [step() if self.often(0.5) else 0] for column, sign in zip(columns, signs)]
        numbers = [entry for row in rows + [[0, 0, 0, 1]] for entry in row]
        if self.errs(0.05):
            numbers[self.rng.randrange(16)] += self.rng.choice((-1, 1))
        if self.errs(0.05):
            numbers[self.rng.choice((3, 7, 11))] = self.rng.choice((-16_385, -16_384, 16_384, 16_385, "-16384.1", "16384.1", "0.25"))
        text = " ".join(self.length(number) if at in (3, 7, 11) else str(number) for at, number in enumerate(numbers))
        return self.rng.choice((text, "{%s}" % text))

    def place(self):
        name = self.comb_name()
        return f"place {name} {self.member_of(name)} " + self.matrix(self.grid)

    def mark(self):
        return f"cattr {self.comb_name()} " + self.rng.choice(("region no", "region no", "region yes", "air 1", "air 0", "air 7"))

    def colour(self):
        return f"cattr {self.comb_name()} " + self.rng.choice(("rgb 255 0 0", "rgb 7/130/255", "rgb 1 2 3", "inherit yes", "inherit no"))

    def setting(self):
        key = self.rng.choice(list(KEYS))
        values = KEYS[key] if self.often(0.85) else DEEP if self.often(0.3) else COUNTS + TRUTHS + COLOURS
        return f"cattr {self.comb_name()} {key} {self.rng.choice(values)}"

    def edit(self):
        ways = (3, self.solid), (5, self.comb), (4, self.rm), (1, self.kill), (2, self.mvall), (2, self.place), (2, self.setting), (1, self.mark), (3, self.text)
        return self.pick(*ways)
