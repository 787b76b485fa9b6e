"""The demo of a number, made from its rules alone: the text of a model, and a script for it."""

COLUMNS = [(1, 2, 3), (1, 3, 2), (2, 1, 3), (2, 3, 1), (3, 1, 2), (3, 2, 1)]
SCRIPT = """rt demo1.ppm -z -1105 1105 1500 10 222 222 all
rtcheck -z -1105 1105 1500 10 222 222 all
cattr r555 rgb 255 0 0
rt demo2.ppm -z -1105 1105 1500 10 222 222 all
nirt -2000 -900 -900 +x all
"""


class Draws:
    """Numbers that each come from the one before."""

    def __init__(self, number):
        self.number = number

    def below(self, bound):
        self.number = (self.number * 1103515245 + 12345) % 2**31
        return self.number // 65536 % bound


def box(low, high):
    """The vertices of a box that goes from a coordinate to another along each axis."""
    ends = [(low, low), (high, low), (high, high), (low, high)]
    return [(x, y, z) for x in (low, high) for y, z in ends]


def vector(numbers):
    return "{" + " ".join(str(number) for number in numbers) + "}"


def matrix(turn, shift):
    """The numbers of a turn and a shift, nothing where they move nothing."""
    columns, signs = COLUMNS[turn // 8], turn % 8
    if turn == 0 and not any(shift):
        return ""
    rows = [[0, 0, 0, shift[row]] for row in range(3)] + [[0, 0, 0, 1]]
    for row in range(3):
        rows[row][columns[row] - 1] = -1 if signs >> row & 1 else 1
    return " " + vector(number for row in rows for number in row)


def model(number):
    """The lines of the model."""
    draws = Draws(number)
    yield f"title {{Demo {number}}}"
    yield "units mm"
    yield "put cut arb8 " + " ".join(f"V{place} {vector(vertex)}" for place, vertex in enumerate(box(0, 80), 1))
    for i in range(1000):
        centre = [200 * int(digit) - 900 for digit in f"{i:03}"]
        radius, turn = 20 + draws.below(60), draws.below(48)
        colour = [draws.below(256) for _ in "rgb"]
        yield f"put s{i} sph V {vector(centre)} r {radius}"
        tree = f"- {{l s{i}}} {{l cut{matrix(turn, centre)}}}"
        yield f"put r{i} comb region yes id {1000 + i} air 0 los 100 mater 1 rgb {vector(colour)} inherit no tree {{{tree}}}"
    tree = "l r0"
    for i in range(1, 1000):
        tree = f"u {{{tree}}} {{l r{i}}}"
    yield f"put all comb region no id 0 air 0 los 0 mater 0 inherit no tree {{{tree}}}"


def text(number):
    return "".join(line + "\n" for line in model(number))
