"""Random scripts of pictures that come again, with edits in between that change what tiles are kept by, or leave it as it is."""

# Small views of one place, most of several tiles, some of which differ in one number alone.
VIEWS = (
    "-z 0 2 20 1 40 2", "-z 0 2 20 1 40 2", "-z 0 2 20 1 40 2", "-z 0 2 21 1 40 2", "-z 0 2 20 2 40 2", "-z 0 3 20 1 40 2", "+z 40 2 -9 1 40 2", "-z 0 2 20 1 39 2", "-z 0 2 20 1 17 3",
    "+x -9 16 4 1 33 2", "-x 60 -16 4 1 33 2", "+y 0 -9 4 1 33 1", "-y 32 30 4 1 33 2", "-z 2 8 20 1 2 17", "-z 0 2 20 10 17 1", "-z 4 2 20 1 1 1", "-z 4 2 20 7 1 1", "+z 17 8 -9 1 18 17",
    "-z 0 2 20 0.5 40 2", "-z 0.5 2 20 1 40 2", "-z 0 2.0 20 1.0 40 2",
)  # fmt: skip
# Solids about there. Some touch a tile from outside, or lie between two; some are one set in other words.
SOLIDS = (
    "rpp 0 10 0 5 0 5", "rpp 10 0 0 5 0 5", "rpp 0 10 5 0 5 0", "rpp 20 30 0 5 0 5", "rpp 34 38 -5 5 0 5", "rpp 12 16 0 5 0 5", "rpp 12 15 0 5 0 5", "rpp 16 31 0 2 0 5", "rpp 5 35 -9 9 -1 4",
    "arb8 0 0 0 0 5 0 0 5 5 0 0 5 10 0 0 10 5 0 10 5 5 10 0 5", "sph 8 0 0 7", "sph 8 0 0 8", "sph 8 0 1 8", "sph 8 9 0 9", "sph 24 2 2 4", "sph 8 0 0 7.5", "rcc 8 0 0 0 0 5 7", "rcc 8 0 5 0 0 -5 7", "rcc 8 0 0 0 0 5 8", "rcc 0 2 2 16 0 0 2", "rcc 16 2 2 15 0 0 3", "rcc 8 9 0 0 0 5 9", "rpp 0 10 0 5 0 5.5", "half 1 0 0 20.1", "half 0 0 1 5", "half 0 0 2 10", "half 1 0 0 20", "half -1 -1 0 -30",
    "arb8 0 0 0 5 0 0 10 0 0 0 10 0 0 0 10 0 0 10 0 0 10 0 0 10", "arb8 0 0 0 2 0 0 10 0 0 0 10 0 0 0 10 0 0 10 0 0 10 0 0 10", "arb8 0 0 0 10 0 0 0 0 0 0 10 5 10 5 10 10 5 10 0 0 0 0 0 0",
    "arb8 0 0 0 10 0 0 0 0 0 0 10 5 10 5 10 10 5 10 10 5 10 0 0 0", "arb8 0 0 0 10 10 0 0 0 0 0 10 0 0 10 0 0 10 0 0 0 0 0 0 10", "arb8 0 0 0 10 0 0 0 10 0 0 0 0 0 10 0 0 10 0 0 0 0 0 0 10",
)  # fmt: skip
PLACEMENTS = (
    "1 0 0 0 0 1 0 0 0 0 1 0 0 0 0 1", "1 0 0 0 0 1 0 0 0 0 1 0 0 0 0 1", "1 0 0 5 0 1 0 0 0 0 1 0 0 0 0 1", "1 0 0 6 0 1 0 0 0 0 1 0 0 0 0 1", "1 0 0 5.5 0 1 0 -0.1 0 0 1 0 0 0 0 1", "1 0 0 20 0 1 0 0 0 0 1 0 0 0 0 1", "1 0 0 -5 0 1 0 0 0 0 1 0 0 0 0 1",
    "1 0 0 0 0 1 0 0 0 0 1 90 0 0 0 1", "0 -1 0 8 1 0 0 -8 0 0 1 0 0 0 0 1", "0 -1 0 10 1 0 0 0 0 0 1 0 0 0 0 1", "-1 0 0 10 0 1 0 0 0 0 1 0 0 0 0 1", "1 0 0 0 0 -1 0 5 0 0 1 0 0 0 0 1",
)  # fmt: skip
NAMES, COMBS, MISSING = ("a", "b", "s", "t"), ("a.r", "b.r", "c", "d"), ("x", "y")
ATTRIBUTES = (
    "rgb 255 0 0", "rgb 255 0 0", "rgb 255 255 255", "rgb 1/2/3", "inherit yes", "inherit no", "air 0", "air 0", "air 1", "air 2", "id 0", "id 1000", "id 7", "region yes", "region yes", "region no", "los 5", "mater 3",
)  # fmt: skip
TREES = ("{l %s}", "{u {l %s} {l %s}}", "{- {l %s} {l %s}}", "{n {l %s} {l %s}}", "{u {l %s} {u {l %s} {l %s}}}", "{u {u {l %s} {l %s}} {l %s}}", "{- {l %s} {+ {l %s} {l %s}}}", "{}")
COUNTS = (2, 63, 64, 65, 127, 128, 129)  # leaves, about as many as a tile may have that is kept
BLACK = ("-z 0 0 0 1 1168 896", "-z 0 0 0 1 2048 512", "-z 0 0 0 1 2048 528")  # of 4,088, of 4,096 and of 4,224 tiles


def pictures(maker):
    """Solids and regions, and then pictures, edits and other commands alternately."""
    rng = maker.rng
    lines = [f"in {name} {rng.choice(SOLIDS)}" for name in NAMES if rng.random() < 0.95]
    lines += [made(rng, name) for name in COMBS if rng.random() < 0.95]
    views, names = rng.sample(VIEWS, rng.choice((1, 1, 2, 3))), rng.sample(COMBS + COMBS[:2] + NAMES, rng.randint(1, 5))
    solids, combs = ([name for name in pool if name in names] or pool for pool in (NAMES, COMBS))
    for _ in range(rng.choice((6, 12, 25, 40))):
        way = rng.random()
        view = rng.choice(views)
        if way < 0.45:
            lines.append(f"rt {rng.choice('pq')} {view} {' '.join(rng.sample(names, len(names)) if rng.random() < 0.2 else names)}")
        elif way < 0.88:
            lines += edited(rng, solids, combs)
        elif way < 0.94:
            lines.append(f"{rng.choice(('rtcheck', 'rtarea', 'rtedge p', 'rtedge q'))} {view} {' '.join(names)}")
        else:
            lines.append(rng.choice((f"rt p {view} {names[0]} zz", f"rt p {view}", "rt p -z 0 2 20 0 40 2 a", "rt p -z 0 2 20 1 0 2 a", f"nirt 4 2 20 -z {names[0]}", "ls", "save m", "rt p/ -z 0 0 0 1 1 1 a", f"nirtd 4 2 20 0 1 -4 {names[0]}", f"rtarea {view} {names[0]} zz", f"rtedge p {view} zz", "rtedge p -z 0 2 20 1 40 0 a")))
    if rng.random() < 0.05:
        lines[0:0] = ["g e nothing"]
        for _ in range(rng.randint(1, 3)):
            lines.insert(rng.randint(1, len(lines)), f"rt w {rng.choice(BLACK)} e")
    return lines


def made(rng, name):
    """A line that makes a combination: by a tree, by its members, by one member very often, or by a list."""
    way = rng.random()
    if way < 0.4:
        tree = rng.choice(TREES)
        return f"put {name} comb region {rng.choice(('yes', 'yes', 'no'))} id {rng.choice((0, 1000))} tree " + tree % tuple(leaf(rng) for _ in range(tree.count("%s")))
    if way < 0.5:
        return f"g {name} {member(rng)} {member(rng)}"
    if way < 0.6:
        return f"r {name}" + f" {rng.choice('uu-+')} {member(rng)}" * rng.choice(COUNTS)
    return f"r {name}" + "".join(f" {rng.choice('uu-+')} {member(rng)}" for _ in range(rng.choice((1, 1, 2, 3))))


def leaf(rng):
    return member(rng) + (f" {{{rng.choice(PLACEMENTS)}}}" if rng.random() < 0.3 else "")


def member(rng):
    return rng.choice(NAMES + NAMES + MISSING + COMBS)


def edited(rng, solids, combs):
    """The lines of an edit of one of these solids and combinations, or of two edits of which the second may undo the first."""
    name, comb, other = rng.choice(solids), rng.choice(combs), member(rng)
    way = rng.random()
    if way < 0.4:
        return [f"cattr {comb} {rng.choice(ATTRIBUTES)}"]
    if way < 0.5:
        return [f"kill {name}", f"in {name} {rng.choice(SOLIDS)}"]
    if way < 0.6:
        return [f"kill {comb}", made(rng, comb)]
    if way < 0.75:
        return [f"place {comb} {other} {rng.choice(PLACEMENTS)}"]
    if way < 0.82:
        return rng.choice(([f"mvall {name} n", f"mvall n {name}"], [f"mvall {comb} n", f"g {comb} n"], [f"mvall {comb} n", f"mvall n {comb}"], [f"mvall {name} x", f"mvall x {name}"]))
    if way < 0.9:
        return rng.choice(([f"r {comb} {rng.choice('u-+')} {other}"], [f"r {comb} - {other}", f"rm {comb} {other}"], [f"rm {comb} {other}"]))
    return rng.choice(([f"g {comb} {other}"], [f"in x {rng.choice(SOLIDS)}"], ["kill x"], ["put x comb id 0"], [f"attr set {comb} k v", "title t"]))
