"""Random scripts of several kinds."""

from .commands import COMBS
from .pictures import pictures
from .texts import dressed, great_tree


ODD_FILES = ("{a}", "{ a }", "{a b}", "a b", "", "{}", "a/b", "./a", "-a", ".a", "n" * 64, "n" * 65, "a;", "a\u00e9")


def script(maker, files, only=None):
    """The lines of a script, which may save to these files. In some lines blanks and spellings are others, and most scripts
    have several sessions. Where a kind is named, the script is of that kind."""
    rng = maker.rng
    kind, lines = lines_of_one(maker, files, only)
    return in_sessions(rng, lines) if kind is races or rng.random() < 0.5 else lines


def script_of_eight(maker, files, only=None):
    """The lines of a script in which each of the eight sessions has some, and the name of their kind."""
    rng = maker.rng
    kind, lines = lines_of_one(maker, files, only)
    lines += [rng.choice(RACES).format(*(maker.name() for _ in range(3))) for _ in range(8 - len(lines))]
    return kind.__name__, in_eight(rng, lines)


def lines_of_one(maker, files, only):
    """A kind of scripts, and lines of that kind for one session."""
    rng = maker.rng
    kind = rng.choice([one for one in KINDS if only in (None, one.__name__)])
    lines = kind(maker)
    for _ in range(rng.choice((0, 0, 1, 2, 3, 6))):
        lines.insert(rng.randint(0, len(lines)), f"save {rng.choice(ODD_FILES if rng.random() < 0.15 else files)}")
    share = rng.choice((0, 0, 0.1, 0.5))
    return kind, [dressed(rng, line) if rng.random() < share and len(line) < 2_000 else line for line in lines]


def in_sessions(rng, lines):
    """The lines given to one to eight sessions: each to any, or to one after the other in blocks."""
    heads = [f"@{session} " for session in rng.sample(range(1, 9), rng.randint(1, 8))]
    heads = ["" if head == "@1 " and rng.random() < 0.5 else head for head in heads]
    if rng.random() < 0.5:
        return [rng.choice(heads) + line for line in lines]
    return [heads[at * len(heads) // len(lines)] + line for at, line in enumerate(lines)]


def in_eight(rng, lines):
    """The lines given to eight sessions, none of which comes away empty: each to any, or to one after the other in blocks."""
    sessions = list(range(1, 9)) + [rng.randint(1, 8) for _ in lines[8:]]
    rng.shuffle(sessions)
    order = sessions if rng.random() < 0.5 else sorted(sessions, key=rng.sample(range(9), 9).__getitem__)
    return [f"@{session} {line}" for session, line in zip(order, lines)]


RACES = (
    "in {} sph 0 0 0 5", "in {} sph 0 0 0.5 2.5", "in {} rcc 0 0 0 0 0 4 3", "in {} rpp 0 4 0 4 0 4", "in {} half 1 0 0 2", "put {} comb region yes tree {{- {{l {}}} {{l {}}}}}", "kill {}", "kill {}", "kill {} {}", "mvall {} {}", "mvall {} {}",
    "g {} {}", "r {} u {} - {}", "rm {} {}", "cattr {} air 1", "cattr {} region no", "place {} {} 1 0 0 2 0 1 0 0 0 0 1 0 0 0 0 1", "attr set {} k v", "title {}",
    "ls", "l {} {}", "tree {}", "save a", "nirt -9 1 1 +x {}", "nirt -9 1 1 +x {} {}", "rt p.ppm -z -4 12 50 1 17 17 {}", "rtcheck -z -4 12 50 1 3 17 {} {}",
    "nirtd -9 -8 1 1 1 0 {} {}", "nirtd 5 6 7 -1 -2 -3 {}", "rtarea -z -4 12 50 1 3 17 {} {}", "rtedge q.ppm -z -4 12 50 1 17 5 {} {}",
)  # fmt: skip


def races(maker):
    """Short commands about a few names, of which some undo what others do."""
    names = maker.rng.choice(("ab", "abc", "abcdef"))
    return [maker.rng.choice(RACES).format(*maker.rng.choices(names, k=3)) for _ in range(maker.rng.choice((8, 40, 40, 150, 400)))]


def rays_at_solids(maker):
    lines = maker.solids(maker.rng.randint(1, 4))
    for _ in range(maker.rng.randint(2, 14)):
        lines.append(maker.pick((9, maker.shoot), (1, maker.solid)))
    return lines


def rays_at_regions(maker):
    lines = maker.solids(maker.rng.randint(2, 5))
    lines += [maker.comb() for _ in range(maker.rng.randint(1, 4))]
    lines += [f"cattr {name} region no" for name in maker.members if maker.often(0.5)]
    for _ in range(maker.rng.randint(3, 25)):
        lines.append(maker.pick((10, maker.shoot), (2, maker.comb), (3, maker.place), (3, maker.mark), (2, maker.colour), (1, maker.edit)))
    return lines


def slanted(maker):
    """Rays in lattice directions at solids and regions, and some along axes, of which both commands have the same."""
    rng, lines = maker.rng, maker.solids(maker.rng.randint(1, 5))
    lines += [maker.comb() for _ in range(rng.choice((0, 0, 1, 2, 3)))]
    lines += [f"cattr {name} region no" for name in maker.members if maker.often(0.4)]
    for _ in range(rng.randint(4, 20)):
        lines.append(maker.pick((12, maker.nirtd), (3, maker.along_axis), (2, maker.place), (1, maker.mark), (1, maker.solid), (1, maker.edit)))
    return lines


def viewed(maker):
    """Areas, edges, pictures and checks of a few views, with edits in between."""
    rng, lines = maker.rng, maker.solids(maker.rng.randint(1, 5))
    lines += [maker.comb() for _ in range(rng.choice((0, 1, 2, 3)))]
    shots = [(maker.view(), maker.aims()) for _ in range(rng.randint(1, 3))]
    for _ in range(rng.randint(4, 16)):
        view, names = rng.choice(shots)
        shot = rng.choice(("rtarea {}", "rtarea {}", "rtedge p.ppm {}", "rtedge p.ppm {}", "rtedge q.ppm {}", "rt p.ppm {}", "rtcheck {}")).format(view)
        edit = ((3, maker.mark), (1, maker.colour), (2, maker.place), (1, maker.comb), (1, maker.solid), (1, maker.edit))
        lines.append(f"{shot} {maker.aims() if maker.often(0.2) else names}" if maker.often(0.65) else maker.pick(*edit))
    return lines


def turned(maker):
    """Combinations with placements at each level, some with air, about solids round the origin; and rays near it."""
    rng = maker.rng
    lines = ["in s rpp -3 5 -4 6 -2 7", "in t sph 1 2 -1 6", "in k rcc 1 -2 1 0 7 0 5", "in h half 1 2 -1 4"]
    maker.there, below = ["s", "t", "k", "h"], rng.choice("sk")
    for name in rng.sample(COMBS, rng.randint(2, 4)):
        maker.there.append(name)
        maker.members[name] = members = [below, maker.name(), maker.name()]
        lines.append(f"r {name} u {below} {rng.choice('uu-+')} {members[1]} {rng.choice('uu-+')} {members[2]}")
        lines.append(f"place {name} {below} " + maker.matrix(lambda: rng.randint(-2, 2)))
        lines.append(f"cattr {name} " + rng.choice(("region no", "region no", "region no", "air 1", "air 2", "air 3")))
        below = rng.choice((below, name, name))
    for _ in range(rng.randint(3, 12)):
        x, y, names = rng.randint(-5, 5), rng.randint(-5, 5), " ".join(maker.comb_name() for _ in range(rng.randint(1, 3)))
        lines.append(f"nirt {rng.choice((f'-20 {x} {y} +x', f'{x} 20 {y} -y', f'{x} {y} -20 +z'))} {names}")
        if rng.random() < 0.5:
            lines.append(f"nirtd {rng.choice((f'-20 {x} {y} 3 -1 2', f'{x} 20 {y} 0 -4 1', f'{x} {y} -20 1 1 4'))} {names}")
        if rng.random() < 0.2:
            view = rng.choice(("+x -20 6 6 2 6 6", "-x 20 -5 7 3 4 5", "+y -6 -20 6 4 4 3", "-y 6 20 6 1 9 9", "+z 6 6 -20 2 5 5", "-z -6 6 20 2 6 4"))
            lines.append(rng.choice((f"rt p.ppm {view} {names}", f"rtcheck {view} {names}", f"rtarea {view} {names}", f"rtedge p.ppm {view} {names}")))
    return lines


def edits(maker):
    lines = maker.solids(maker.rng.randint(0, 3))
    for _ in range(maker.rng.randint(4, 30)):
        lines.append(maker.pick((9, maker.edit), (2, maker.comb), (1, maker.shoot), (1, lambda: "ls"), (1, maker.listing)))
    return lines


def texts(maker):
    """Objects that are put, with rays at them, edits and listings."""
    lines = [maker.put() for _ in range(maker.rng.randint(2, 8))]
    for _ in range(maker.rng.randint(3, 25)):
        lines.append(maker.pick((5, maker.text), (4, maker.shoot), (4, maker.listing), (3, maker.edit), (1, maker.comb)))
    return lines


def great(maker):
    """Trees about as great as one may be, made longer, listed and shot at."""
    lines, names = [maker.put(), maker.solid()], list(maker.there)
    for name in maker.rng.sample(COMBS, maker.rng.randint(1, 3)):
        lines.append(f"put {name} comb tree " + great_tree(maker.rng, names + ["zz"]))
        maker.members[name] = names
        maker.there.append(name)
    for _ in range(maker.rng.randint(2, 6)):
        lines.append(maker.pick((3, maker.comb), (2, maker.rm), (2, maker.listing), (1, maker.shoot), (1, maker.mvall)))
    return lines


def chain(maker):
    """Combinations one above the other, about as deep as they may be, and edits at both ends."""
    rng, lines = maker.rng, maker.solids(1)
    tops = []
    for letter in "ab"[: rng.randint(1, 2)]:
        below = rng.choice((maker.name(), "x" + letter))
        if rng.random() < 0.3:
            lines += [f"g {letter} {below}", f"rm {letter} {below}"]
            below = letter
        for i in range(rng.choice((3, 8, 14, 15, 16, 17))):
            name = f"{letter}{i}"
            lines.append(rng.choice((f"g {name} {below}", f"r {name} u {below}", f"g {name} {below} {maker.name()}")))
            below = name
        tops.append(below)
    ends = tops + ["a", "b", "a0", "b0", "xa", "xb", "a7", "b1"]
    for _ in range(rng.randint(1, 8)):
        one, other = rng.choice(ends), rng.choice(ends)
        known = ("g {} {}", "r {} u {}", "put {} comb tree {{l {}}}", "mvall {} {}", "rm {} {}", "kill {}", "tree {} {}", "nirt -9 1 1 +x {} {}", "nirtd -9 1 1 1 0 0 {} {}")
        lines.append(rng.choice(known).format(one, other) if rng.random() < 0.8 else maker.edit())
    return lines


def crowd(maker):
    """Combinations that have the one below them many times, so that names come to many solids."""
    rng, lines, below = maker.rng, maker.solids(1), maker.name()
    for i in range(rng.randint(1, 7)):
        many = rng.choice((1, 2, 3, 9, 16, 90, 256, 4_095, 4_096, 4_097))
        lines.append(rng.choice((f"g m{i}" + f" {below}" * many, f"r m{i}" + f" - {below}" * many)))
        # Not at all of them: the model needs seconds for the greatest number of solids.
        lines.append(rng.choice((f"nirt -9 1 1 +x m{i}", f"nirt -9 1 1 +x m{i}", f"nirtd -9 1 1 2 1 -1 m{i}")) if many < 9 or rng.random() < 0.3 else f"rm m{i} zz")
        lines += [f"tree m{i}"] * (rng.random() < 0.2)
        below = rng.choice((below, f"m{i}", f"m{i}"))
    lines += [maker.edit() for _ in range(rng.randint(0, 4))]
    return lines


# The kinds of scripts, each as often as it is to come.
KINDS = (
    rays_at_solids, rays_at_regions, rays_at_regions, slanted, slanted, slanted, viewed, viewed, turned, turned, edits, edits, texts, texts, chain, crowd, great, races, races, races, pictures, pictures, pictures,
)  # fmt: skip
