"""Random commands of the text form, mostly well formed: `put`, `attr set` and `title`. A maker of `commands` has the
numbers and names for them."""

import re

KEPT = ("maker", "year", "k", "k", "K", "region", "n" * 64, "a.b-c", "{k}", "{ year }")
ODD_KEYS = ("n" * 65, "k/", "-k", "{k l}", "{}", "{{k}}", "k\u00e9", "#")
TEXTS = ("v", "{v}", "{ v }", "{}", "{ }", "{a {b}  c}", "{a  b}", "{$a; [b]}", "{{v}}", "1990", "caf\u00e9", "#", "{# }", "{\t}", "v" * 1_024, "{%s}" % (" v" * 512))
ODD_TEXTS = ("v" * 1_025, "{%s}" % ("v" * 1_025), "{\r}", "{v\r}", "v\rw", "v;", '"v"', "{" * 4_100 + "}" * 4_100, "{" * 4_101 + "}" * 4_101, "{{v}", "{v}w", "{\\}")
TITLES = ("Coffee cup", "{Coffee cup}", "a  b", "{a} {b}", "a {b  c}", "{{a} {b}}", "title", "{%s} {}" % ("v" * 1_019), "v" * 1_022 + " w", "v" * 1_022 + "  w")
TRUTHS = ("yes", "no", "1", "0", "{yes}", "{ no }")
COUNTS = ("0", "1", "7", "100", "{5}", "{ 5 }", "+5", "5.0", "-0", "007")
COLOURS = ("1/2/3", "{1 2 3}", "{1/2/3}", "{ 0 0  255 }", "{{1} 2 { 3 }}", "+1/2.0/-0", "0/0/0")
VALUES = {"region": TRUTHS, "id": COUNTS + ("999999",), "air": COUNTS, "los": COUNTS, "mater": COUNTS, "rgb": COLOURS, "inherit": TRUTHS}
ODD_VALUES = ("{}", "{1 2}", "{{1}}", "YES", "2", "-1", "101", "1000000", "1.5", "x", "1/2", "{1 2 3 4}", "{1/2 3}", "256/0/0", "1 2 3", "{{1 2 3}}", "{1 {2 3} 4}", "1//3")
ODD_TREES = ("a", "l", "{a}", "{l}", "{{l s}}", "{u {l s}}", "{u l s l t}", "{l s t}", "{l {s t}}", "{l s/}", "{u {l s} {}}", "{l s {1 0 0 0}}", "{x {l s} {l t}}", "{l s {}}", "{u {l s/} {l t {x}}}")


def put(maker, solids, combs):
    """A `put` of a solid or of a combination, with a new name of these."""
    kind, pairs = maker.pick((4, lambda: solid(maker)), (5, lambda: comb(maker)))
    name = maker.new_name(combs if kind == "comb" else solids)
    if kind == "comb":
        maker.members[name] = re.findall(r"l ([^ {}]+)", dict(pairs).get("tree", ""))
    if maker.often(0.3):
        maker.rng.shuffle(pairs)
    if maker.errs(0.04):
        spoil(maker, pairs)
    return f"put {name} {kind} " + " ".join(f"{key} {value}" for key, value in pairs)


def spoil(maker, pairs):
    """A key that is left out, doubled or another one, or a value of another form."""
    at, way = maker.rng.randrange(len(pairs)), maker.rng.randrange(5)
    key, value = pairs[at]
    if way == 0:
        del pairs[at]
    elif way == 1:
        pairs.append((key, value))
    elif way == 2:
        pairs[at] = maker.rng.choice(("V", "H", "r", "d", "N", "A", "V8", "V9", "id", "ID", "tree", "{%s}" % key, "{%s x}" % key)), value
    else:
        pairs[at] = key, maker.rng.choice(ODD_VALUES + ODD_TREES)


def point(numbers):
    return "{%s}" % " ".join(map(str, numbers))


def solid(maker):
    kind, numbers = maker.pick((3, maker.eight), (4, maker.sphere), (4, maker.cylinder), (2, maker.half))
    numbers = maker.lengths(numbers, 3 if kind == "half" else 0)
    if kind == "arb8":
        return kind, [(f"V{i + 1}", point(numbers[3 * i : 3 * i + 3])) for i in range(8)]
    if kind == "half":
        return kind, [("N", point(numbers[:3])), ("d", numbers[3])]
    if kind == "rcc":
        return kind, [("V", point(numbers[:3])), ("H", point(numbers[3:6])), ("r", numbers[6])]
    if maker.often(0.6):
        return kind, [("V", point(numbers[:3])), ("r", numbers[3])]
    axes = [[numbers[3] if axis == at else 0 for axis in range(3)] for at in range(3)]
    if maker.errs(0.1):
        axes[maker.rng.randrange(3)][maker.rng.randrange(3)] = maker.rng.choice((0, 1, -1, numbers[3], "x", "1.5", "0.25", 16_385))
    return "ell", [("V", point(numbers[:3]))] + [(key, point(axis)) for key, axis in zip("ABC", axes)]


def comb(maker):
    pairs = [(key, maker.rng.choice(values)) for key, values in VALUES.items() if maker.often(0.3)]
    if maker.errs(0.06):
        pairs.append((maker.rng.choice(list(VALUES)), maker.rng.choice(ODD_VALUES)))
    if not pairs or maker.often(0.85):
        pairs.append(("tree", "{%s}" % node(maker, maker.rng.choice((1, 1, 2, 2, 3, 3, 4, 5, 6, 9))) if maker.often(0.95) else "{}"))
    return "comb", pairs


def node(maker, leaves):
    """A tree of so many leaves. Often it is one that a list gives: to the left, with the unions on top."""
    if leaves == 1:
        return f"l {maker.name()}" + (" {%s}" % maker.matrix(maker.grid).strip("{}") if maker.often(0.3) else "")
    left = leaves - 1 if maker.often(0.5) else maker.rng.randint(1, leaves - 1)
    op = "u" if maker.often(0.4) else maker.rng.choice("un+-^")
    return f"{op} {{{node(maker, left)}}} {{{node(maker, leaves - left)}}}"


def great_tree(rng, names):
    """A tree of about as many leaves as one may have, or groups as may be open, deep at one side."""
    inner, leaves = rng.choice(names), rng.choice((2, 90, 4_095, 4_096, 4_096, 4_097, 4_100))
    op, other = rng.choice("un+-^"), rng.choice(names)
    if rng.random() < 0.5:
        return f"{{{f'{op} {{' * (leaves - 1)}l {inner}{f'}} {{l {other}}}' * (leaves - 1)}}}"
    return f"{{{f'{op} {{l {other}}} {{' * (leaves - 1)}l {inner}{'}' * leaves}"


def keep(maker):
    pairs = [(maker.rng.choice(KEPT), maker.rng.choice(TEXTS)) for _ in range(maker.rng.choice((1, 1, 2, 3)))]
    if maker.errs(0.1):
        pairs.append((maker.rng.choice(KEPT + ODD_KEYS), maker.rng.choice(TEXTS + ODD_TEXTS)))
    return f"attr set {maker.name()} " + " ".join(f"{key} {value}" for key, value in pairs)


def title(maker):
    return "title " + maker.rng.choice(ODD_TEXTS if maker.errs(0.15) else TITLES + TEXTS)


TOKEN = re.compile(r"[{}]|[^ \t\r{}]+")
BLANKS = (" ", " ", " ", "  ", "\t", " \t ", "\r ")


def dressed(rng, line, feeds=()):
    """The line with other blanks, with braces around single atoms, and with numbers that are spelled otherwise. Blanks with
    line feeds may stand inside groups."""
    text, before, opened = "", "{", 0
    for token in TOKEN.findall(line):
        is_tight = before == "{" or token == "}"
        text += "" if is_tight and rng.random() < 0.8 else rng.choice(BLANKS + feeds if opened > 0 else BLANKS)
        text += token if token in "{}" or rng.random() < 0.7 else spelled(rng, token)
        opened += {"{": 1, "}": -1}.get(token, 0)
        before = token
    return text + rng.choice(("", "", " ", "\t\r", "\r"))


def spelled(rng, atom):
    if re.fullmatch(r"-?[0-9]{1,7}\.[0-9]", atom) and rng.random() < 0.6:
        atom = rng.choice(("", "+", "0" * 9) if atom[0] != "-" else ("",)) + atom + rng.choice(("", "0", "000"))
    if re.fullmatch(r"-?[0-9]{1,7}", atom) and rng.random() < 0.6:
        sign, digits = ("-", atom[1:]) if atom[0] == "-" else (rng.choice(("", "", "+", "-" * (atom == "0"))), atom)
        atom = sign + "0" * rng.choice((0, 0, 1, 9)) + digits + rng.choice(("", ".", ".0", ".000"))
    return rng.choice(("{%s}", "{ %s }", "%s", "{%s\t}")) % atom
