"""Objects, kept attributes and titles as words: `put`, `attr set` and `title`, as docs/TEXT_FORM.md has them.

What is refused begins with the kind of its fault, and the kinds are looked for in their order: `type`, `attr`, `tree`,
`name W`, `number W`, `shape ..`. `name group` is reported of an object's name that is a group of other than one atom.
"""

from . import attributes
from .directory import MOST_LEAVES, Comb
from .refused import Refused, refuse_unless
from .solids import FARTHEST, IDENTITY, MOST_OF_A_NORMAL, Arb8, Cylinder, Half, Sphere, placement_of
from .trees import Leaf, Node, leaves_of, with_leaves
from .words import MILLIMETRE, atom, counts_as_atom, is_text, length, name, number, text_from

ANY_NUMBER = 999_999_999
ANY_LENGTH = 999_999_999 * MILLIMETRE + 9
SHIFTS = (3, 7, 11)  # the places, from 0, of the lengths among the numbers of a matrix
AXES = ("A", "B", "C")
OPERATORS = {b"u": "u", b"n": "+", b"+": "+", b"-": "-", b"^": "^"}

# The keys of each type of solid with their counts of numbers, and what makes the solid of the lists of numbers.
SOLIDS = {
    "sph": ({"V": 3, "r": 1}, lambda given: Sphere(tuple(given["V"]), given["r"][0])),
    "ell": ({"V": 3, "A": 3, "B": 3, "C": 3}, lambda given: Sphere(tuple(given["V"]), given["A"][0])),
    "rcc": ({"V": 3, "H": 3, "r": 1}, lambda given: Cylinder(tuple(given["V"]), tuple(given["H"]), given["r"][0])),
    "half": ({"N": 3, "d": 1}, lambda given: Half(tuple(given["N"]), given["d"][0])),
    "arb8": ({f"V{i}": 3 for i in range(1, 9)}, lambda given: Arb8([tuple(given[f"V{i}"]) for i in range(1, 9)])),
}


def read_put(words):
    """The name and the object of a `put`."""
    kind = text_of_atom(words[2]) if len(words) > 2 else None
    refuse_unless(kind == "comb" or kind in SOLIDS, "type")
    pairs = pairs_from(words, 3)
    places = dict(pairs)
    refuse_unless(len(places) == len(pairs), "attr")
    return read_comb(words, places) if kind == "comb" else read_solid(words, places, kind)


def read_attr_set(words, objects=None):
    """The name of an `attr set` and what it keeps. Where objects are given, the name has to be that of one of them."""
    refuse_unless(len(words) > 2 and text_of_atom(words[1]) == "set", "type")
    pairs = pairs_from(words, 3)
    values = [words[place - 1].text for _, place in pairs]
    refuse_unless(all(map(is_text, values)), "attr")
    owner = object_name(words, 3)
    refuse_unless(objects is None or owner in objects, "attr")
    for key, place in pairs:
        refuse_unless(name(key.encode("latin-1")), f"name {place - 1}")
    return owner, dict(zip((key for key, _ in pairs), values))


def read_title(line, words, end):
    refuse_unless(len(words) > 1, "type")
    text = text_from(line, words, 1, end)
    refuse_unless(is_text(text), "attr")
    return text


def text_of_atom(word):
    return atom(word).decode("latin-1") if counts_as_atom(word) else None


def pairs_from(words, first):
    """Pairs of a key and the number of its value's word, of the words from this one on."""
    keys = [text_of_atom(word) for word in words[first::2]]
    refuse_unless(keys and (len(words) - first) % 2 == 0 and None not in keys, "attr")
    return list(zip(keys, range(first + 2, len(words) + 1, 2)))


def object_name(words, place):
    refuse_unless(counts_as_atom(words[place - 1]), "name group")
    found = name(atom(words[place - 1]))
    refuse_unless(found, f"name {place}")
    return found


# Solids.


def read_solid(words, places, kind):
    counts, make = SOLIDS[kind]
    refuse_unless(places.keys() == counts.keys(), "attr")
    texts = {key: numbers_as_texts(words[place - 1], counts[key]) for key, place in places.items()}
    refuse_unless(None not in texts.values(), "attr")
    owner = object_name(words, 2)
    given = {key: [number_of_key(key, text) for text in texts[key]] for key in texts}
    for key, place in places.items():
        fits = is_axis(given, key) if kind == "ell" and key in AXES else None not in given[key]
        refuse_unless(fits, f"number {place}")
    return owner, make(given)


def number_of_key(key, text):
    """A number of a solid's key, or None. All are lengths but those of a normal."""
    return number(text, -MOST_OF_A_NORMAL, MOST_OF_A_NORMAL) if key == "N" else length(text, -FARTHEST, FARTHEST)


def numbers_as_texts(word, count):
    """The one atom of a word, or the three of a group; None where it has another form."""
    parts = [word] if count == 1 else word.words or []
    return [atom(part) for part in parts] if len(parts) == count and all(map(counts_as_atom, parts)) else None


def is_axis(given, key):
    """Whether a half axis of an `ell` has its length at its place and else zeros. Where the length itself is none, `A` is
    no axis, and of the others the zeros are asked for, and a number in its range."""
    length, at, axis = given["A"][0], AXES.index(key), given[key]
    fits = axis[at] == length if length is not None else key != "A" and axis[at] is not None
    return fits and axis[:at] + axis[at + 1 :] == [0, 0]


# Combinations.


def read_comb(words, places):
    refuse_unless(all(key == "tree" or key in attributes.NONE for key in places), "attr")
    tree = tree_of(words[places["tree"] - 1]) if "tree" in places else None
    refuse_unless(len(leaves_of(tree)) <= MOST_LEAVES, "tree")
    owner = object_name(words, 2)
    refuse_unless(all(name(leaf.name) for leaf in leaves_of(tree)), f"name {places.get('tree')}")
    placements = {leaf: placement_of_texts(leaf.placement) for leaf in leaves_of(tree)}
    given = {}
    for key, place in places.items():
        if key == "tree":
            refuse_unless(None not in placements.values(), f"number {place}")
        else:
            given[key] = attribute_of(key, words[place - 1])
            refuse_unless(given[key] is not None, f"number {place}")
    return owner, Comb(dict(attributes.NONE, **given), with_leaves(tree, lambda leaf: Leaf(name(leaf.name), placements[leaf])))


def attribute_of(key, word):
    """The value of an attribute, or None. An atom is wanted, but for a colour, which three numbers in a group are too."""
    if counts_as_atom(word):
        return attributes.value_of(key, atom(word))
    texts = numbers_as_texts(word, 3)
    return attributes.value_of(key, b" ".join(texts)) if texts and key == "rgb" else None


def tree_of(word):
    """The tree of a value. Its leaves have a text in place of a name, and a tuple of texts, or None, in place of a
    placement. A tree may be 4,096 deep, so this has no recursion."""
    refuse_unless(not word.is_atom, "tree")
    values, todo = [], [word] if word.words else []
    while todo:
        part = todo.pop()
        if isinstance(part, str):
            right, left = values.pop(), values.pop()
            values.append(Node(part, left, right))
            continue
        refuse_unless(not part.is_atom and len(part.words) > 1 and counts_as_atom(part.words[0]), "tree")
        head, *sides = part.words
        if atom(head) == b"l":
            values.append(leaf_of(sides))
        else:
            refuse_unless(atom(head) in OPERATORS and len(sides) == 2, "tree")
            todo += [OPERATORS[atom(head)], sides[1], sides[0]]
    return values[0] if values else None


def leaf_of(sides):
    refuse_unless(len(sides) < 3 and counts_as_atom(sides[0]), "tree")
    texts = numbers_as_texts(sides[1], 16) if len(sides) == 2 else ()
    refuse_unless(texts is not None, "tree")
    return Leaf(atom(sides[0]), tuple(texts) or None)


def placement_of_texts(texts):
    """The placement of sixteen texts, of none the identity; None where it is none."""
    if texts is None:
        return IDENTITY
    numbers = numbers_of_matrix(texts)
    return placement_of(numbers) if None not in numbers else None


def numbers_of_matrix(texts):
    """The numbers of sixteen texts, in the place of each that is none None. Those of the shift are lengths."""
    read = lambda place, text: length(text, -ANY_LENGTH, ANY_LENGTH) if place in SHIFTS else number(text, -ANY_NUMBER, ANY_NUMBER)
    return [read(place, text) for place, text in enumerate(texts)]
