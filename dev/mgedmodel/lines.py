"""Which command a line is, or why it is none: `syntax`, `name W`, `number W`, `view ..`, `shape ..`, in this order."""

from collections import namedtuple
from math import gcd

from . import attributes
from .listings import listings_of
from .pictures import WORLD, View, area_report, edge_picture, overlap_report, picture
from .refused import Refused, refuse_unless, syntax_unless
from .shots import shot
from .slants import slant_shot
from .solids import DIRECTIONS, FARTHEST, MOST_OF_A_NORMAL, Arb8, Cylinder, Half, Ray, Sphere, box_of, placement_of
from .texts import ANY_LENGTH, ANY_NUMBER, numbers_of_matrix, read_attr_set, read_put, read_title
from .words import atom, counts_as_atom, length, name_at, number_at, read_words, text_from
from .written import text_of, written_lines_of

OPERATORS = (b"u", b"+", b"-", b"^")

FAULTS_OF_FORM = ("type", "attr", "tree", "name group")  # of the text form, all of which are `syntax` in a script

# What a line asks for: whether it changes the directory; what it does to one, for which it is told its session; and whether it
# shoots at a view. It answers the lines of the body, and the files that are put, each a name and its bytes.
Command = namedtuple("Command", "is_edit act shoots", defaults=[False])

# The count of numbers of each kind of solid, and what makes a solid of them.
SOLIDS = {
    b"half": (4, lambda given: Half(tuple(given[:3]), given[3])),
    b"rpp": (6, box_of),
    b"arb8": (24, lambda given: Arb8([tuple(given[first : first + 3]) for first in range(0, 24, 3)])),
    b"sph": (4, lambda given: Sphere(tuple(given[:3]), given[3])),
    b"rcc": (7, lambda given: Cylinder(tuple(given[:3]), tuple(given[3:6]), given[6])),
}
NORMAL = (4, 5, 6)  # the places of the plain numbers of a half-space; all other numbers of solids are lengths
MOST_OF_A_STEP = 4  # a plain number


def read_line(line):
    """The command of a line."""
    words, end = read_words(line)
    head = atom(words[0])
    syntax_unless(head in READERS)
    return READERS[head](line, words, end)


def of_atoms(read):
    """A reader of a command whose words are all atoms."""
    return lambda line, words, end: read([atom(word) for word in words])


def edit(act):
    return Command(True, lambda directory, session: (act(directory) or [], []))


def query(find):
    return Command(False, lambda directory, session: (find(directory), []))


def length_at(atoms, place, most, least=None):
    return number_at(atoms, place, most, least, read=length)


def names_from(atoms, *places):
    return [name_at(atoms, place) for place in places]


def read_in(atoms):
    syntax_unless(len(atoms) > 2 and atoms[2] in SOLIDS)
    count, make = SOLIDS[atoms[2]]
    syntax_unless(len(atoms) == 3 + count)
    name = name_at(atoms, 2)
    plain = NORMAL if atoms[2] == b"half" else ()
    solid = make([number_at(atoms, place, MOST_OF_A_NORMAL) if place in plain else length_at(atoms, place, FARTHEST) for place in range(4, 4 + count)])
    return edit(lambda directory: directory.make(name, solid))


def read_r(atoms):
    syntax_unless(len(atoms) > 3 and len(atoms) % 2 == 0 and all(op in OPERATORS for op in atoms[2::2]))
    name, *members = names_from(atoms, *range(2, len(atoms) + 1, 2))
    items = [(op.decode(), member) for op, member in zip(atoms[2::2], members)]
    return edit(lambda directory: directory.extend(name, items, as_region=True))


def read_g(atoms):
    syntax_unless(len(atoms) > 2)
    name, *members = names_from(atoms, *range(2, len(atoms) + 1))
    return edit(lambda directory: directory.extend(name, [("u", member) for member in members], as_region=False))


def read_rm(atoms):
    syntax_unless(len(atoms) > 2)
    name, *members = names_from(atoms, *range(2, len(atoms) + 1))
    return edit(lambda directory: directory.remove(name, members))


def read_kill(atoms):
    syntax_unless(len(atoms) > 1)
    names = names_from(atoms, *range(2, len(atoms) + 1))
    return edit(lambda directory: directory.kill(names))


def read_mvall(atoms):
    syntax_unless(len(atoms) == 3)
    old, new = names_from(atoms, 2, 3)
    return edit(lambda directory: directory.rename(old, new))


def as_in_a_script(read, *given):
    """What is read of a command that a model may have too."""
    try:
        return read(*given)
    except Refused as refusal:
        raise Refused("syntax") if str(refusal) in FAULTS_OF_FORM else refusal


def read_put_line(line, words, end):
    name, thing = as_in_a_script(read_put, words)
    return edit(lambda directory: directory.make(name, thing))


def read_attr_line(line, words, end):
    name, pairs = as_in_a_script(read_attr_set, words)
    return edit(lambda directory: directory.keep(name, pairs))


def read_title_line(line, words, end):
    text = as_in_a_script(read_title, line, words, end)
    return edit(lambda directory: directory.set_title(text))


def read_place(line, words, end):
    is_group = len(words) == 4 and not counts_as_atom(words[3])
    atoms = [atom(word) for word in (words[:3] if is_group else words)]
    matrix = [atom(word) for word in (words[3].words if is_group else words[3:])]
    syntax_unless(len(atoms) >= 3 and len(matrix) == 16)
    name, member = names_from(atoms, 2, 3)
    numbers = numbers_of_matrix(matrix)
    if None in numbers:
        raise Refused(f"number {4 if is_group else 4 + numbers.index(None)}")
    placement = placement_of(numbers)
    if placement is None:
        raise Refused("number 4")
    return edit(lambda directory: directory.place(name, member, placement))


def read_cattr(line, words, end):
    syntax_unless(len(words) > 3)
    atoms = [atom(word) for word in words[:3]]
    key = atoms[2].decode("latin-1")
    syntax_unless(key in attributes.NONE)
    name = name_at(atoms, 2)
    value = attributes.value_of(key, text_from(line, words, 3, end))
    if value is None:
        raise Refused("number 4")
    return edit(lambda directory: directory.set_attribute(name, key, value))


def read_ls(atoms):
    syntax_unless(len(atoms) == 1)
    return query(lambda directory: directory.listing())


def of_names(find):
    """A reader of a query of one or more names."""

    def read(atoms):
        syntax_unless(len(atoms) > 1)
        names = names_from(atoms, *range(2, len(atoms) + 1))
        return query(lambda directory: find(directory, names))

    return of_atoms(read)


def read_save(atoms):
    syntax_unless(len(atoms) == 2)
    file = name_at(atoms, 2)
    return Command(False, lambda directory, session: ([f"saved {file}"], [(file, text_of(directory))]))


def read_nirt(atoms):
    syntax_unless(len(atoms) > 5 and atoms[4].decode("latin-1") in DIRECTIONS)
    names = names_from(atoms, *range(6, len(atoms) + 1))
    start = start_at(atoms)
    refuse_outside(start)
    ray = Ray(start, DIRECTIONS[atoms[4].decode()])
    return query(lambda directory: shot(directory, ray, names))


def read_nirtd(atoms):
    syntax_unless(len(atoms) > 7)
    names = names_from(atoms, *range(8, len(atoms) + 1))
    start, along = start_at(atoms), tuple(number_at(atoms, place, MOST_OF_A_STEP) for place in (5, 6, 7))
    refuse_unless(gcd(*along) == 1, "view direction")
    refuse_outside(start)
    return query(lambda directory: slant_shot(directory, Ray(start, along), names))


def start_at(atoms):
    """The start of a ray."""
    return tuple(length_at(atoms, place, ANY_LENGTH) for place in (2, 3, 4))


def refuse_outside(start):
    refuse_unless(all(abs(part) <= WORLD for part in start), "view world")


def of_view(act):
    """A reader of a command that shoots at a view and puts no file."""

    def read(atoms):
        syntax_unless(len(atoms) > 8 and atoms[1].decode("latin-1") in DIRECTIONS)
        names = names_from(atoms, *range(9, len(atoms) + 1))
        view = view_at(atoms, 2)
        return query(lambda directory: act(directory, view, names))._replace(shoots=True)

    return of_atoms(read)


def of_file_and_view(act):
    """A reader of a command that puts a picture of a view into a file."""

    def read(atoms):
        syntax_unless(len(atoms) > 9 and atoms[2].decode("latin-1") in DIRECTIONS)
        file, *names = names_from(atoms, 2, *range(10, len(atoms) + 1))
        view = view_at(atoms, 3)
        return Command(False, lambda directory, session: act(directory, file, view, names, session), shoots=True)

    return of_atoms(read)


def view_at(atoms, place):
    """The view of the words from this one on: its direction, its corner, its cell, its columns and its rows."""
    corner = tuple(length_at(atoms, place + axis, ANY_LENGTH) for axis in (1, 2, 3))
    cell = length_at(atoms, place + 4, ANY_LENGTH, 0)
    width, height = (number_at(atoms, place + 5 + part, ANY_NUMBER, 0) for part in range(2))
    view = View(corner, DIRECTIONS[atoms[place - 1].decode()], cell, width, height)
    view.refuse_faulty()
    return view


READERS = {
    b"in": of_atoms(read_in),
    b"r": of_atoms(read_r),
    b"g": of_atoms(read_g),
    b"rm": of_atoms(read_rm),
    b"kill": of_atoms(read_kill),
    b"mvall": of_atoms(read_mvall),
    b"place": read_place,
    b"cattr": read_cattr,
    b"put": read_put_line,
    b"attr": read_attr_line,
    b"title": read_title_line,
    b"ls": of_atoms(read_ls),
    b"l": of_names(written_lines_of),
    b"tree": of_names(listings_of),
    b"save": of_atoms(read_save),
    b"nirt": of_atoms(read_nirt),
    b"nirtd": of_atoms(read_nirtd),
    b"rt": of_file_and_view(picture),
    b"rtcheck": of_view(overlap_report),
    b"rtarea": of_view(area_report),
    b"rtedge": of_file_and_view(edge_picture),
}
