"""Directions, lengths and positions as commands and answers have them, and exact sums of positions.

A sum is a fraction for each root of a number that no square divides: {1: 3, 2: -1/2} is 3 - sqrt(2) / 2. Such roots don't
cancel one another, so a sum has one form, and is 0 where it has no fraction.
"""

import os
import re
import sys
from decimal import Context
from fractions import Fraction
from functools import lru_cache
from math import gcd, isqrt

AXES = {"+x": (1, 0, 0), "-x": (-1, 0, 0), "+y": (0, 1, 0), "-y": (0, -1, 0), "+z": (0, 0, 1), "-z": (0, 0, -1)}
ROOT = r"(-?[0-9]+)([+-])sqrt\(([0-9]+)\)"
DIGITS = 12


def refuse(what):
    sys.exit(f"{os.path.basename(sys.argv[0])}: {what}")


def tenths(word):
    if not re.fullmatch(r"[+-]?[0-9]{1,9}(\.[0-9]?0*)?", word):
        refuse(f"{word} is no length, which is in millimetres with at most one decimal")
    return int(Fraction(word) * 10)


def box_of(words):
    """The sides of a box, each from low to high."""
    sides = [sorted(map(tenths, words[at : at + 2])) for at in (0, 2, 4)]
    if any(low == high for low, high in sides):
        refuse("the box has no inside")
    return sides


def millimetres(count):
    whole, tenth = divmod(abs(count), 10)
    return "-" * (count < 0) + str(whole) + f".{tenth}" * (tenth > 0)


def vector_of(word):
    if word in AXES:
        return AXES[word]
    if not re.fullmatch(r"-?[0-4],-?[0-4],-?[0-4]", word):
        refuse(f"{word} is no direction, as +z, or 1,0,-2 with whole numbers from -4 to 4")
    vector = tuple(map(int, word.split(",")))
    if gcd(*vector) != 1:
        refuse(f"{word} has the common divisor {gcd(*vector)}" if any(vector) else f"{word} goes nowhere")
    return vector


def farthest(vector):
    """The axis along which a vector goes farthest, the first of several."""
    return max(range(3), key=lambda axis: abs(vector[axis]))


@lru_cache(None)
def square_part(number):
    """The root of the greatest square that divides a number, and the number divided by that square."""
    root, rest, prime = 1, 1, 2
    while prime**3 <= number:
        while number % prime**2 == 0:
            root, number = root * prime, number // prime**2
        if number % prime == 0:
            rest, number = rest * prime, number // prime
        prime += 1
    last = isqrt(number)  # what is left has at most two primes
    return (root * last, rest) if last**2 == number else (root, rest * number)


def add(total, other, times=1, under=1):
    """Adds to a sum another one, so many times and times the root of a number."""
    for number, part in other.items():
        root, rest = square_part(number * under)
        total[rest] = total.get(rest, 0) + part * times * root
        if not total[rest]:
            del total[rest]
    return total


def position(word):
    """A position as a sum, or None where it is in none of its forms."""
    if plain := re.fullmatch(r"(-?[0-9]+)(?:/([1-9][0-9]*))?", word):
        return add({}, {1: Fraction(int(plain[1]), int(plain[2] or 1))})
    if found := re.fullmatch(ROOT, word) or re.fullmatch(rf"\({ROOT}\)/([1-9][0-9]*)", word):
        whole, sign, under, divisor = (*found.groups(), 1)[:4]
        return add(add({}, {1: Fraction(int(whole), int(divisor))}), {int(under): Fraction(int(sign + "1"), int(divisor))})
    return None


def bounds(total, digits):
    """Two numbers between which a sum lies, with each root to so many digits behind the point."""
    low = high = Fraction(0)
    for number, part in total.items():
        root = isqrt(number * 100**digits)
        ends = sorted((part * root, part * (root + (root**2 != number * 100**digits))))
        low, high = low + ends[0], high + ends[1]
    return low / 10**digits, high / 10**digits


def decimal(total):
    """A sum to so many digits, the last of them rounded, or as it is where it has fewer."""
    digits = 30
    while True:
        low, high = (Context(DIGITS).divide(end.numerator, end.denominator) for end in bounds(total, digits))
        if low == high:
            return format(low.normalize() if set(total) <= {1} else low, "f")
        digits *= 2


def exactly(total):
    """A sum as it is, or where that is long how many roots it has."""
    text = ""
    for number, part in sorted(total.items()):
        text += "-" if part < 0 else "+" if text else ""
        text += "*".join([str(abs(part))] * (abs(part) != 1 or number == 1) + [f"sqrt({number})"] * (number != 1))
    return (text or "0") if len(text) <= 48 else f"{len(set(total) - {1})} roots"
