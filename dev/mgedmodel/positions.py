"""Exact places on a ray: a fraction, or one and the square root of another that is the square of none. On a ray along an axis
such a root comes of whole numbers, and on one in a lattice direction of whole numbers divided by a whole number."""

from fractions import Fraction
from functools import total_ordering
from itertools import count
from math import isqrt


@total_ordering
class Position:
    """The number a + sign * sqrt(k), with the sign 1 or -1 and fractions a and k; 0 where it is the fraction a."""

    def __init__(self, a, sign=0, k=0):
        root = Fraction(isqrt(k.numerator), isqrt(k.denominator))
        if root * root == k:
            a, sign, k = a + sign * root, 0, 0
        self.a, self.sign, self.k = Fraction(a), sign, k

    def __eq__(self, other):
        return self.spelling() == other.spelling()

    def __lt__(self, other):
        return sign_of_two_roots(self.a - other.a, self.sign, self.k, -other.sign, other.k) < 0

    def __hash__(self):
        return hash(self.spelling())

    def spelling(self):
        """Two positions at one place have one spelling: the roots of two fractions that are no squares differ by no
        fraction other than 0."""
        return self.a, self.sign, self.k

    def __str__(self):
        """A fraction, or whole numbers under the least divisor with which there are such."""
        if self.sign == 0:
            return str(self.a)
        q = next(q for q in count(1) if (q * self.a).denominator == (q * q * self.k).denominator == 1)
        root = f"{q * self.a}{'+' if self.sign > 0 else '-'}sqrt({q * q * self.k})"
        return root if q == 1 else f"({root})/{q}"


def fraction_between(one, other):
    """A fraction between two places, the first of which is before the other and not before 0. It comes down to the first place
    by halves."""
    low, high = Fraction(0), Fraction(1)
    while Position(high) <= one:
        high *= 2
    while Position(high) >= other:
        middle = (low + high) / 2
        low, high = (low, middle) if Position(middle) > one else (middle, high)
    return high


def sign_of(x):
    return (x > 0) - (x < 0)


def sign_of_root(x, y, m):
    """The sign of x + y * sqrt(m)."""
    side, other = sign_of(x), sign_of(y * m)
    if side * other >= 0:
        return side or other
    return side * sign_of(x * x - y * y * m)


def sign_of_two_roots(x, y, m, z, n):
    """The sign of x + y * sqrt(m) + z * sqrt(n)."""
    side, other = sign_of_root(x, y, m), sign_of(z * n)
    if side * other >= 0:
        return side or other
    return side * sign_of_root(x * x + y * y * m - z * z * n, 2 * x * y, m)
