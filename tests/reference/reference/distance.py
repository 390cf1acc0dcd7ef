"""Distances in whole metres between places given in centimetres."""

from math import isqrt


def whole_metres(square):
    """The whole metre nearest to a distance in centimetres whose square is given; a half goes up (document 02, wish 2)."""
    passed = isqrt(square) // 100
    return passed + 1 if square >= (100 * passed + 50) ** 2 else passed


def distance(here, there):
    return whole_metres((here[0] - there[0]) ** 2 + (here[1] - there[1]) ** 2)
