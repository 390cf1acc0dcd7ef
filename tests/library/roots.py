"""The metres of numbers taken as squared distances, by the proved root against the reference: all small ones, and those around the
squares of every half and whole metre."""

import ctypes

import proved
from different import require
from reference.distance import whole_metres

ALL_TO = 100_000
# The longest distance that two places can have, in metres.
LONGEST = 28_284
NEAR = range(-3, 4)
# No two places lie so far apart; the root takes any number of 64 bits.
GREATEST = (1 << 64) - 1

_library = ctypes.CDLL(str(proved.SHARED.with_name("libroots.so")))
_library.roots_metres.restype = proved.FIELD
_library.roots_metres.argtypes = [proved.FIELD]


def squares():
    yield from range(ALL_TO + 1)
    for metres in range(LONGEST + 1):
        for middle in (100 * metres + 50, 100 * metres):
            yield from (middle * middle + more for more in NEAR if middle * middle + more >= 0)
    yield from (GREATEST >> shift for shift in range(64))


def root(square):
    return _library.roots_metres(square)


def same_metres(square):
    expected, got = whole_metres(square), root(square)
    require(got == expected, f"metres of {square}: {got}, reference {expected}")


def run():
    count = 0
    for square in squares():
        same_metres(square)
        count += 1
    return count
