"""The 32-bit words: packing and unpacking of every kind.

The packing functions put together any fields that fit, in range or not, so that faulty words can be made too.
"""

from .limits import SIGNS_PER_WORD

PAYLOAD_BITS = 28
PAYLOAD_MASK = (1 << PAYLOAD_BITS) - 1
SIGN_MASK = 0xFF

HEAD = 1
SIZE = 2        # document 01: station word
BINDING = 3     # document 01: pair (station, spot)
COST = 4
SIGNS = 5
WEIGHT = 6      # its low bits; in last year's tables all
STEP = 7
EASTING = 8
NORTHING = 9
ROW_COUNT = 10
FORBIDDEN = 11  # in place of a cost
HIGH_WEIGHT = 12


def word(kind, payload):
    if not 0 <= kind <= 15 or not 0 <= payload <= PAYLOAD_MASK:
        raise ValueError("kind or payload does not fit into a word")
    return kind << PAYLOAD_BITS | payload


def kind_of(w):
    return w >> PAYLOAD_BITS


def payload_of(w):
    return w & PAYLOAD_MASK


def head(variables):
    return word(HEAD, variables)


def size(values):
    """The number of values of one variable (document 01: spots of a station)."""
    return word(SIZE, values)


def binding(variable, value):
    """A variable with one of its values (document 01: pair of station and spot)."""
    return word(BINDING, variable << 8 | value)


def cost(amount):
    return word(COST, amount)


def forbidden(unnamed=0):
    """In the place of a cost; unnamed bits are faulty."""
    return word(FORBIDDEN, unnamed)


def signs(index, triple):
    """The signs of the variables 3 * index to 3 * index + 2."""
    first, second, third = triple
    return word(SIGNS, index << 24 | third << 16 | second << 8 | first)


def weight(low):
    return word(WEIGHT, low)


def high_weight(high):
    """The bits of a weight that its first word has no room for."""
    return word(HIGH_WEIGHT, high)


def step(variable, first, second):
    return word(STEP, variable << 24 | first << 12 | second)


def easting(centimetres):
    return word(EASTING, twos_complement(centimetres))


def northing(centimetres):
    return word(NORTHING, twos_complement(centimetres))


def row_count(rows):
    return word(ROW_COUNT, rows)


def twos_complement(number):
    if not -(1 << 27) <= number < 1 << 27:
        raise ValueError("number does not fit into 28 bits")
    return number & PAYLOAD_MASK


def binding_of(w):
    """Variable and value of a binding word, or None for another kind or a set unnamed bit."""
    variable, value = w >> 8 & 15, w & 7
    return (variable, value) if w == binding(variable, value) else None


def coordinate_of(w):
    """The payload as a signed number of centimetres."""
    payload = payload_of(w)
    return payload - (1 << PAYLOAD_BITS) if payload >> 27 else payload


def signs_of(w, index):
    """The three signs of a sign word with this index, or None for any other word."""
    triple = [w >> 8 * place & SIGN_MASK for place in range(SIGNS_PER_WORD)]
    return triple if w == signs(index, triple) else None


def step_of(w):
    """Variable, first row and second row of a step word, or None for another kind."""
    if kind_of(w) != STEP:
        return None
    return w >> 24 & 15, w >> 12 & 0xFFF, w & 0xFFF
