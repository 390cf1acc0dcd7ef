"""The numbers that calls answer with, and the way a refusal travels to the public call that answers it."""

GOOD = 0

# From the input.
BAD_HEAD = 1
BAD_VARIABLE = 2
BAD_ENTRY = 3
COST_TOO_HIGH = 4
TOO_MANY_ENTRIES = 5
BAD_STEP = 6
BAD_CLAIM = 7
BAD_READOUT = 8

# From the state.
BAD_TABLE = 9
TARGET_TOO_SHORT = 10
WEIGHT_TOO_HIGH = 11
TABLE_FULL = 12
PAIR_LEFT = 13

# Of document 02's requests.
BAD_FIXED = 14
FORBIDDEN = 15
WEIGHT_TOO_WIDE = 16


class Refused(Exception):
    """Raised at the first condition that fails; every public call catches it and answers with the number."""

    def __init__(self, number):
        super().__init__(number)
        self.number = number


def require(condition, number):
    if not condition:
        raise Refused(number)
