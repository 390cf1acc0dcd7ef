"""What a table holds, its two forms, its limits, and the faults that words and text can both have."""

from typing import NamedTuple

from common.field import MAX_SIZE, spot_fault
from common.words import PAYLOADS

SIGN_WORDS = 4
MAX_ROWS = 4_096
# More words than a table has a use for: 24,590 have room for all rows of twelve stations.
MAX_WORDS = 1_000_000


class Form(NamedTuple):
    """The form of a row: the words of its signs, then those of its weight."""
    name: str           # how many words it has
    weight_words: int

    @property
    def row_words(self):
        return SIGN_WORDS + self.weight_words

    @property
    def max_weight(self):
        return PAYLOADS ** self.weight_words - 1

    def room(self, stations, words):
        """For how many rows a table of so many words has room."""
        return min(MAX_ROWS, (words - rows_start(stations)) // self.row_words)

    def room_text(self, stations, words):
        room = self.room(stations, words)
        return f"{room:,} row{'' if room == 1 else 's'} of {self.name} words"


FIVE = Form("five", 1)      # last year's
SIX = Form("six", 2)
# A table without rows has both.
EITHER = (FIVE, SIX)


class Row(NamedTuple):
    """A plan costs the weight unless it has a spot that lies in a sign."""
    signs: tuple        # for each station the set of its spots: bit b stands for spot b
    weight: int


class Table(NamedTuple):
    forms: tuple        # its one form, or both
    sizes: tuple        # how many spots each station has
    rows: tuple
    words: int          # with the zeros behind the rows


def rows_start(stations):
    """How many words stand before the rows: the head, those of the stations, the row count."""
    return stations + 2


def spots_in(sign):
    return [spot for spot in range(MAX_SIZE) if sign >> spot & 1]


def sign_fault(sizes, station, spots):
    """Why a station cannot have the sign of these spots, which rise, or None where it can."""
    if not spots:
        return None
    reason = spot_fault(sizes, station, spots[-1])
    if not reason and len(spots) == sizes[station]:
        reason = f"a sign with every spot of station {station}; no plan would cost what the row weighs"
    return reason


def repeated_fault(rows, signs):
    """Why these signs cannot come behind the rows, or None where they can; rows are looked up by their signs."""
    if signs in rows:
        return f"row {len(rows)} has the signs of row {rows[signs]}"
    return None
