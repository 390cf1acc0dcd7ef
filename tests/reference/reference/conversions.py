"""A table turned into the other form of its rows (document 02, wish 5): the source is only read, the target is written whole."""

from typing import NamedTuple

from .answers import GOOD, TABLE_FULL, TARGET_TOO_SHORT, WEIGHT_TOO_WIDE, Refused, require
from .forms import FIVE, SIX
from .tables import capacity, read_table, rows_start, table_words


class Converted(NamedTuple):
    number: int
    rows: int
    target: list


def to_six(source, target):
    """The six-word table of a five-word one, which last year's tables are."""
    return converted(source, FIVE, target, SIX)


def to_five(source, target):
    """The five-word table of a six-word one."""
    return converted(source, SIX, target, FIVE)


def converted(source, form, target, other):
    """Writes the source's sizes and rows, in their order, to the target in the other form."""
    try:
        sizes, rows = read_table(source, form)
        require(len(target) >= rows_start(len(sizes)), TARGET_TOO_SHORT)
        # Six words hold every weight of five.
        require(all(row.weight <= other.max_weight for row in rows), WEIGHT_TOO_WIDE)
        require(len(rows) <= capacity(len(sizes), len(target), other), TABLE_FULL)
    except Refused as refusal:
        return Converted(refusal.number, 0, list(target))
    return Converted(GOOD, len(rows), table_words(sizes, rows, len(target), other))
