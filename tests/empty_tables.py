"""Tables of fields without variables, whose only row is the empty one, and slices of up to nine words that are such tables or nearly:
through every call that takes a table. Each call comes with the number and the fields that documents 01 and 02 ask for."""

from itertools import product
from typing import NamedTuple

from reference import words
from reference.answers import BAD_FIXED, BAD_TABLE, FORBIDDEN, GOOD, TABLE_FULL, TARGET_TOO_SHORT, WEIGHT_TOO_WIDE
from reference.forms import FIVE, SIX
from reference.limits import FORBIDDEN_WEIGHT

LENGTHS = range(10)
HEAD, NONE, ONE = words.head(0), words.row_count(0), words.row_count(1)
# The words before the row: its head and the row count.
START = 2
# The signs of the row.
SIGNS = [words.signs(index, (0, 0, 0)) for index in range(4)]
TELLING = [HEAD, words.head(1), words.head(12), words.head(13), NONE, ONE, words.row_count(2), *SIGNS, words.signs(0, (1, 0, 0)),
           words.weight(1), words.high_weight(0), words.high_weight(1), 0]
# What may stand in the places of the row count, of the signs, of the weight's two words, and of the word behind them.
COUNTS_TRIED = [NONE, ONE, words.row_count(2), 0]
SIGNS_TRIED = [SIGNS, [words.signs(0, (1, 0, 0)), *SIGNS[1:]], [*SIGNS[:3], words.signs(3, (0, 0, 1))], [*SIGNS[:1] * 2, *SIGNS[2:]],
               [0] * 4]
LOW_TRIED = [words.weight(0), words.weight(1), words.high_weight(0), 0]
HIGH_TRIED = [words.high_weight(0), words.high_weight(1), words.weight(1), SIGNS[0], 0]
LAST_TRIED = [0, 1, words.high_weight(0)]
# What a completion may be given as k and as fixed values; the first is good.
FIXED = list(product((0, 1, 2, 12, 13, (1 << 64) - 1), ([], [0], [255], [0, 0])))
FEW_FIXED = [(0, []), (0, [0]), (1, [])]


class Asked(NamedTuple):
    """A call by its name and its arguments, with the number and the fields that are due."""
    name: str
    arguments: tuple
    due: list


def asked(name, *arguments, due):
    return Asked(name, arguments, due)


def refused_or(number, *values):
    """The number and these fields, which are 0 where it is a refusal."""
    return [number, *values] if number == GOOD else [number] + [0] * len(values)


def rows_of(weight):
    """The rows of a table whose empty row has this weight, 0 where there is none."""
    return 1 if weight else 0


def room_number(length, form, weight):
    """What a slice of this length is as a target of such a table."""
    if length < START:
        return TARGET_TOO_SHORT
    return GOOD if length >= START + form.row_words * rows_of(weight) else TABLE_FULL


def weight_in(table, form):
    """The weight of a valid table's empty row, 0 where there is none; None where the table is not valid in this form."""
    if table[:START] == [HEAD, NONE]:
        return None if any(table[START:]) else 0
    front, end = [HEAD, ONE, *SIGNS], START + form.row_words
    if table[:len(front)] != front or len(table) < end or any(table[end:]):
        return None
    return form.weight_of(table[len(front):end])


def is_valid(table):
    """Whether it is a table of either form."""
    return any(weight_in(table, form) is not None for form in (FIVE, SIX))


def calls_on(table, fixed, lengths):
    """The calls that take rows of six words, in slices and targets of these lengths: no pair is left, and the plan has no bytes."""
    weight = weight_in(table, SIX)
    good = BAD_TABLE if weight is None else GOOD
    yield asked("step", table, due=refused_or(good, 1, 0))
    for length in lengths:
        for limit in (0, 5):
            yield asked("run", table, limit, [9] * length, due=refused_or(good, 0, 0, weight))
        yield asked("plan", table, [9] * length, due=[FORBIDDEN if weight and weight >= FORBIDDEN_WEIGHT else good])
        for k, values in fixed:
            number = good or (BAD_FIXED if k or values else GOOD)
            yield asked("complete", table, k, values, [9] * length, due=refused_or(number, weight))


def conversions(table, lengths):
    """Both conversions in targets of these lengths."""
    for name, form, other in (("to_six", FIVE, SIX), ("to_five", SIX, FIVE)):
        weight = weight_in(table, form)
        for length in lengths:
            number = BAD_TABLE if weight is None else room_number(length, other, weight)
            if number in (GOOD, TABLE_FULL) and weight > other.max_weight:
                number = WEIGHT_TOO_WIDE
            yield asked(name, table, [9] * length, due=refused_or(number, rows_of(weight)))


def slices():
    """Every slice of up to two telling words, and every one of three behind a head of 0; longer ones by what may stand in each
    place; and valid ones behind another head."""
    tried = {listed for count in range(3) for listed in product(TELLING, repeat=count)}
    tried |= {(HEAD, *listed) for listed in product(TELLING, repeat=2)}
    for count, signs, low, high, last in product(COUNTS_TRIED, SIGNS_TRIED, LOW_TRIED, HIGH_TRIED, LAST_TRIED):
        whole = (HEAD, count, *signs, low, high, last)
        tried |= {whole[:length] for length in LENGTHS}
    valid = [listed for listed in tried if is_valid(list(listed))]
    tried |= {(head, *listed[1:]) for listed in valid for head in (words.head(1), words.head(12), words.head(13), 0)}
    return [list(listed) for listed in sorted(tried)]


def slice_calls():
    for table in slices():
        yield from calls_on(table, FEW_FIXED, [0])
        yield from conversions(table, [9])
