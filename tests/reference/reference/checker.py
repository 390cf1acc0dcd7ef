"""The checker: replays a derivation from an instance and tests a claimed cost and assignment."""

from typing import NamedTuple

from . import words
from .answers import BAD_CLAIM, BAD_STEP, GOOD, Refused, require
from .inputs import cost_of, in_range, read_instance
from .resolution import Pair, permitted, resolved_within
from .tables import capacity, empty_weight, encoded_within, table_words


class Checked(NamedTuple):
    number: int
    steps: int
    table: list


def named_pair(sizes, rows, taken):
    """The permitted pair that a step word names, or refusal 6."""
    fields = words.step_of(taken)
    require(fields is not None, BAD_STEP)
    pair = Pair(*fields)
    require(pair.variable < len(sizes) and pair.first < pair.second < len(rows), BAD_STEP)
    require(permitted(sizes, pair.variable, rows[pair.first].signs, rows[pair.second].signs), BAD_STEP)
    return pair


def replay(sizes, rows, derivation, most_rows):
    """The number under which the replay stops (0 at its end), the steps replayed and the rows after them."""
    for steps, taken in enumerate(derivation):
        try:
            pair = named_pair(sizes, rows, taken)
            rows = resolved_within(sizes, rows, pair, most_rows)
        except Refused as refusal:
            return refusal.number, steps, rows
    return GOOD, len(derivation), rows


def claim_number(instance, rows, assignment, claimed):
    """0 if the claimed cost is that of the empty row and of the assignment, else 7."""
    holds = (in_range(instance.sizes, assignment)
             and claimed == empty_weight(rows) == cost_of(instance.entries, assignment))
    return GOOD if holds else BAD_CLAIM


def check_call(instance, derivation, assignment, claimed, table):
    """Checks a derivation and a claim, with the lent slice as work table."""
    try:
        read = read_instance(instance)
        rows = encoded_within(read, len(table))
    except Refused as refusal:
        return Checked(refusal.number, 0, list(table))
    most_rows = capacity(len(read.sizes), len(table))
    number, steps, rows = replay(read.sizes, rows, derivation, most_rows)
    if number == GOOD:
        number = claim_number(read, rows, assignment, claimed)
    return Checked(number, steps, table_words(read.sizes, rows, len(table)))
