"""The calls that make steps: one step, and a run of steps."""

from typing import NamedTuple

from . import words
from .answers import GOOD, Refused
from .resolution import next_pair, resolved_within
from .tables import capacity, empty_weight, read_table, table_words

DONE = "done"
PAUSED = "paused"
STEPPED = "stepped"
REFUSED = "refused"


class Stepped(NamedTuple):
    outcome: str        # DONE, STEPPED or REFUSED
    number: int
    word: int           # of the step made, else 0
    table: list


class Ran(NamedTuple):
    outcome: str        # DONE, PAUSED or REFUSED
    number: int
    steps: int
    bound: int          # the empty row's weight in the table that the run leaves
    table: list
    derivation: list    # the lent slice: the words of the steps made, then its former content


def step_call(table):
    """Makes the next step in a table."""
    try:
        sizes, rows = read_table(table)
        pair = next_pair(sizes, rows)
        if pair is None:
            return Stepped(DONE, GOOD, 0, list(table))
        rows = resolved_within(sizes, rows, pair, capacity(len(sizes), len(table)))
    except Refused as refusal:
        return Stepped(REFUSED, refusal.number, 0, list(table))
    return Stepped(STEPPED, GOOD, words.step(*pair), table_words(sizes, rows, len(table)))


def run_call(table, limit, derivation):
    """Makes steps until no pair is left, the limit or the end of the slice is reached, or a step is refused."""
    try:
        sizes, rows = read_table(table)
    except Refused as refusal:
        return Ran(REFUSED, refusal.number, 0, 0, list(table), list(derivation))
    most_steps = min(limit, len(derivation))
    outcome, number, rows, made = run_rows(sizes, rows, capacity(len(sizes), len(table)), most_steps)
    return Ran(outcome, number, len(made), empty_weight(rows),
               table_words(sizes, rows, len(table)), made + list(derivation[len(made):]))


def run_rows(sizes, rows, most_rows, most_steps):
    """Outcome, number, rows left and step words of a run."""
    made = []
    lowest = 0
    while True:
        pair = next_pair(sizes, rows, lowest)
        if pair is None:
            return DONE, GOOD, rows, made
        # The lowest unsettled variable. Both rows have no variable below it, so neither have the conclusions: the lower
        # buckets stay as they were, without a pair.
        lowest = pair.variable
        if len(made) == most_steps:
            return PAUSED, GOOD, rows, made
        try:
            rows = resolved_within(sizes, rows, pair, most_rows)
        except Refused as refusal:
            return REFUSED, refusal.number, rows, made
        made.append(words.step(*pair))
