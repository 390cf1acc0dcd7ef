"""The assignment rebuilt from a table in which no pair is left (document 01: plan), whole or with its last values fixed."""

from typing import NamedTuple

from .answers import BAD_FIXED, FORBIDDEN, GOOD, PAIR_LEFT, TARGET_TOO_SHORT, WEIGHT_TOO_HIGH, Refused, require
from .clauses import bucket_of, falsifies, full
from .inputs import in_range
from .limits import FORBIDDEN_WEIGHT, MAX_WEIGHT
from .resolution import next_pair
from .tables import empty_weight, read_table


class Planned(NamedTuple):
    number: int
    target: list


class Completed(NamedTuple):
    number: int
    cost: int
    target: list


def falsified_weight(rows, k, fixed):
    """The weight of the rows without variables below k that the values of the variables from k on falsify."""
    return sum(row.weight for row in rows if not any(row.signs[:k]) and falsifies(fixed, row.signs[k:]))


def rebuilt(sizes, rows, fixed=()):
    """The values from the last variable down (document 01: plan rule); the last ones may be fixed."""
    values = list(fixed)
    for variable in reversed(range(len(sizes) - len(values))):
        values.insert(0, chosen_value(sizes, rows, variable, values))
    return values


def chosen_value(sizes, rows, variable, higher):
    """The lowest value in the signs of all rows of the bucket that the values of the higher variables falsify.

    There is one: where no pair is left, these signs are nested.
    """
    common = full(sizes[variable])
    for row in rows:
        if bucket_of(row.signs) == variable and falsifies(higher, row.signs[variable + 1:]):
            common &= row.signs[variable]
    return min(value for value in range(sizes[variable]) if common >> value & 1)


def plan_call(table, target):
    """Writes the rebuilt assignment to the front of the target, one byte for each variable, unless all are forbidden."""
    try:
        sizes, rows = read_table(table)
        require(len(target) >= len(sizes), TARGET_TOO_SHORT)
        require(next_pair(sizes, rows) is None, PAIR_LEFT)
        # No assignment costs less than the empty row weighs.
        require(empty_weight(rows) < FORBIDDEN_WEIGHT, FORBIDDEN)
    except Refused as refusal:
        return Planned(refusal.number, list(target))
    return Planned(GOOD, rebuilt(sizes, rows) + list(target[len(sizes):]))


def complete_call(table, k, fixed, target):
    """Writes the assignment with these values of the variables from k on and all others rebuilt; the answer is its cost."""
    try:
        sizes, rows = read_table(table)
        require(len(target) >= len(sizes), TARGET_TOO_SHORT)
        require(k <= len(sizes) and in_range(sizes[k:], fixed), BAD_FIXED)
        require(next_pair(sizes, rows) is None, PAIR_LEFT)
        cost = falsified_weight(rows, k, fixed)
        require(cost <= MAX_WEIGHT, WEIGHT_TOO_HIGH)
    except Refused as refusal:
        return Completed(refusal.number, 0, list(target))
    return Completed(GOOD, cost, rebuilt(sizes, rows, fixed) + list(target[len(sizes):]))
