"""The resolution rule on rows: which pairs may be resolved, which one is next, and what a step makes of the rows."""

from itertools import combinations
from typing import NamedTuple

from .answers import TABLE_FULL, WEIGHT_TOO_HIGH, require
from .clauses import bucket_of, complement, full, joined, replaced
from .limits import MAX_WEIGHT
from .tables import Row, added


class Pair(NamedTuple):
    """Two rows to be resolved on a variable that both have."""
    variable: int
    first: int
    second: int


def permitted(sizes, variable, clause, other):
    """Whether two clauses may be resolved on this variable."""
    meet = clause[variable] & other[variable]
    # An absent sign is 0, which every sign contains; so both are present where neither contains the other.
    if meet == clause[variable] or meet == other[variable]:
        return False
    for place, size in enumerate(sizes):
        if place != variable and clause[place] and other[place]:
            if clause[place] | other[place] == full(size):
                return False
    return True


def buckets(sizes, rows):
    """For each variable the numbers, rising, of the rows whose lowest present variable it is."""
    members = [[] for _ in sizes]
    for index, row in enumerate(rows):
        lowest = bucket_of(row.signs)
        if lowest is not None:
            members[lowest].append(index)
    return members


def next_pair(sizes, rows, lowest=0):
    """The next pair, or None if no pair is left.

    The buckets below `lowest` are passed over: it is the next pair where they have none.
    """
    members = buckets(sizes, rows)
    for variable in range(lowest, len(sizes)):
        for first, second in combinations(members[variable], 2):
            if permitted(sizes, variable, rows[first].signs, rows[second].signs):
                return Pair(variable, first, second)
    return None


def lowest_unsettled(sizes, rows):
    """The variable of the next pair, hunted from variable 0 on; the number of variables where no pair is left."""
    pair = next_pair(sizes, rows)
    return len(sizes) if pair is None else pair.variable


def excluding(sizes, variable, clause, other):
    """For each literal of the other clause but that of the variable, rising: the clause, joined with the literals
    before it and with the literal complemented (document 01: groups 3 and 4)."""
    made = []
    for place, sign in enumerate(other):
        if place != variable and sign:
            opposite = clause[place] | complement(sizes[place], sign)
            made.append(replaced(clause, place, opposite))
            clause = replaced(clause, place, clause[place] | sign)
    return made


def conclusions(sizes, variable, clause, other):
    """The clauses that replace the two, in the order in which they are added (document 01: groups 1 to 4)."""
    union = joined(clause, other)
    meet = replaced(union, variable, clause[variable] & other[variable])
    return ([meet, union]
            + excluding(sizes, variable, clause, other)
            + excluding(sizes, variable, other, clause))


def resolve(sizes, rows, pair):
    """The rows after a step, with no regard to weight limit and capacity."""
    clause, other = rows[pair.first].signs, rows[pair.second].signs
    # The moved weight (document 01: u).
    moved = min(rows[pair.first].weight, rows[pair.second].weight)
    left = list(rows)
    for index in (pair.first, pair.second):
        left[index] = Row(rows[index].signs, rows[index].weight - moved)
    left = [row for row in left if row.weight > 0]
    made = conclusions(sizes, pair.variable, clause, other)
    return added(sizes, left, [(conclusion, moved) for conclusion in made])


def resolved_within(sizes, rows, pair, most_rows):
    """The rows after a step, or refusal 11 or 12; the step happens whole or not at all."""
    after = resolve(sizes, rows, pair)
    require(all(row.weight <= MAX_WEIGHT for row in after), WEIGHT_TOO_HIGH)
    require(len(after) <= most_rows, TABLE_FULL)
    return after
