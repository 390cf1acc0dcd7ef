"""What a derivation, the step words since the encoding of an instance, comes to on its way; and others than the planner's."""

from itertools import combinations

from . import words
from .checker import named_pair
from .inputs import read_instance
from .resolution import Pair, buckets, permitted, resolve
from .tables import encoded


def most_rows(instance, derivation):
    """The most rows that it ever had, from the encoding on, after finished steps alone."""
    read = read_instance(instance)
    rows = encoded(read)
    totals = [len(rows)]
    for taken in derivation:
        rows = resolve(read.sizes, rows, named_pair(read.sizes, rows, taken))
        totals.append(len(rows))
    return max(totals)


def ended_otherwise(instance, choose):
    """A derivation after which no pair is left, and the rows then: each step is on the lowest unsettled variable, as the planner's
    are, but `choose` takes the pair from the list of all that the rows of its bucket have."""
    read = read_instance(instance)
    rows, derivation = encoded(read), []
    pairs = next_pairs(read.sizes, rows)
    while pairs:
        taken = choose(pairs)
        rows = resolve(read.sizes, rows, taken)
        derivation.append(words.step(*taken))
        pairs = next_pairs(read.sizes, rows)
    return derivation, rows


def next_pairs(sizes, rows):
    """The pairs of the lowest unsettled variable, the planner's next first; none where no pair is left."""
    for variable, members in enumerate(buckets(sizes, rows)):
        pairs = [Pair(variable, first, second) for first, second in combinations(members, 2)
                 if permitted(sizes, variable, rows[first].signs, rows[second].signs)]
        if pairs:
            return pairs
    return []
