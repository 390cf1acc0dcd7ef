"""What several test files share: fields, sheets, costs by definition, and comparisons with the plain reading."""

import unittest
from itertools import product

from reference import complete_call, words
from reference.fields import as_bytes, sheet
from reference.limits import FORBIDDEN_WEIGHT
from reference.tables import capacity, read_table

from .plain import plain_answer, plain_completion, plain_rows, value_set

COSTS = [0, 1, 1, 2, 3, 5, 9, 65_535, FORBIDDEN_WEIGHT]

# Document 01's worked example as little-endian words.
EXAMPLE = bytes.fromhex("02000010" "01000020" "00000080" "00000090"
                        "02000020" "2c010080" "90010090" "58020080" "20030090"
                        "00010030" "09000040")
HERE = (0, 0)
# P2 with a constant cost of 5 in front of it.
CONSTANT_FIRST = as_bytes(sheet([[HERE] * 3], [([], 5), ([(0, 0)], 2), ([(0, 1)], 1), ([(0, 2)], 4)]))
# The checker's field, all legs 0 m: four rows, four after the first step, five after the second.
GROWING = as_bytes(sheet([[HERE] * 2] * 3, [([(0, 0)], 2), ([(0, 1)], 1), ([(1, 0)], 2), ([(1, 1), (2, 0)], 1)]))
# Ten words of places, 3,997 entries of four words and one of two: 16,000; the instance has as many, since two legs
# take the room of six coordinates.
LONGEST = as_bytes(sheet([[HERE]] * 3, [([(0, 0), (1, 0), (2, 0)], 1)] * 3_997 + [([(0, 0)], 1)]))


def filler_rows(count):
    """So many rows of the second and third variable of three with sizes 4, 8 and 8, each with other signs."""
    return " ".join(f"0,{1 + at // 254},{1 + at % 254}:1" for at in range(count))


def random_field(rng):
    """Sizes and entries of a field with at most 64 assignments; one without variables has constant costs alone."""
    sizes = [rng.randint(1, 4) for _ in range(rng.randint(0, 3))]
    entries = []
    for _ in range(rng.randint(0, 8 * max(1, len(sizes)))):
        bound = [variable for variable in range(len(sizes)) if rng.random() < 0.6]
        entries.append(([(variable, rng.randrange(sizes[variable])) for variable in bound], rng.choice(COSTS)))
    return sizes, entries


def cost_table(sizes, entries):
    """What every assignment pays, straight from the definition."""
    return {assignment: sum(cost for bindings, cost in entries if set(bindings) <= set(enumerate(assignment)))
            for assignment in assignments(sizes)}


def assignments(sizes):
    return product(*(range(size) for size in sizes))


def plain_falsified(rows, assignment):
    return sum(weight for signs, weight in rows
               if not any(value in value_set(sign) for value, sign in zip(assignment, signs)))


class Comparison(unittest.TestCase):
    def conserved(self, table, costs):
        """Every assignment falsifies what it pays; answers with the empty row's weight, which is no more."""
        rows = read_table(table).rows
        empty = sum(weight for signs, weight in rows if not any(signs))
        for assignment, cost in costs.items():
            self.assertEqual(plain_falsified(rows, assignment), cost)
            self.assertLessEqual(empty, cost)
        return empty

    def same_step(self, table, answer):
        """The step call's answer is that of the plain reading."""
        sizes, rows = read_table(table)
        number, pair, after = plain_answer(sizes, rows, capacity(len(sizes), len(table)))
        self.assertEqual(answer.number, number)
        self.assertEqual(answer.outcome, "refused" if number else "stepped" if pair else "done")
        self.assertEqual(answer.word, words.step(*pair) if pair and not number else 0)
        self.assertEqual(plain_rows(read_table(answer.table).rows), after)

    def completed(self, table, costs):
        """In a table with no pair left, any last values are completed by the plain reading, and at the least cost that an
        assignment with these values has; answers with how many there are."""
        sizes, rows = read_table(table)
        domains, count = [frozenset(range(size)) for size in sizes], len(sizes)
        tails = {(k, assignment[k:]) for assignment in costs for k in range(count + 1)}
        for k, fixed in tails:
            cost, assignment = plain_completion(domains, plain_rows(rows), fixed)
            self.assertEqual(complete_call(table, k, list(fixed), [9] * (count + 1)), (0, cost, assignment + [9]))
            self.assertEqual(cost, min(paid for other, paid in costs.items() if other[k:] == fixed))
            self.assertEqual((tuple(assignment[k:]), costs[tuple(assignment)]), (fixed, cost))
        return len(tails)
