"""The tables that are converted: half-resolved ones, rows of every kind of weight, none, as many as there may be, and those of no
stations."""

import random
from typing import NamedTuple

from reference import step_call
from reference.fields import forbidden, instance, settled_rows, table_length
from reference.forms import FIVE, SIX
from reference.limits import FIVE_MAX_WEIGHT, FORBIDDEN_WEIGHT, MAX_ROWS, MAX_WEIGHT
from reference.steps import STEPPED
from reference.tables import Row, encode, read_table, table_words

TWELVE = (8,) * 12
FIELDS = [
    ([2, 2], [([(0, 0)], 3), ([(1, 1)], 4), ([(0, 1), (1, 0)], 5)]),
    ([3, 2, 2], [([(0, 0), (1, 1)], 7), ([(0, 1)], 2), ([(1, 0), (2, 1)], 9), ([(2, 0)], 1), ([], 6), forbidden((0, 2), (2, 1))]),
    ([4, 3], [([(0, value)], 1 + value) for value in range(4)] + [([(0, value), (1, 2)], 8) for value in range(4)]),
]


class Source(NamedTuple):
    name: str
    sizes: tuple
    rows: list

    def words(self, form, spare=0):
        """The words of its table in this form, with so many past the rows."""
        return table_words(self.sizes, self.rows, table_length(len(self.sizes), len(self.rows), spare, form), form)

    def narrow(self):
        """Whether its rows can have five words."""
        return all(row.weight <= FIVE_MAX_WEIGHT for row in self.rows)


def half_resolved(number, field):
    """The tables of a field after its encoding and after each step."""
    sizes, entries = field
    words = encode(instance(sizes, entries), [0] * table_length(len(sizes), 200)).table
    steps, outcome = 0, STEPPED
    while outcome == STEPPED:
        yield Source(f"field {number} after {steps} steps", *read_table(words))
        outcome, _, _, words = step_call(words)
        steps += 1


def random_source(chance, number):
    sizes = tuple(chance.randint(1, 8) for _ in range(chance.randint(1, 12)))
    signs = {tuple(chance.randrange((1 << size) - 1) for size in sizes) for _ in range(chance.randint(0, 9))}
    weights = [1, 65_535, FORBIDDEN_WEIGHT, FIVE_MAX_WEIGHT]
    return Source(f"random {number}", sizes, [Row(row, chance.choice(weights)) for row in sorted(signs)])


def all_sources():
    chance = random.Random(2024)
    for number, field in enumerate(FIELDS):
        yield from half_resolved(number, field)
    yield from (random_source(chance, number) for number in range(20))
    yield Source("no rows", (3, 1), [])
    for weight in (FIVE_MAX_WEIGHT, FIVE_MAX_WEIGHT + 1, 1 << 32, MAX_WEIGHT):
        yield Source(f"weight {weight}", (4, 2), [Row((1, 0), 5), Row((0, 1), weight)])
    yield Source("no stations", (), [])
    for weight in (7, FIVE_MAX_WEIGHT, FIVE_MAX_WEIGHT + 1):
        yield Source(f"no stations, weight {weight}", (), [Row((), weight)])
    yield most_rows()


def most_rows():
    return Source("4,096 rows", TWELVE, settled_rows([1 + at for at in range(MAX_ROWS)]))


def forms_of(source):
    """The forms that a source's rows can have, each with the other."""
    return [(FIVE, SIX), (SIX, FIVE)] if source.narrow() else [(SIX, FIVE)]
