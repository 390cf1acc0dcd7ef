"""Steps in valid tables that need not come from an instance, held against the plain reading."""

import random

from reference import step_call
from reference.fields import table_length
from reference.limits import MAX_WEIGHT, ROW_WORDS
from reference.tables import Row, table_words

from .support import Comparison


# Mostly small ones; those around the limit of a weight; and those around the limit of its low word.
WEIGHTS = [[1, 2, 3, 7]] * 3 + [[MAX_WEIGHT, MAX_WEIGHT - 5, 3], [(1 << 28) - 1, 1 << 28, (1 << 28) + 1, 1, 5 << 28]]


def random_table(rng):
    sizes = [rng.randint(2, 4) for _ in range(rng.randint(0, 4))]
    signs = {tuple(rng.randrange((1 << size) - 1) for size in sizes) for _ in range(rng.randint(1, 6))}
    weights = rng.choice(WEIGHTS)
    rows = [Row(clause, rng.choice(weights)) for clause in sorted(signs)]
    rng.shuffle(rows)
    length = table_length(len(sizes), len(rows) + rng.choice([0, 1, 2, 30]), rng.randrange(ROW_WORDS))
    return table_words(sizes, rows, length)


class RandomTables(Comparison):
    def test_random_tables(self):
        rng = random.Random(2)
        numbers = {0: 0, 11: 0, 12: 0}
        for _ in range(500):
            table = random_table(rng)
            for _ in range(4):
                answer = step_call(table)
                self.same_step(table, answer)
                numbers[answer.number] += 1
                if answer.outcome != "stepped":
                    self.assertEqual(answer.table, table)
                table = answer.table
        self.assertTrue(all(count >= 20 for count in numbers.values()), numbers)
