"""Runs: their outcomes in the order in which they are tested, the step words, what a stopped run leaves, and the lowest
unsettled variable on the way."""

import random
import unittest

from reference import encode, run_call, step_call, words
from reference.fields import instance, table, table_length
from reference.limits import MAX_WEIGHT
from reference.resolution import Pair, lowest_unsettled, next_pair, resolve
from reference.tables import Row, read_table

from .support import random_field
from .test_random_tables import random_table

STEP = words.step(0, 0, 1)


class Runs(unittest.TestCase):
    # P2 with a constant cost of 5 behind it; the empty row stays behind the rows of the variable until they go.
    START = table([3], "6:2 5:1 3:4 empty:5", 40)
    FIRST = table([3], "6:1 3:4 empty:5 4:1", 40)
    SECOND = table([3], "3:3 empty:5 4:1 2:1", 40)
    END = table([3], "3:2 empty:6 2:1", 40)
    # Rows 0 and 2 at the last step: the empty row stands between them.
    LAST = words.step(0, 0, 2)

    def test_to_the_end(self):
        self.assertEqual(run_call(self.START, 100, [7] * 5),
                         ("done", 0, 3, 6, self.END, [STEP, STEP, self.LAST, 7, 7]))

    def test_done_comes_before_paused(self):
        self.assertEqual(run_call(self.START, 3, [7] * 3),
                         ("done", 0, 3, 6, self.END, [STEP, STEP, self.LAST]))

    def test_limit(self):
        self.assertEqual(run_call(self.START, 2, [7] * 5), ("paused", 0, 2, 5, self.SECOND, [STEP, STEP, 7, 7, 7]))
        self.assertEqual(run_call(self.START, 1, [7] * 5), ("paused", 0, 1, 5, self.FIRST, [STEP, 7, 7, 7, 7]))

    def test_short_slice(self):
        self.assertEqual(run_call(self.START, 100, [7] * 2), ("paused", 0, 2, 5, self.SECOND, [STEP, STEP]))

    def test_limit_0_or_empty_slice(self):
        self.assertEqual(run_call(self.START, 0, [7, 7]), ("paused", 0, 0, 5, self.START, [7, 7]))
        self.assertEqual(run_call(self.START, 100, []), ("paused", 0, 0, 5, self.START, []))
        self.assertEqual(run_call(self.END, 0, [7, 7]), ("done", 0, 0, 6, self.END, [7, 7]))
        self.assertEqual(run_call(self.END, 100, []), ("done", 0, 0, 6, self.END, []))
        self.assertEqual(run_call(self.END, 0, []), ("done", 0, 0, 6, self.END, []))

    def test_going_on(self):
        self.assertEqual(run_call(self.SECOND, 100, [7] * 2), ("done", 0, 1, 6, self.END, [self.LAST, 7]))
        self.assertEqual(step_call(self.SECOND), ("stepped", 0, self.LAST, self.END))

    def test_no_empty_row(self):
        source = table([3], "6:2", 20)
        self.assertEqual(run_call(source, 5, [7]), ("done", 0, 0, 0, source, [7]))

    def test_unusual_lengths(self):
        for cut in range(1, 14):
            self.assertEqual(run_call(self.START[:-cut], 2 ** 40, [7] * 4),
                             ("done", 0, 3, 6, self.END[:-cut], [STEP, STEP, self.LAST, 7]))


class StoppedRuns(unittest.TestCase):
    def test_full_keeps_its_steps(self):
        # 5 and 10 leave only the empty row: 10:1 3:3 empty:1.  Then 10 and 3 would leave 3, the empty row, 2 and 11.
        length = table_length(1, 3, 5)
        before = table([4], "5:1 10:2 3:3", length)
        after = table([4], "10:1 3:3 empty:1", length)
        self.assertEqual(run_call(before, 9, [7] * 4), ("refused", 12, 1, 1, after, [STEP, 7, 7, 7]))
        self.assertEqual(run_call(after, 9, [7] * 4), ("refused", 12, 0, 1, after, [7] * 4))

    def test_full_at_once(self):
        before = table([2, 2], "empty:4 2,0:2 1,2:1", table_length(2, 3))
        self.assertEqual(run_call(before, 9, [7]), ("refused", 12, 0, 4, before, [7]))

    def test_weight_keeps_its_steps(self):
        # As above, with the row 2 at its limit: the second step would add to it.
        before = table([4], f"5:1 10:2 3:3 2:{MAX_WEIGHT}", 40)
        after = table([4], f"10:1 3:3 2:{MAX_WEIGHT} empty:1", 40)
        self.assertEqual(run_call(before, 9, [7] * 4), ("refused", 11, 1, 1, after, [STEP, 7, 7, 7]))

    def test_paused_comes_before_full(self):
        length = table_length(1, 3)
        before = table([4], "5:1 10:2 3:3", length)
        after = table([4], "10:1 3:3 empty:1", length)
        self.assertEqual(run_call(before, 1, [7] * 4), ("paused", 0, 1, 1, after, [STEP, 7, 7, 7]))
        self.assertEqual(run_call(before, 9, [7]), ("paused", 0, 1, 1, after, [STEP]))

    def test_bad_table(self):
        source = [words.head(1), words.size(2)]
        self.assertEqual(run_call(source, 0, []), ("refused", 9, 0, 0, source, []))


def with_lower_rows(rows, first, other):
    """The rows, with another in place of each whose bucket is below `first`."""
    return [other() if any(row.signs[:first]) else row for row in rows]


def no_row(sizes):
    return Row((0,) * len(sizes), 0)


def lower_row(rng, sizes, first):
    """Some row, valid or not, whose bucket is below `first`; it may go with others of its like."""
    signs = [rng.randrange((1 << size) - 1) for size in sizes]
    if not any(signs[:first]):
        signs[rng.randrange(first)] = 1
    return Row(tuple(signs), rng.randint(1, 9))


class LowestUnsettled(unittest.TestCase):
    def along(self, source, limit):
        """The lowest unsettled variable before each step of a run and after the last, each hunted from variable 0 on."""
        sizes, rows = read_table(source)
        ran = run_call(source, limit, [7] * limit)
        values = [lowest_unsettled(sizes, rows)]
        for word in ran.derivation[:ran.steps]:
            pair = Pair(*words.step_of(word))
            self.assertEqual(pair.variable, values[-1])
            self.same_hunts(sizes, rows, pair)
            rows = resolve(sizes, rows, pair)
            values.append(lowest_unsettled(sizes, rows))
        self.assertEqual(rows, read_table(ran.table).rows)
        self.assertEqual(values, sorted(values))
        self.assertEqual(values[-1] == len(sizes), ran.outcome == "done")
        self.same_hunts(sizes, rows, next_pair(sizes, rows))
        return values

    def same_hunts(self, sizes, rows, pair):
        """A hunt from any variable up to the lowest unsettled one finds this pair, whatever rows of lower buckets there are."""
        rng = random.Random(len(rows))
        for first in range(lowest_unsettled(sizes, rows) + 1):
            emptied = with_lower_rows(rows, first, lambda: no_row(sizes))
            exchanged = with_lower_rows(rows, first, lambda: lower_row(rng, sizes, first))
            for hunted in (rows, emptied, exchanged):
                self.assertEqual(next_pair(sizes, hunted, first), pair)

    def test_one_variable(self):
        self.assertEqual(self.along(Runs.START, 100), [0, 0, 0, 1])
        self.assertEqual(self.along(Runs.START, 2), [0, 0, 0])
        self.assertEqual(self.along(Runs.END, 2), [1])

    def test_settled_from_the_start(self):
        # The rows of variable 0 go with none: their signs are nested, or the union is full at variable 1, which has one row.
        source = table([3, 2, 3, 3], "1,1,0,0:1 3,0,0,0:1 2,2,0,0:1 0,1,0,0:1 0,0,1,0:1 0,0,2,0:1 0,0,0,1:1 0,0,0,6:2", 90)
        self.assertEqual(self.along(source, 100), [2, 3, 4])

    def test_no_bucket_is_skipped(self):
        # Variable 1 has a pair only after the step on variable 0 has made its second row.
        self.assertEqual(self.along(table([2, 2], "2,0:1 1,2:1 0,1:1", 40), 100), [0, 1, 2])

    def test_random_tables(self):
        rng = random.Random(6)
        seen = [self.along(random_table(rng), 60) for _ in range(500)]
        self.assertGreater(sum(values[0] > 0 for values in seen), 100)

    def test_random_fields(self):
        rng = random.Random(7)
        seen = [self.along(encode(instance(*random_field(rng)), [0] * 1_000).table, 60) for _ in range(400)]
        self.assertGreater(sum(len(set(values)) > 2 for values in seen), 60)
