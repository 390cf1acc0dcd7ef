"""Assignments completed from fixed last values: worked out by hand, refused in order, and in tables of random rows."""

import random
import unittest
from itertools import product

from reference import complete_call, plan_call, step_call
from reference.fields import HEAVY_ROWS, settled_rows, table, table_length
from reference.limits import FORBIDDEN_WEIGHT, MAX_WEIGHT
from reference.tables import read_table, table_words

from .support import Comparison, plain_falsified
from .test_random_tables import random_table

HUGE = (1 << 64) - 1


class Given(unittest.TestCase):
    def gives(self, sizes, rows, fixed, cost, assignment):
        """The fixed values are those of the last variables; a longer target keeps its rest."""
        k = len(sizes) - len(fixed)
        for rest in ([], [255] * 3):
            self.assertEqual(complete_call(table(sizes, rows, 90), k, fixed, [255] * len(sizes) + rest),
                             (0, cost, assignment + rest))


class Completions(Given):
    def test_p3(self):
        # The spots cost 2 as (0,0), 1 as (1,0), else nothing.
        for fixed, cost, assignment in [
                ([], 0, [0, 1]), ([0], 1, [1, 0]), ([1], 0, [0, 1]),
                ([0, 0], 2, [0, 0]), ([1, 0], 1, [1, 0]), ([0, 1], 0, [0, 1]), ([1, 1], 0, [1, 1])]:
            self.gives([2, 2], "2,2:1 0,2:1", fixed, cost, assignment)

    def test_p4(self):
        # Spot 0 of station 0 costs 1, and so do the spots (1,0).
        for fixed, cost, assignment in [
                ([], 0, [1, 1]), ([0], 1, [0, 0]), ([1], 0, [1, 1]),
                ([0, 0], 1, [0, 0]), ([1, 0], 1, [1, 0]), ([0, 1], 1, [0, 1]), ([1, 1], 0, [1, 1])]:
            self.gives([2, 2], "0,2:1 2,1:1", fixed, cost, assignment)

    def test_no_row(self):
        self.gives([3, 1, 8], "", [], 0, [0, 0, 0])
        self.gives([3, 1, 8], "", [0, 7], 0, [0, 0, 7])

    def test_the_empty_row_always_counts(self):
        for fixed in ([], [1], [1, 2], [2, 1, 2]):
            self.gives([3, 2, 4], "empty:9", fixed, 9, [0] * (3 - len(fixed)) + fixed)

    def test_falsified_rows_add_up(self):
        # The value 0 lies in every sign, 2 in the sign 7 alone, 3 in none.
        for value, cost in enumerate([1, 11, 111, 1_111]):
            self.gives([2, 4], "0,1:10 0,3:100 empty:1 0,7:1000", [value], cost, [0, value])

    def test_rows_below_k_cost_nothing(self):
        # Both rows of the first variable are falsified at the second; it gets the value that satisfies them.
        self.gives([3, 2], "6,2:5 4,0:3 0,2:7", [0], 7, [2, 0])

    def test_every_k_of_twelve_variables(self):
        # A row belongs to each variable and has the last one, too: with 0 there, those of the fixed ones are falsified.
        rows = [",".join("2" if variable in (lowest, 11) else "0" for variable in range(12)) + f":{1 << lowest}"
                for lowest in range(12)]
        for k in range(12):
            fixed = [0] * (12 - k)
            self.gives([2] * 12, " ".join(rows), fixed, sum(1 << lowest for lowest in range(k, 12)), [1] * k + fixed)
        self.gives([2] * 12, " ".join(rows), [], 0, [0] * 11 + [1])

    def test_satisfied_rows_do_not_narrow(self):
        # With 0 behind it, 4,1 is satisfied and 6,2 counts; with 1 behind it, the other way round.
        self.gives([3, 2], "4,1:1 6,2:1", [0], 0, [1, 0])
        self.gives([3, 2], "4,1:1 6,2:1", [1], 0, [2, 1])

    def test_values_that_the_plan_would_not_take(self):
        self.assertEqual(plan_call(table([3, 4], "0,8:2 2,7:1", 20), [9] * 2), (0, [1, 3]))
        self.gives([3, 4], "0,8:2 2,7:1", [0], 2, [0, 0])

    def test_rebuilt_values_count_below_them(self):
        # The third variable is fixed at 0, so the row 0,2,2 gives the second the value 1; then 4,1,0 gives the first 2.
        self.gives([3, 2, 2], "0,2,2:1 4,1,0:1 2,2,0:1", [0], 0, [2, 1, 0])
        # At 1 it satisfies 0,2,2: the second gets 0, and 2,2,0 gives the first 1.
        self.gives([3, 2, 2], "0,2,2:1 4,1,0:1 2,2,0:1", [1], 0, [1, 0, 1])

    def test_all_fixed_is_the_falsified_weight(self):
        self.gives([3, 2], "4,1:1 6,2:2 0,2:4 empty:8", [0, 0], 14, [0, 0])
        self.gives([3, 2], "4,1:1 6,2:2 0,2:4 empty:8", [1, 1], 9, [1, 1])

    def test_none_fixed_is_the_plan(self):
        source = table([3, 2, 2], "4,2,1:1 2,2,2:1 1,1,1:1 0,0,2:1 empty:6", 50)
        self.assertEqual(plan_call(source, [9] * 4), (0, [2, 0, 1, 9]))
        self.assertEqual(complete_call(source, 3, [], [9] * 4), (0, 6, [2, 0, 1, 9]))


class Forbidden(Given):
    """An empty row as heavy as a forbidden entry: there is no plan, but any completion, with its cost."""

    def test_k_is_the_number_of_variables(self):
        for weight in [FORBIDDEN_WEIGHT - 1, FORBIDDEN_WEIGHT, 1 << 28, (1 << 28) + 1, 1 << 32, MAX_WEIGHT]:
            source = table([3, 2], f"4,1:1 0,2:1 empty:{weight}", 30)
            self.assertEqual(plan_call(source, [9] * 2).number, 0 if weight < FORBIDDEN_WEIGHT else 15)
            self.assertEqual(complete_call(source, 2, [], [9] * 3), (0, weight, [2, 1, 9]))

    def test_every_other_k(self):
        for weight in [FORBIDDEN_WEIGHT, 1 << 28, MAX_WEIGHT - 1]:
            for fixed, more, assignment in [([0], 1, [0, 0]), ([1], 0, [2, 1]), ([0, 0], 1, [0, 0]), ([0, 1], 1, [0, 1])]:
                self.gives([3, 2], f"4,1:1 0,2:1 empty:{weight}", fixed, weight + more, assignment)

    def test_weights_of_two_words_add_up(self):
        # The value 0 lies in no sign, 1 in the first, 2 in both.
        rows = f"0,6:{(1 << 28) - 1} 0,4:{(1 << 28) - 1} empty:2"
        for value, cost in enumerate([1 << 29, (1 << 28) + 1, 2]):
            self.gives([2, 3], rows, [value], cost, [0, value])


class Refusals(unittest.TestCase):
    """Tables of two variables: settled, with a pair left, with rows whose weights pass the greatest, and no valid one."""

    settled = table([3, 2], "4,1:1 0,2:1", 20)
    unsettled = table([3, 2], "4,0:1 2,0:1", 20)
    heavy = table([3, 2], f"0,2:{MAX_WEIGHT} empty:1", 20)
    heavy_unsettled = table([3, 2], f"4,0:1 2,0:1 0,2:{MAX_WEIGHT} empty:1", 30)
    invalid = table([3, 2], "4,3:1 0,2:1", 20)

    def refuses(self, number, source, k, fixed, target):
        self.assertEqual(complete_call(source, k, fixed, target), (number, 0, target))

    def test_bad_table_first(self):
        for k, fixed, target in [(1, [0], [9] * 2), (1, [0], [9]), (3, [0], [9] * 2), (HUGE, [255], [])]:
            self.refuses(9, self.invalid, k, fixed, target)
            self.refuses(9, [], k, fixed, target)

    def test_short_target_before_fixed_values(self):
        for target in ([], [9]):
            for k, fixed in [(1, [0]), (3, []), (HUGE, []), (1, []), (1, [0, 0]), (1, [2])]:
                for source in (self.settled, self.unsettled, self.heavy, self.heavy_unsettled):
                    self.refuses(10, source, k, fixed, target)

    def test_fixed_values_before_a_pair(self):
        for source in (self.unsettled, self.heavy, self.heavy_unsettled):
            self.refuses(14, source, 3, [], [9] * 2)
            self.refuses(14, source, 1, [2], [9] * 2)

    def test_a_pair_before_the_weight(self):
        for source in (self.unsettled, self.heavy_unsettled):
            self.refuses(13, source, 1, [0], [9] * 3)
            self.refuses(13, source, 2, [], [9] * 2)
        self.refuses(11, self.heavy, 1, [0], [9] * 3)

    def test_k_above_the_variables(self):
        for k in (3, 4, 12, 255, 1 << 32, HUGE):
            for fixed in ([], [0], [0, 0]):
                self.refuses(14, self.settled, k, fixed, [9] * 4)

    def test_too_few_or_too_many_fixed(self):
        for k, count in product(range(3), range(5)):
            if count != 2 - k:
                self.refuses(14, self.settled, k, [0] * count, [9] * 2)

    def test_fixed_out_of_range(self):
        for k, fixed in [(1, [2]), (1, [255]), (0, [3, 0]), (0, [255, 0]), (0, [0, 2]), (0, [2, 2]), (0, [3, 2])]:
            self.refuses(14, self.settled, k, fixed, [9] * 2)
        for k, fixed in [(1, [1]), (0, [2, 1])]:
            self.assertEqual(complete_call(self.settled, k, fixed, [9] * 2).number, 0)

    def test_each_fixed_value_has_its_own_range(self):
        sizes = [8, 1, 3, 2]
        for k in range(5):
            good = [size - 1 for size in sizes[k:]]
            self.assertEqual(complete_call(table(sizes, "", 10), k, good, [9] * 4), (0, 0, [0] * k + good))
            for at in range(4 - k):
                self.refuses(14, table(sizes, "", 10), k, good[:at] + [good[at] + 1] + good[at + 1:], [9] * 4)

    def test_the_greatest_cost(self):
        # The value 0 of the second variable falsifies both rows, the value 1 the empty one alone.
        for second, number in [(MAX_WEIGHT - 2, 0), (MAX_WEIGHT - 1, 0), (MAX_WEIGHT, 11)]:
            source = table([3, 2], f"0,2:{second} empty:1", 20)
            self.assertEqual(complete_call(source, 1, [0], [9] * 3),
                             (11, 0, [9] * 3) if number else (0, second + 1, [0, 0, 9]))
            self.assertEqual(complete_call(source, 1, [1], [9] * 3), (0, 1, [0, 1, 9]))
            self.assertEqual(complete_call(source, 2, [], [9] * 3), (0, 1, [0, 1, 9]))

    def test_nested_rows_of_the_greatest_weight(self):
        # Of the signs 254, 252 and so on down to 128, each value lies in as many as there are values below it.
        source = table([8, 8], " ".join(f"0,{255 & 255 << at}:{MAX_WEIGHT}" for at in range(1, 8)), 60)
        self.assertEqual(complete_call(source, 1, [7], [9] * 2), (0, 0, [0, 7]))
        self.assertEqual(complete_call(source, 1, [6], [9] * 2), (0, MAX_WEIGHT, [0, 6]))
        for value in range(6):
            self.refuses(11, source, 1, [value], [9] * 2)

    def test_as_many_rows_as_there_may_be(self):
        # 512 rows belong to each of the first eight variables, and zeros falsify all of them; 4,096 times 1 << 52 is 1 << 64.
        costs = [4_096, MAX_WEIGHT] + [None] * (len(HEAVY_ROWS) - 1)
        for (first, other), cost in zip([(1, 1)] + HEAVY_ROWS, costs):
            source = table_words([8] * 12, settled_rows([first] + [other] * 4_095), table_length(12, 4_096))
            self.assertEqual(complete_call(source, 0, [0] * 12, [9] * 12),
                             (11, 0, [9] * 12) if cost is None else (0, cost, [0] * 12))
            self.assertEqual(complete_call(source, 8, [0] * 4, [9] * 12), (0, 0, [1] * 8 + [0] * 4))


class RandomTables(Comparison):
    def test_random_tables(self):
        rng = random.Random(5)
        completed = tables = 0
        while tables < 150:
            source = random_table(rng)
            sizes, rows = read_table(source)
            if step_call(source).outcome == "done" and sum(row.weight for row in rows) <= MAX_WEIGHT:
                costs = {assignment: plain_falsified(rows, assignment)
                         for assignment in product(*(range(size) for size in sizes))}
                completed += self.completed(source, costs)
                tables += 1
        self.assertGreater(completed, 3_000)
