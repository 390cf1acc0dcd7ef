"""The rebuilt assignment, worked out by hand from the plan rule."""

import unittest

from reference import encode, plan_call, run_call
from reference.fields import forbidden, instance, table
from reference.limits import FORBIDDEN_WEIGHT, MAX_WEIGHT


class Plans(unittest.TestCase):
    def gives(self, sizes, rows, assignment):
        self.assertEqual(plan_call(table(sizes, rows, 60), [255] * 6), (0, assignment + [255] * (6 - len(sizes))))

    def test_no_row(self):
        self.gives([3, 1, 8], "", [0, 0, 0])
        self.gives([3, 1, 8], "empty:9", [0, 0, 0])

    def test_lowest_of_several_values(self):
        self.gives([3], "6:1", [1])
        self.gives([8], "240:1", [4])
        self.gives([8], "5:1", [0])

    def test_value_in_every_sign(self):
        self.gives([4], "14:1 12:1", [2])
        self.gives([4], "8:1 12:1 14:1", [3])

    def test_satisfied_rows_do_not_count(self):
        # The second variable gets 0, which satisfies the row 4,1; only 6,2 counts.
        self.gives([3, 2], "4,1:1 6,2:1", [1, 0])

    def test_falsified_rows_count(self):
        # The second variable gets 1; now 4,1 counts and 6,2 does not.
        self.gives([3, 2], "4,1:1 6,2:1 0,2:1", [2, 1])

    def test_rows_of_other_buckets_do_not_count(self):
        # The row 0,2 says nothing on the first variable; the row 2,0 nothing on the second.
        self.gives([2, 2], "0,2:1 2,0:1", [1, 1])
        self.gives([2, 2], "0,2:1", [0, 1])
        self.gives([2, 2], "2,0:1", [1, 0])

    def test_all_higher_variables_matter(self):
        # The third variable gets 1, the second 0.  Of the rows of the first, 4,2,1 is falsified by both, 2,2,2 is
        # satisfied by the third, 1,1,1 by the second.
        self.gives([3, 2, 2], "4,2,1:1 2,2,2:1 1,1,1:1 0,0,2:1", [2, 0, 1])

    def test_exact_length(self):
        self.assertEqual(plan_call(table([2, 2], "0,2:1", 20), [9, 9]), (0, [0, 1]))

    def test_short_target(self):
        source = table([2, 2], "0,2:1", 20)
        self.assertEqual(plan_call(source, [9]), (10, [9]))
        self.assertEqual(plan_call(source, []), (10, []))

    def test_pair_left(self):
        source = table([2, 2], "0,2:1 0,1:1", 20)
        self.assertEqual(plan_call(source, [9, 9, 9]), (13, [9, 9, 9]))
        self.assertEqual(plan_call(source, [9]), (10, [9]))

    def test_bad_table_before_short_target(self):
        source = table([2, 2], "0,3:1 0,1:1", 20)
        self.assertEqual(plan_call(source, [9]), (9, [9]))
        self.assertEqual(plan_call([], []), (9, []))


class Forbidden(unittest.TestCase):
    """15 by the empty row's weight alone, after all else."""

    HEAVY = [FORBIDDEN_WEIGHT, FORBIDDEN_WEIGHT + 1, (1 << 28) - 1, 1 << 28, (1 << 28) + 1, 1 << 29, 1 << 32, 1 << 55, MAX_WEIGHT]

    def test_weight_of_the_empty_row(self):
        for weight in [1, 65_535, 268_431_359, 268_431_360]:
            self.assertEqual(plan_call(table([2, 2], f"empty:{weight} 0,2:1", 20), [9] * 3), (0, [0, 1, 9]))
        self.assertEqual(plan_call(table([2, 2], "empty:268431361 0,2:1", 20), [9] * 3), (15, [9] * 3))
        for weight in self.HEAVY:
            for rows in [f"empty:{weight} 0,2:1", f"0,2:1 empty:{weight}"]:
                self.assertEqual(plan_call(table([2, 2], rows, 20), [9] * 3), (15, [9] * 3))

    def test_other_heavy_rows(self):
        for weight in self.HEAVY:
            for rows in [f"0,2:{weight}", f"0,2:{weight} 2,0:{weight} empty:268431360", f"empty:1 0,2:{weight} 2,0:{MAX_WEIGHT}"]:
                self.assertEqual(plan_call(table([2, 2], rows, 25), [9] * 2).number, 0)

    def test_order(self):
        heavy = table([2, 2], "0,2:1 0,1:1 empty:268431361", 25)
        self.assertEqual(plan_call(heavy[:-1] + [1], [9]), (9, [9]))
        self.assertEqual(plan_call(heavy, [9]), (10, [9]))
        self.assertEqual(plan_call(heavy, [9, 9]), (13, [9, 9]))
        settled = table([2, 2], "0,2:1 empty:268431361", 25)
        self.assertEqual(plan_call(settled[:-1] + [1], [9, 9]), (9, [9, 9]))
        self.assertEqual(plan_call(settled, [9]), (10, [9]))
        self.assertEqual(plan_call(settled, [9, 9]), (15, [9, 9]))

    def planned(self, sizes, entries):
        """The plan call's number and target at the end of a field's run."""
        ran = run_call(encode(instance(sizes, entries), [0] * 200).table, 100, [0] * 100)
        return plan_call(ran.table, [9] * len(sizes))

    def test_fields(self):
        # Each spot of a station; each but one; a constant; and every pair of spots by itself.
        self.assertEqual(self.planned([2], [forbidden((0, 0)), forbidden((0, 1))]), (15, [9]))
        self.assertEqual(self.planned([3], [forbidden((0, 0)), forbidden((0, 2)), ([(0, 1)], 65_535)]), (0, [1]))
        self.assertEqual(self.planned([1, 2], [forbidden()]), (15, [9, 9]))
        self.assertEqual(self.planned([1, 2], [forbidden((0, 0))]), (15, [9, 9]))
        pairs = [forbidden((0, a), (1, b)) for a in range(2) for b in range(2)]
        self.assertEqual(self.planned([2, 2], pairs), (15, [9, 9]))
        self.assertEqual(self.planned([2, 2], pairs[:2] + pairs[3:]), (0, [1, 0]))

    def test_all_ordinary_costs_together(self):
        self.assertEqual(self.planned([1], [([], 65_535)] * 4_096), (0, [0]))
        self.assertEqual(self.planned([1], [([], 65_535)] * 4_095 + [forbidden()]), (15, [9]))
