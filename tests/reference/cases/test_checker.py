"""The checker: its order of tests, and the table and the count that it leaves."""

import unittest

from reference import check_call, words
from reference.checker import replay
from reference.fields import ROUND_COSTS, forbidden, high_cost, instance, rows, table, table_length
from reference.limits import FORBIDDEN_WEIGHT, MAX_WEIGHT
from reference.words import step


class Checker(unittest.TestCase):
    # The first step takes 1 from rows 0 and 1 and leaves the empty row.  The second, on variable 1, takes 1 from
    # rows 1 and 2; its group 1 is 0,0,2, its group 3 is 0,2,1 and its group 4 is without literals.
    SIZES = [2, 2, 2]
    SOURCE = instance(SIZES, [([(0, 0)], 2), ([(0, 1)], 1), ([(1, 0)], 2), ([(1, 1), (2, 0)], 1)])
    ENCODED = "2,0,0:2 1,0,0:1 0,2,0:2 0,1,2:1"
    FIRST = "2,0,0:1 0,2,0:2 0,1,2:1 empty:1"
    SECOND = "2,0,0:1 0,2,0:1 empty:1 0,0,2:1 0,2,1:1"
    STEPS = [step(0, 0, 1), step(1, 1, 2)]
    LENGTH = table_length(3, 5, 3)

    def check(self, derivation, assignment, claimed, length=LENGTH):
        return check_call(self.SOURCE, derivation, assignment, claimed, [7] * length)

    def left(self, text, length=LENGTH):
        return table(self.SIZES, text, length)

    def test_accepted(self):
        self.assertEqual(self.check(self.STEPS, [1, 1, 1], 1), (0, 2, self.left(self.SECOND)))

    def test_accepted_before_the_end(self):
        # After the first step the empty row weighs 1, which [1, 1, 1] costs; that a pair is left does not matter.
        self.assertEqual(self.check(self.STEPS[:1], [1, 1, 1], 1), (0, 1, self.left(self.FIRST)))

    def test_claims(self):
        for claimed in [0, 2, 2 ** 32 + 1]:
            self.assertEqual(self.check(self.STEPS, [1, 1, 1], claimed), (7, 2, self.left(self.SECOND)))
        # Its cost is 2, and the empty row weighs 1.
        for claimed in [1, 2]:
            self.assertEqual(self.check(self.STEPS, [0, 1, 1], claimed), (7, 2, self.left(self.SECOND)))
        # Its cost is 1, and the empty row weighs 0 before the first step.
        for claimed in [0, 1]:
            self.assertEqual(self.check([], [1, 1, 1], claimed), (7, 0, self.left(self.ENCODED)))

    def test_assignments(self):
        for assignment in [[], [1, 1], [1, 1, 1, 0], [1, 1, 2], [2, 1, 1], [255, 1, 1]]:
            self.assertEqual(self.check(self.STEPS, assignment, 1), (7, 2, self.left(self.SECOND)))

    def test_bad_step_words(self):
        # After the first step the only permitted pair is rows 1 and 2 on variable 1.
        good = step(1, 1, 2)
        bad = [words.word(6, good & 0xFFFFFFF), words.word(8, good & 0xFFFFFFF), 0, 0xFFFFFFFF,
               step(0, 1, 2), step(2, 1, 2), step(3, 1, 2), step(15, 1, 2),
               step(1, 2, 1), step(1, 1, 1), step(1, 0, 1), step(1, 1, 3), step(1, 2, 3),
               step(1, 1, 4), step(1, 1, 4_095), step(1, 4_094, 4_095)]
        for w in bad:
            self.assertEqual(self.check([self.STEPS[0], w, good], [1, 1, 1], 1), (6, 1, self.left(self.FIRST)))

    def test_bad_first_step_word(self):
        self.assertEqual(self.check([step(0, 0, 2)] + self.STEPS, [1, 1, 1], 1), (6, 0, self.left(self.ENCODED)))

    def test_bad_step_after_the_last(self):
        self.assertEqual(self.check(self.STEPS + [step(1, 1, 4)], [1, 1, 1], 1), (6, 2, self.left(self.SECOND)))

    def test_full_at_a_step(self):
        # The second step needs five rows.
        for spare in range(6):
            length = table_length(3, 4, spare)
            self.assertEqual(self.check(self.STEPS, [1, 1, 1], 1, length), (12, 1, self.left(self.FIRST, length)))

    def test_full_at_the_encoding(self):
        length = table_length(3, 3, 5)
        self.assertEqual(self.check(self.STEPS, [1, 1, 1], 1, length), (12, 0, [7] * length))

    def test_short_table(self):
        for length in range(5):
            self.assertEqual(self.check(self.STEPS, [1, 1, 1], 1, length), (10, 0, [7] * length))

    def test_order(self):
        # Everything is wrong at once; one fault after another is put right.
        full, short = table_length(3, 4), [7] * 4
        bad_step, bad_claim = [self.STEPS[0], step(3, 0, 1)], ([9], 5)
        self.assertEqual(check_call(self.SOURCE + [words.cost(65_536)], bad_step, *bad_claim, short), (4, 0, short))
        self.assertEqual(check_call(self.SOURCE, bad_step, *bad_claim, short), (10, 0, short))
        self.assertEqual(self.check(bad_step, *bad_claim, length=6), (12, 0, [7] * 6))
        self.assertEqual(self.check(bad_step, *bad_claim, length=full), (6, 1, self.left(self.FIRST, full)))
        self.assertEqual(self.check(self.STEPS, *bad_claim, length=full), (12, 1, self.left(self.FIRST, full)))
        self.assertEqual(self.check(self.STEPS[:1], *bad_claim, length=full), (7, 1, self.left(self.FIRST, full)))
        # A step that comes first decides: 12 at the second word, 6 at the third.
        self.assertEqual(self.check(self.STEPS + [0], *bad_claim, length=full),
                         (12, 1, self.left(self.FIRST, full)))


class Forbidden(unittest.TestCase):
    """Claims in the weight of forbidden entries, and above 32 bits."""

    # Both values are forbidden, the second at once with 16 others: the step leaves 1:16 times the weight.
    ONE = instance([2], [forbidden((0, 0))] + [forbidden((0, 1))] * 17)
    STEPS = [step(0, 0, 1)]
    AFTER = table([2], f"1:{16 * FORBIDDEN_WEIGHT} empty:{FORBIDDEN_WEIGHT}", 20)

    def check(self, assignment, claimed):
        return check_call(self.ONE, self.STEPS, assignment, claimed, [7] * 20)

    def test_claim(self):
        self.assertEqual(self.check([0], FORBIDDEN_WEIGHT), (0, 1, self.AFTER))
        for claimed in [0, 65_535, FORBIDDEN_WEIGHT - 1, FORBIDDEN_WEIGHT + 1, 17 * FORBIDDEN_WEIGHT,
                        (1 << 32) + FORBIDDEN_WEIGHT]:
            self.assertEqual(self.check([0], claimed), (7, 1, self.AFTER))
        # The other value costs 17 times as much.
        for claimed in [FORBIDDEN_WEIGHT, 17 * FORBIDDEN_WEIGHT, 17 * FORBIDDEN_WEIGHT - (1 << 32)]:
            self.assertEqual(self.check([1], claimed), (7, 1, self.AFTER))

    def test_claims_above_32_bits(self):
        for count in [16, 17, 4_096]:
            source, cost = instance([1], [forbidden()] * count), count * 268_431_361
            left = table([1], f"empty:{cost}", 9)
            self.assertEqual(check_call(source, [], [0], cost, [7] * 9), (0, 0, left))
            for claimed in [cost - 1, cost + 1, cost & 0xFFFFFFF, cost % (1 << 32), cost + (1 << 56), cost + (1 << 63)]:
                if claimed != cost:
                    self.assertEqual(check_call(source, [], [0], claimed, [7] * 9), (7, 0, left))

    def test_costs_that_differ_in_high_bits_alone(self):
        # The first value costs 2 to the 28th or to the 32nd, the second nothing; there is no empty row.
        for total, cost in zip(ROUND_COSTS, [1 << 28, 1 << 32]):
            left = table([2], f"2:{cost}", 9)
            for assignment, claimed, number in [([0], 0, 7), ([0], cost, 7), ([1], cost, 7), ([1], 0, 0)]:
                self.assertEqual(check_call(high_cost(*total), [], assignment, claimed, [7] * 9), (number, 0, left))

    def test_an_ordinary_plan_beside_forbidden_ones(self):
        # The step moves 65,535 and leaves the forbidden value's row so much lighter.
        source = instance([2], [forbidden((0, 0)), ([(0, 1)], 65_535)])
        left = table([2], "2:268365826 empty:65535", 20)
        self.assertEqual(check_call(source, self.STEPS, [1], 65_535, [7] * 20), (0, 1, left))
        for assignment, claimed in [([0], 65_535), ([0], FORBIDDEN_WEIGHT), ([1], FORBIDDEN_WEIGHT)]:
            self.assertEqual(check_call(source, self.STEPS, assignment, claimed, [7] * 20), (7, 1, left))

    def test_faults_of_the_instance_first(self):
        self.assertEqual(check_call(self.ONE + [words.forbidden(1)], [0], [9], 5, []), (3, 0, []))
        self.assertEqual(check_call(self.ONE + [words.forbidden()] * 4_079, [0], [9], 5, []), (5, 0, []))


class Replay(unittest.TestCase):
    def test_pair_outside_its_bucket(self):
        # On variable 1, in two rows of bucket 0: the meet of 6 and 5 is 4, their join is full, and so are the
        # complements of the common literal 2 joined with it.
        source = instance([2, 3], [([(0, 0), (1, 0)], 1), ([(0, 0), (1, 1)], 1)])
        self.assertEqual(check_call(source, [step(1, 0, 1)], [1, 0], 0, [7] * 20),
                         (0, 1, table([2, 3], "2,4:1", 20)))

    def test_literals_on_both_sides_of_the_variable(self):
        # On variable 1: A is 6 at 0 and 6 at 3, B is 6 at 2 and 6 at 4, the meet of 6 and 5 is 4, the join full.
        source = instance([3] * 5, [([(0, 0), (1, 0), (3, 0)], 2), ([(1, 1), (2, 0), (4, 0)], 1)])
        after = "6,6,0,6,0:1 6,4,6,6,6:1 6,6,1,6,0:1 6,6,6,6,1:1 1,5,6,0,6:1 6,5,6,1,6:1"
        self.assertEqual(check_call(source, [step(1, 0, 1)], [2] * 5, 0, [7] * 60),
                         (0, 1, table([3] * 5, after, 60)))

    def test_any_permitted_pair(self):
        # P2 in another order: rows 1 and 2 of 6:2 5:1 3:4 first (5 and 3 meet in 1).
        source = instance([3], [([(0, 0)], 2), ([(0, 1)], 1), ([(0, 2)], 4)])
        self.assertEqual(check_call(source, [step(0, 1, 2)], [1], 0, [7] * 30),
                         (7, 1, table([3], "6:2 3:3 1:1", 30)))
        # Then rows 0 and 2: 6 and 1 have nothing in common.
        self.assertEqual(check_call(source, [step(0, 1, 2), step(0, 0, 2)], [1], 1, [7] * 30),
                         (0, 2, table([3], "6:1 3:3 empty:1", 30)))

    def test_weight_at_a_step(self):
        # No accepted instance comes to this, so the replay is given its rows.
        before = rows(f"5:1 10:2 3:3 2:{MAX_WEIGHT}", 1)
        after = rows(f"10:1 3:3 2:{MAX_WEIGHT} empty:1", 1)
        self.assertEqual(replay((4,), before, [step(0, 0, 1)] * 2, 4), (11, 1, after))

    def test_nothing_to_replay(self):
        self.assertEqual(check_call(instance([1], [([], 7)]), [], [0], 7, [7] * 9),
                         (0, 0, table([1], "empty:7", 9)))
        self.assertEqual(check_call(instance([1], []), [], [0], 0, [7] * 3), (0, 0, table([1], "", 3)))
