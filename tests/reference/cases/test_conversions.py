"""Tables turned into the other form: words written out, refusals in order, there and back, and derivations that go on."""

import random
import unittest

from reference import check_call, complete_call, encode, most_rows, run_call, step_call, to_five, to_six, words
from reference.fields import forbidden, instance, table, table_length
from reference.forms import FIVE, SIX
from reference.limits import FIVE_MAX_WEIGHT, FORBIDDEN_WEIGHT, MAX_WEIGHT
from reference.tables import read_table

from .support import Comparison, assignments, cost_table, filler_rows, plain_falsified, random_field
from .test_random_tables import random_table

# Signs at the first, fourth and last of twelve variables, a forbidden weight, the greatest of one word, and the empty row.
FRONT = [0x1000000C] + [0x20000003] * 12 + [0xA0000003]
FIVE_WORDS = FRONT + [0x50000006, 0x51000001, 0x52000000, 0x53020000, 0x60000005,
                      0x50000000, 0x51000000, 0x52000000, 0x53000000, 0x6FFFF001,
                      0x50000001, 0x51000000, 0x52000000, 0x53000000, 0x6FFFFFFF]
SIX_WORDS = FRONT + [0x50000006, 0x51000001, 0x52000000, 0x53020000, 0x60000005, 0xC0000000,
                     0x50000000, 0x51000000, 0x52000000, 0x53000000, 0x6FFFF001, 0xC0000000,
                     0x50000001, 0x51000000, 0x52000000, 0x53000000, 0x6FFFFFFF, 0xC0000000]


class Words(unittest.TestCase):
    def test_there(self):
        for behind in range(9):
            self.assertEqual(to_six(FIVE_WORDS + [0] * behind, [7] * 32), (0, 3, SIX_WORDS))
            self.assertEqual(to_six(FIVE_WORDS, [7] * (32 + behind)), (0, 3, SIX_WORDS + [0] * behind))

    def test_back(self):
        for behind in range(9):
            self.assertEqual(to_five(SIX_WORDS + [0] * behind, [7] * 29), (0, 3, FIVE_WORDS))
            self.assertEqual(to_five(SIX_WORDS, [7] * (29 + behind)), (0, 3, FIVE_WORDS + [0] * behind))

    def test_no_row(self):
        for convert in (to_six, to_five):
            for behind in range(9):
                self.assertEqual(convert(table([3, 1], "", 4 + behind), [7] * 4), (0, 0, table([3, 1], "", 4)))
                self.assertEqual(convert(table([3, 1], "", 4), [7] * (4 + behind)), (0, 0, table([3, 1], "", 4 + behind)))

    def test_rows_keep_their_order(self):
        text = "2,0:9 0,1:8 1,2:7 empty:6 0,2:5"
        five, six = table([2, 2], text, 40, FIVE), table([2, 2], text, 40, SIX)
        self.assertEqual(to_six(five, [7] * 40), (0, 5, six))
        self.assertEqual(to_five(six, [7] * 40), (0, 5, five))


class Refusals(unittest.TestCase):
    """Each number alone and before those behind it: 9, 10, 16, 12."""

    FIVE = table([3, 1], "6,0:2 1,0:5 empty:1", table_length(2, 3, form=FIVE), FIVE)
    SIX = table([3, 1], "6,0:2 1,0:5 empty:1", table_length(2, 3))
    HEAVY = table([3, 1], "6,0:2 1,0:268435456 empty:1", table_length(2, 3))

    def refuses(self, number, convert, source, length):
        self.assertEqual(convert(source, [7] * length), (number, 0, [7] * length))

    def test_bad_table_first(self):
        for length in [0, 3, 4, 18, 22, 40]:
            self.refuses(9, to_six, self.SIX, length)
            self.refuses(9, to_five, self.FIVE, length)
            self.refuses(9, to_six, [], length)
            self.refuses(9, to_five, self.HEAVY + [1], length)

    def test_short_target_before_the_weight(self):
        for length in range(4):
            self.refuses(10, to_six, self.FIVE, length)
            self.refuses(10, to_five, self.SIX, length)
            self.refuses(10, to_five, self.HEAVY, length)

    def test_the_weight_before_room(self):
        for length in [4, 8, 13, 18, 19, 40]:
            self.refuses(16, to_five, self.HEAVY, length)

    def test_room_by_the_form_of_the_target(self):
        # Three rows and four words before them: 22 words of six, 19 of five.
        for length in range(4, 22):
            self.refuses(12, to_six, self.FIVE, length)
        for length in range(4, 19):
            self.refuses(12, to_five, self.SIX, length)
        for length in range(22, 30):
            self.assertEqual(to_six(self.FIVE, [7] * length).number, 0)
        for length in range(19, 30):
            self.assertEqual(to_five(self.SIX, [7] * length).number, 0)

    def test_weights_of_one_word(self):
        for at in range(3):
            for weight, number in [(FORBIDDEN_WEIGHT, 0), (FIVE_MAX_WEIGHT, 0), (FIVE_MAX_WEIGHT + 1, 16), (1 << 29, 16),
                                   (1 << 32, 16), ((1 << 32) + 1, 16), (MAX_WEIGHT, 16)]:
                weights = [1, 1, 1]
                weights[at] = weight
                source = table([4], "1:{} 2:{} empty:{}".format(*weights), 30)
                self.assertEqual(to_five(source, [7] * 30).number, number)

    def test_sums_of_forbidden_entries(self):
        # One forbidden entry and costs of 4,094 come to the greatest weight of one word; one more, or two of them, pass it.
        for entries, number in [([forbidden((0, 0))], 0), ([forbidden((0, 0)), ([(0, 0)], 4_094)], 0),
                                ([forbidden((0, 0)), ([(0, 0)], 4_095)], 16), ([forbidden((0, 0))] * 2, 16),
                                ([forbidden((0, 0)), forbidden((0, 1))], 0)]:
            encoded = encode(instance([2], entries), [7] * 20).table
            self.assertEqual(to_five(encoded, [7] * 20).number, number)
        # The step moves what both rows weigh to the empty one, which weighs as much before.
        both = encode(instance([2], [forbidden((0, 0)), forbidden((0, 1)), forbidden()]), [7] * 21).table
        self.assertEqual(to_five(both, [7] * 21).number, 0)
        self.assertEqual(to_five(step_call(both).table, [7] * 21), (16, 0, [7] * 21))

    def test_most_rows(self):
        rows = filler_rows(4_096)
        for convert, form, other in [(to_six, FIVE, SIX), (to_five, SIX, FIVE)]:
            source = table([4, 8, 8], rows, table_length(3, 4_096, form=form), form)
            needed = table_length(3, 4_096, form=other)
            self.refuses(12, convert, source, needed - 1)
            for more in [0, 1, 100]:
                self.assertEqual(convert(source, [7] * (needed + more)),
                                 (0, 4_096, table([4, 8, 8], rows, needed + more, other)))


class ThereAndBack(Comparison):
    def hold(self, six):
        """A six-word table there and back, each time in a slice as long, and the same for the five-word table on the way."""
        sizes, rows = read_table(six)
        five = to_five(six, [7] * len(six))
        if any(row.weight > FIVE_MAX_WEIGHT for row in rows):
            self.assertEqual(five, (16, 0, [7] * len(six)))
            return False
        self.assertEqual(five[:2], (0, len(rows)))
        self.assertEqual(to_six(five.target, [7] * len(six)), (0, len(rows), six))
        self.assertEqual(read_table(five.target, FIVE), (sizes, rows))
        shorter = to_five(six, [7] * table_length(len(sizes), len(rows), 2, FIVE)).target
        longer = to_six(shorter, [7] * (len(six) + 9)).target
        self.assertEqual(to_five(longer, [7] * len(shorter)), (0, len(rows), shorter))
        return True

    def test_random_tables(self):
        rng = random.Random(6)
        turned = [self.hold(random_table(rng)) for _ in range(400)]
        self.assertGreater(min(turned.count(True), turned.count(False)), 80)

    def test_half_resolved_tables(self):
        """After every step of random fields; each plan falsifies the same weight in either form."""
        rng = random.Random(7)
        turned = []
        for _ in range(60):
            sizes, entries = random_field(rng)
            costs = cost_table(sizes, entries)
            source = encode(instance(sizes, entries), [5] * table_length(len(sizes), 200)).table
            while True:
                turned.append(self.hold(source))
                if turned[-1]:
                    rows = read_table(to_five(source, [7] * len(source)).target, FIVE).rows
                    self.assertEqual({plan: plain_falsified(rows, plan) for plan in assignments(sizes)}, costs)
                answer = step_call(source)
                if answer.outcome != "stepped":
                    break
                source = answer.table
        self.assertGreater(min(turned.count(True), turned.count(False)), 20)


class GoingOn(unittest.TestCase):
    """A derivation whose table is full and is converted on the way into a longer slice."""

    # Four rows, four after the first step, five after the second, as in test_checker.
    SIZES = [2, 2, 2]
    SOURCE = instance(SIZES, [([(0, 0)], 2), ([(0, 1)], 1), ([(1, 0)], 2), ([(1, 1), (2, 0)], 1)])
    STEPS = [words.step(0, 0, 1), words.step(1, 1, 2)]

    def test_most_rows(self):
        for count, most in [(0, 4), (1, 4), (2, 5)]:
            self.assertEqual(most_rows(self.SOURCE, self.STEPS[:count]), most)
        self.assertEqual(most_rows(instance([1], []), []), 0)
        # Three rows become two.
        self.assertEqual(most_rows(instance([2], [([(0, 0)], 1), ([(0, 1)], 1), ([], 1)]), [words.step(0, 0, 1)]), 3)

    def test_converted_on_the_way(self):
        full = run_call(encode(self.SOURCE, [7] * table_length(3, 4)).table, 9, [0] * 9)
        self.assertEqual((full.number, full.steps, full.derivation[0]), (12, 1, self.STEPS[0]))
        five = to_five(full.table, [7] * table_length(3, 4, form=FIVE)).target
        self.assertEqual(run_call(five, 9, [0] * 9).number, 9)
        six = to_six(five, [7] * table_length(3, 6)).target
        rest = run_call(six, 9, [0] * 9)
        self.assertEqual((rest.outcome, rest.derivation[:rest.steps]), ("done", self.STEPS[1:]))
        plan = complete_call(rest.table, 3, [], [0] * 3)
        for rows, number in [(4, 12), (5, 0), (6, 0)]:
            checked = check_call(self.SOURCE, self.STEPS, plan.target, plan.cost, [7] * table_length(3, rows))
            self.assertEqual(checked[:2], (number, 1 if number else 2))
