"""Fields without variables (document 02, wish 7), through every call: no words at all, and a head of 0 with constant costs."""

import unittest

from reference import (Buffers, check_call, complete_call, encode, make_instance, most_rows, plan_call, printed_plan,
                       readout_call, run_call, solved, step_call, to_five, to_six)
from reference.fields import as_bytes
from reference.inputs import cost_call
from reference.tables import capacity
from reference.words import binding, cost, easting, forbidden, northing, signs, size, step

from .test_validity import Calls

# The two forms of a field without costs, and its table: a head of 0 and no row.
NONE, HEAD = [], [0x10000000]
NO_ROW = [0x10000000, 0xA0000000]
# Costs of 3, 0, 65,535 and 3 again come to 65,541 and to the only row that there can be.
COSTS, TOTAL = HEAD + [0x40000003, 0x40000000, 0x4000FFFF, 0x40000003], 65_541
SIGNS = [0x50000000, 0x51000000, 0x52000000, 0x53000000]
FIVE_ROW = [0x10000000, 0xA0000001, *SIGNS, 0x60010005]
SIX_ROW = [*FIVE_ROW, 0xC0000000]
# What is forbidden, with a cost of 2 beside it, and the greatest sum that is not.
BANNED, BANNED_ROW = HEAD + [0x40000002, 0xB0000000], [*SIX_ROW[:6], 0x6FFFF003, 0xC0000000]
DEAREST, DEAREST_ROW = HEAD + [0x4000FFFF] * 4_096, [*SIX_ROW[:6], 0x6FFFF000, 0xC0000000]
# Instances with the words of their tables and what their one plan, of no bytes, costs.
FIELDS = [(NONE, NO_ROW, 0), (HEAD, NO_ROW, 0), (HEAD + [0x40000000], NO_ROW, 0), (COSTS, SIX_ROW, TOTAL),
          (BANNED, BANNED_ROW, 268_431_363), (DEAREST, DEAREST_ROW, 268_431_360)]
HUGE = (1 << 64) - 1


class Instances(unittest.TestCase):
    def test_made_from_no_words(self):
        for length in range(4):
            self.assertEqual(make_instance(NONE, [8] * length), (0, 0, [8] * length))

    def test_made_from_a_head(self):
        for source in [HEAD, COSTS, BANNED, DEAREST]:
            count = len(source)
            self.assertEqual(make_instance(source, [8] * (count + 2)), (0, count, source + [8] * 2))
            self.assertEqual(make_instance(source, [8] * count), (0, count, source))
            self.assertEqual(make_instance(source, [8] * (count - 1)), (10, 0, [8] * (count - 1)))

    def test_cost(self):
        for source, _, total in FIELDS:
            self.assertEqual(cost_call(source, []), (0, total))
            for plan in ([0], [0, 0], [255]):
                self.assertEqual(cost_call(source, plan), (7, 0))
        self.assertEqual(cost_call(HEAD + [binding(0, 0), cost(1)], []), (3, 0))

    def test_encoded(self):
        for source, made, _ in FIELDS:
            for length in range(10):
                target = [7] * length
                number = 10 if length < 2 else 12 if length < len(made) else 0
                self.assertEqual(encode(source, target), (number, target) if number else (0, made + [0] * (length - len(made))))

    def test_most_rows(self):
        for source, made, _ in FIELDS:
            self.assertEqual(most_rows(source, []), 0 if made == NO_ROW else 1)


class Tables(Calls):
    def test_no_row(self):
        for behind in range(8):
            self.accepted_as_six(NO_ROW + [0] * behind)
            self.accepted_as_five(NO_ROW + [0] * behind)

    def test_the_empty_row(self):
        for behind in range(8):
            self.accepted_as_six(SIX_ROW + [0] * behind)
            self.refused_as_six(FIVE_ROW + [0] * behind)
            self.accepted_as_five(FIVE_ROW + [0] * behind)
            self.refused_as_five(SIX_ROW + [0] * behind)

    def refused_as_both(self, source):
        self.refused_as_six(source)
        self.refused_as_five(source)

    def test_a_table_needs_its_head_and_its_count(self):
        for length in range(10):
            self.refused_as_both([0] * length)
        self.refused_as_both(HEAD)
        self.refused_as_both([0xA0000000])
        for count in [0, 1, 0xA0000002, 0xB0000000, 0x20000001]:
            self.refused_as_both([0x10000000, count] + [0] * 7)

    def test_cut_off(self):
        for length in range(2, 8):
            self.refused_as_six(SIX_ROW[:length])
        for length in range(2, 7):
            self.refused_as_five(FIVE_ROW[:length])

    def test_a_sign(self):
        for index in range(4):
            for at in range(3):
                for sign in [1, 2, 128, 255]:
                    triple = [sign * (place == at) for place in range(3)]
                    spoiled = [signs(index, triple) if word == SIGNS[index] else word for word in SIX_ROW]
                    self.refused_as_six(spoiled)
                    self.refused_as_five(spoiled[:7])

    def test_two_rows(self):
        for weight in [0x60010005, 0x60000001]:
            self.refused_as_six([0x10000000, 0xA0000002, *SIX_ROW[2:], *SIGNS, weight, 0xC0000000])
            self.refused_as_five([0x10000000, 0xA0000002, *FIVE_ROW[2:], *SIGNS, weight])

    def test_weight_of_0(self):
        self.refused_as_six([*SIX_ROW[:6], 0x60000000, 0xC0000000])
        self.refused_as_five([*FIVE_ROW[:6], 0x60000000])

    def test_words_past_the_last_row(self):
        for source in [NO_ROW, SIX_ROW]:
            self.refused_as_six(source + [0, 1])
        for source in [NO_ROW, FIVE_ROW]:
            self.refused_as_five(source + [0, 1])

    def test_capacity(self):
        self.assertEqual([capacity(0, length) for length in (2, 7, 8, 13, 14, 15_998, 24_577, 24_578, 24_584)],
                         [0, 0, 1, 1, 2, 2_666, 4_095, 4_096, 4_096])


class Worked(unittest.TestCase):
    """The tables of the fields, with words behind their rows."""

    TABLES = [(made + [0] * behind, total) for _, made, total in FIELDS for behind in range(3)]

    def test_never_a_pair(self):
        for table, total in self.TABLES:
            self.assertEqual(step_call(table), ("done", 0, 0, table))
            for limit, words in [(0, []), (0, [7]), (9, []), (9, [7, 7])]:
                self.assertEqual(run_call(table, limit, words), ("done", 0, 0, total, table, words))

    def test_plan(self):
        for table, total in self.TABLES:
            for target in ([], [9], [9] * 12):
                self.assertEqual(plan_call(table, target), (15 if total > 268_431_360 else 0, target))

    def test_completion(self):
        wrong = [(1, []), (2, []), (12, []), (HUGE, []), (0, [0]), (0, [0, 0]), (1, [0]), (2, [255]), (HUGE, [0])]
        for table, total in self.TABLES:
            for target in ([], [9], [9] * 12):
                self.assertEqual(complete_call(table, 0, [], target), (0, total, target))
                for k, fixed in wrong:
                    self.assertEqual(complete_call(table, k, fixed, target), (14, 0, target))

    def test_conversions(self):
        for length in range(10):
            target, behind = [7] * length, [0] * (length - 2)
            for convert in (to_six, to_five):
                self.assertEqual(convert(NO_ROW, target), (0, 0, NO_ROW + behind) if length > 1 else (10, 0, target))
            for convert, source, made in [(to_six, FIVE_ROW, SIX_ROW), (to_five, SIX_ROW, FIVE_ROW)]:
                number = 10 if length < 2 else 12 if length < len(made) else 0
                self.assertEqual(convert(source, target),
                                 (number, 0, target) if number else (0, 1, made + [0] * (length - len(made))))

    def test_a_weight_of_two_words(self):
        # Seventeen times what is forbidden weighs.
        heavy = [*SIX_ROW[:6], 0x6FFEF011, 0xC0000010]
        self.assertEqual(encode(HEAD + [forbidden()] * 17, [7] * 8), (0, heavy))
        self.assertEqual(complete_call(heavy, 0, [], []), (0, 4_563_333_137, []))
        for length, number in [(0, 10), (1, 10), (2, 16), (7, 16), (99, 16)]:
            self.assertEqual(to_five(heavy, [7] * length), (number, 0, [7] * length))


class Checked(unittest.TestCase):
    def test_claims(self):
        for source, made, total in FIELDS:
            work = [7] * (len(made) + 1)
            self.assertEqual(check_call(source, [], [], total, work), (0, 0, made + [0]))
            for claimed in {total - 1, total + 1, 0, 3, 65_535, total + (1 << 32), total + (1 << 56)} - {total, -1}:
                self.assertEqual(check_call(source, [], [], claimed, work), (7, 0, made + [0]))
            for plan in ([0], [0] * 2, [255]):
                self.assertEqual(check_call(source, [], plan, total, work), (7, 0, made + [0]))

    def test_no_step_is_permitted(self):
        for source, made, total in FIELDS:
            for word in [step(0, 0, 1), step(0, 0, 0), step(15, 0, 1), 0, 0x40000001, 0xB0000000, 0xFFFFFFFF]:
                self.assertEqual(check_call(source, [word], [], total, [7] * len(made)), (6, 0, made))

    def test_work_table(self):
        for source, made, total in FIELDS:
            for length in range(len(made)):
                self.assertEqual(check_call(source, [0], [0], total, [7] * length), (10 if length < 2 else 12, 0, [7] * length))


class Readout(unittest.TestCase):
    def test_no_place(self):
        here = easting(0), northing(0)
        for source, _, _ in FIELDS:
            for plan in ([], [0], [0] * 12):
                for variable in (0, 1, 12, HUGE):
                    self.assertEqual(readout_call(source, plan, variable, *here), (8, 0))
            self.assertEqual(readout_call(source, [], 0, 0, 0), (8, 0))

    def test_faults_first(self):
        for fault, number in [(size(1), 3), (binding(0, 0), 3), (cost(65_536), 4)]:
            self.assertEqual(readout_call(HEAD + [fault], [], 0, easting(0), northing(0)), (number, 0))


class Printed(unittest.TestCase):
    def prints(self, source, *lines, **buffers):
        expected = "".join(line + "\n" for line in lines).encode()
        self.assertEqual(printed_plan(as_bytes(source), Buffers(**buffers)), expected)

    def test_plans(self):
        for source, _, total in FIELDS:
            self.prints(source, *(["PLAN", f"COST {total}", "STEPS 0"] if total <= 268_431_360 else ["REFUSED 15"]))

    def test_no_bytes(self):
        self.assertEqual(printed_plan(b""), b"PLAN\nCOST 0\nSTEPS 0\n")
        self.assertEqual(solved(b""), ("planned", 0, 0, 0, [0] * 12, []))
        self.assertEqual(solved(as_bytes(COSTS)), ("planned", 0, 0, 65_541, [0] * 12, []))

    def test_less_than_a_word(self):
        for source in [b"\0", b"\n", b"\x10", b"\0\0", b"\0\0\x10", b"abc"]:
            self.assertEqual(printed_plan(source), b"REFUSED 1\n")

    def test_faults(self):
        for rest, number in [([binding(0, 0), cost(1)], 3), ([size(1), *COSTS[1:]], 3), ([cost(65_536)], 4),
                             ([cost(0)] * 4_097, 5), ([forbidden()] * 4_097, 5), ([forbidden(1)], 3)]:
            self.prints(HEAD + rest, f"REFUSED {number}")

    def test_buffers(self):
        # No words need no buffer but that of the table; neither form needs a step.
        self.prints(NONE, "PLAN", "COST 0", "STEPS 0", sheet=0, instance=0, steps=0, table=2, limit=0)
        self.prints(NONE, "REFUSED 10", table=1)
        self.prints(HEAD, "REFUSED 10", sheet=0)
        self.prints(HEAD, "REFUSED 10", instance=0)
        self.prints(COSTS, "PLAN", "COST 65541", "STEPS 0", sheet=5, instance=5, steps=0, table=8, limit=0)
        self.prints(COSTS, "REFUSED 12", table=7)
