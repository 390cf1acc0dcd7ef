"""A season's line: how a file is cut into sheets, what each is counted under, and the largest cost with its sheet."""

import unittest
from functools import cache, partial

from reference import Buffers, season_line, solved, words
from reference.fields import NO_HEAD, NO_WORDS, as_bytes, costing, forbidden, instance, length, season, sheet
from reference.limits import FORBIDDEN_WEIGHT
from reference.season import outcomes

from .support import CONSTANT_FIRST, EXAMPLE, GROWING, HERE, LONGEST

# A sheet that comes again is planned once.
SOLVE = cache(solved)
# In these GROWING is full after a step, CONSTANT_FIRST is paused after two, and EIGHT_ROWS do not fit.
SMALL = cache(partial(solved, buffers=Buffers(table=34, limit=2)))
FORBIDDEN_SHEET = costing(FORBIDDEN_WEIGHT)
EIGHT_ROWS = as_bytes(sheet([[HERE] * 8], [([(0, spot)], 1) for spot in range(8)]))


class Lines(unittest.TestCase):
    def prints(self, source, line, solve=SOLVE):
        """Lines are written in groups: planned, the refusals 1 to 5, 10, 12 and 15, paused and full, the costs."""
        self.assertEqual(season_line(source, solve), (" ".join(line.split()) + "\n").encode())


class Cut(Lines):
    def test_empty_file(self):
        self.assertEqual(season_line(b""), b"0 0 0 0 0 0 0 0 0 0 0 0 0 0\n")

    def test_one_sheet(self):
        self.assertEqual(season_line(season([EXAMPLE])), b"1 0 0 0 0 0 0 0 0 0 0 10 10 1\n")

    def test_length_is_little_endian(self):
        self.prints(b"\x0b\0\0\0" + EXAMPLE, "1  0 0 0 0 0 0 0 0  0 0  10 10 1")
        self.prints(b"\0\0\0\x0b" + EXAMPLE, "0  1 0 0 0 0 0 0 0  0 0  0 0 0")

    def test_length_cut_off(self):
        for cut in [1, 2, 3]:
            for last in [b"\0\0\0", b"\xff\xff\xff"]:
                self.prints(last[:cut], "0  1 0 0 0 0 0 0 0  0 0  0 0 0")
                self.prints(season([EXAMPLE]) + last[:cut], "1  1 0 0 0 0 0 0 0  0 0  10 10 1")

    def test_length_past_the_file(self):
        self.prints(length(1), "0  1 0 0 0 0 0 0 0  0 0  0 0 0")
        self.prints(season([EXAMPLE]) + length(12) + EXAMPLE, "1  1 0 0 0 0 0 0 0  0 0  10 10 1")
        for cut in [1, 2, 3, 4, 43, 44]:
            self.prints(season([EXAMPLE, EXAMPLE])[:-cut], "1  1 0 0 0 0 0 0 0  0 0  10 10 1")

    def test_length_of_0(self):
        self.prints(length(0), "1  0 0 0 0 0 0 0 0  0 0  0 0 1")
        self.prints(length(0) + season([EXAMPLE]), "2  0 0 0 0 0 0 0 0  0 0  10 10 2")
        self.prints(season([EXAMPLE]) + length(0), "2  0 0 0 0 0 0 0 0  0 0  10 10 1")
        self.prints(season([NO_HEAD]) + length(0) * 2, "2  1 0 0 0 0 0 0 0  0 0  0 0 2")

    def test_length_of_16000(self):
        self.prints(season([LONGEST, EXAMPLE]), "2  0 0 0 0 0 0 0 0  0 0  4008 3998 1")
        self.prints(season([LONGEST])[:-1], "0  1 0 0 0 0 0 0 0  0 0  0 0 0")

    def test_length_of_16001(self):
        long = length(16_001) + bytes(64_004)
        self.prints(long[:-1], "0  1 0 0 0 0 0 0 0  0 0  0 0 0")
        self.prints(long, "0  0 0 0 0 0 1 0 0  0 0  0 0 0")
        self.prints(long + season([EXAMPLE]), "1  0 0 0 0 0 1 0 0  0 0  10 10 2")
        self.prints(long + b"\0", "0  1 0 0 0 0 1 0 0  0 0  0 0 0")

    def test_words_passed_over(self):
        # Sheets stand in them, none of which is read.
        inside = season([EXAMPLE] * 2_000)
        self.prints(length(len(inside) // 4) + inside + season([costing(3)]), "1  0 0 0 0 0 1 0 0  0 0  3 3 2")

    def test_lengths_of_many_bits(self):
        # Four times the last four is 0 or little in 32 bits.
        for announced in [0xFFFFFFFF, 0x7FFFFFFF, 0x40000000, 0x40000001, 0x80000000, 0xC0000001]:
            self.prints(season([EXAMPLE]) + length(announced) + season([EXAMPLE]), "1  1 0 0 0 0 0 0 0  0 0  10 10 1")

    def test_10000_sheets(self):
        self.prints(season([NO_HEAD] * 9_999 + [EXAMPLE]), "1  9999 0 0 0 0 0 0 0  0 0  10 10 10000")
        self.prints(season([NO_HEAD] * 10_000), "0  10000 0 0 0 0 0 0 0  0 0  0 0 0")
        self.prints(season([NO_WORDS] * 9_999 + [EXAMPLE]), "10000  0 0 0 0 0 0 0 0  0 0  10 10 10000")

    def test_nothing_counts_behind_10000_sheets(self):
        self.prints(season([NO_HEAD] * 10_000 + [EXAMPLE]), "0  10000 0 0 0 0 0 0 0  0 0  0 0 0")
        self.prints(season([costing(2)] * 10_000 + [EXAMPLE]), "10000  0 0 0 0 0 0 0 0  0 0  20000 2 1")
        for cut in [1, 2, 3, 4]:
            self.prints(season([NO_WORDS] * 10_000) + length(1)[:cut], "10000  0 0 0 0 0 0 0 0  0 0  0 0 1")

    def test_last_of_10000_sheets(self):
        first = season([NO_HEAD] * 9_999)
        self.prints(first + b"\0\0\0", "0  10000 0 0 0 0 0 0 0  0 0  0 0 0")
        self.prints(first + length(16_001) + bytes(64_004) + season([EXAMPLE]), "0  9999 0 0 0 0 1 0 0  0 0  0 0 0")


class Counts(Lines):
    def test_each_refusal(self):
        faulty = [EXAMPLE[4:], EXAMPLE[:4], EXAMPLE[:-4], EXAMPLE + as_bytes([words.cost(65_536)]),
                  EXAMPLE + as_bytes([words.cost(0)] * 4_094)]
        for at, source in enumerate(faulty):
            self.prints(season([source]), f"0  {'0 ' * at}1{' 0' * (7 - at)}  0 0  0 0 0")
        self.prints(season([source for at, source in enumerate(faulty, 1) for _ in range(at)]),
                    "0  1 2 3 4 5 0 0 0  0 0  0 0 0")

    def test_refused_under_10_by_the_instance(self):
        # The sheet has 16,000 words and its instance 16,001.
        entries = [([(0, 0), (1, 0), (2, 0), (3, 0)], 1)] * 3_197 + [([(0, 0)], 1)]
        self.prints(season([as_bytes(sheet([[HERE]] * 4, entries))]), "0  0 0 0 0 0 1 0 0  0 0  0 0 0")

    def test_encoding_refused_under_12(self):
        self.prints(season([EIGHT_ROWS]), "0  0 0 0 0 0 0 1 0  0 0  0 0 0", SMALL)
        self.prints(season([EIGHT_ROWS]), "1  0 0 0 0 0 0 0 0  0 0  1 1 1")

    def test_forbidden_under_15(self):
        self.prints(season([FORBIDDEN_SHEET]), "0  0 0 0 0 0 0 0 1  0 0  0 0 0")
        self.prints(season([costing(3), FORBIDDEN_SHEET, costing(65_535), FORBIDDEN_SHEET]), "2  0 0 0 0 0 0 0 2  0 0  65538 65535 3")
        # One that is paused counts as such, however high its bound.
        paused = as_bytes(sheet([[HERE] * 3], [forbidden(), ([(0, 0)], 2), ([(0, 1)], 1), ([(0, 2)], 4)]))
        self.prints(season([paused]), "0  0 0 0 0 0 0 0 0  1 0  0 0 0", SMALL)
        self.prints(season([paused]), "0  0 0 0 0 0 0 0 1  0 0  0 0 0")

    def test_no_variables(self):
        # Costs of 0 and 7, a forbidden one, one with a binding, and no words at all.
        all_entries = [], [([], 3), ([], 4)], [([], 3), forbidden()], [([(0, 0)], 1)]
        sheets = [as_bytes(instance([], entries)) for entries in all_entries]
        self.prints(season([*sheets, NO_WORDS]), "3  0 0 1 0 0 0 0 1  0 0  7 7 2")

    def test_some_values_forbidden(self):
        some = as_bytes(sheet([[HERE] * 3], [forbidden((0, 0)), ([(0, 1)], 7), forbidden((0, 2))]))
        self.prints(season([some]), "1  0 0 0 0 0 0 0 0  0 0  7 7 1")

    def test_paused(self):
        self.prints(season([CONSTANT_FIRST]), "0  0 0 0 0 0 0 0 0  1 0  0 0 0", SMALL)
        self.prints(season([CONSTANT_FIRST]), "1  0 0 0 0 0 0 0 0  0 0  6 6 1")

    def test_full(self):
        self.prints(season([GROWING]), "0  0 0 0 0 0 0 0 0  0 1  0 0 0", SMALL)
        self.prints(season([GROWING]), "1  0 0 0 0 0 0 0 0  0 0  1 1 1")

    def test_bounds_are_not_added(self):
        # The bounds are 5 and 1, above and below the one least cost.
        sheets = [CONSTANT_FIRST, GROWING, costing(4), EIGHT_ROWS, CONSTANT_FIRST, GROWING, GROWING]
        self.prints(season(sheets), "1  0 0 0 0 0 0 1 0  2 3  4 4 3", SMALL)

    def test_every_sheet_counts_once(self):
        sheets = [EXAMPLE, NO_WORDS, NO_HEAD, GROWING, EIGHT_ROWS, EXAMPLE[:-4], CONSTANT_FIRST, FORBIDDEN_SHEET, costing(1)] * 3
        numbers = [int(number) for number in season_line(season(sheets) + b"\0", SMALL).split()]
        self.assertEqual(sum(numbers[:11]), len(sheets) + 1)

    def test_outcomes_in_order(self):
        sheets = [GROWING, EXAMPLE, EXAMPLE[:4]]
        self.assertEqual(list(outcomes(season(sheets), SOLVE)), [SOLVE(source) for source in sheets])


class Costs(Lines):
    def test_sum(self):
        self.prints(season([costing(3), costing(11), costing(5)]), "3  0 0 0 0 0 0 0 0  0 0  19 11 2")

    def test_sum_above_32_bits(self):
        greatest = as_bytes(sheet([[HERE]], [([], 65_535)] * 4_096))
        self.prints(season([greatest] * 17), "17  0 0 0 0 0 0 0 0  0 0  4563333120 268431360 1")

    def test_first_of_the_largest(self):
        self.prints(season([costing(cost) for cost in [3, 7, 7, 5]]), "4  0 0 0 0 0 0 0 0  0 0  22 7 2")
        self.prints(season([costing(cost) for cost in [7, 3, 7]]), "3  0 0 0 0 0 0 0 0  0 0  17 7 1")
        self.prints(season([costing(cost) for cost in [1, 2, 3]]), "3  0 0 0 0 0 0 0 0  0 0  6 3 3")

    def test_all_costs_0(self):
        self.prints(season([costing(0)]), "1  0 0 0 0 0 0 0 0  0 0  0 0 1")
        self.prints(season([costing(0)] * 3), "3  0 0 0 0 0 0 0 0  0 0  0 0 1")
        self.prints(season([NO_HEAD, costing(0), costing(0)]), "2  1 0 0 0 0 0 0 0  0 0  0 0 2")

    def test_cost_0_before_a_larger_one(self):
        self.prints(season([costing(0), costing(1), costing(1)]), "3  0 0 0 0 0 0 0 0  0 0  2 1 2")

    def test_nothing_planned(self):
        self.prints(season([NO_HEAD, EXAMPLE[:4]]), "0  1 1 0 0 0 0 0 0  0 0  0 0 0")
        self.prints(season([GROWING, CONSTANT_FIRST]), "0  0 0 0 0 0 0 0 0  1 1  0 0 0", SMALL)

    def test_every_sheet_is_numbered(self):
        long = length(16_001) + bytes(64_004)
        self.prints(season([NO_HEAD, EXAMPLE[:4]]) + long + season([GROWING, CONSTANT_FIRST, EIGHT_ROWS, costing(4)]),
                    "1  1 1 0 0 0 1 1 0  1 1  4 4 7", SMALL)
