"""Single steps, worked out by hand from the rule: which pair is next, what it becomes, and refusals 11 and 12."""

import unittest

from reference import step_call, words
from reference.fields import table, table_length
from reference.limits import MAX_WEIGHT

from .support import filler_rows


class Steps(unittest.TestCase):
    def becomes(self, sizes, before, pair, after, room=20):
        length = table_length(len(sizes), room, 2)
        self.assertEqual(step_call(table(sizes, before, length)),
                         ("stepped", 0, words.step(*pair), table(sizes, after, length)))

    def stays(self, sizes, before):
        source = table(sizes, before, table_length(len(sizes), 20, 4))
        self.assertEqual(step_call(source), ("done", 0, 0, source))

    def refused(self, number, sizes, before, room, spare=0):
        source = table(sizes, before, table_length(len(sizes), room, spare))
        self.assertEqual(step_call(source), ("refused", number, 0, source))


class NextPair(Steps):
    def test_nothing_to_resolve(self):
        self.stays([3], "")
        self.stays([3], "empty:4")
        self.stays([3], "3:1")

    def test_nested_and_equal_signs(self):
        self.stays([4], "3:1 2:1 7:1")
        self.stays([3, 3], "1,1:1 1,2:1")

    def test_full_union_elsewhere(self):
        # 1 and 2 are all values of the second variable if it has two, and not if it has three.
        self.stays([3, 2], "1,1:1 2,2:1")
        self.stays([3, 8], "1,240:1 2,15:1")
        self.becomes([3, 3], "1,1:1 2,2:1", (0, 0, 1), "0,3:1 3,3:1 1,5:1 2,6:1")

    def test_full_union_with_an_absent_variable(self):
        # Present in one of the two only: no hindrance.
        self.becomes([2, 2], "2,0:1 1,2:1", (0, 0, 1), "0,2:1 2,1:1")

    def test_rows_of_other_buckets(self):
        # Signs 1 and 2 of the second variable: in rows that belong to the first, or to two different variables.
        self.stays([3, 3], "1,1:1 0,2:1")
        self.stays([3, 3, 3], "1,1,0:1 0,2,0:1 0,0,1:1")

    def test_lowest_variable_first(self):
        self.becomes([3, 3], "0,1:1 0,2:1 1,0:1 2,0:1", (0, 2, 3), "0,1:1 0,2:1 0,0:1 3,0:1")

    def test_lowest_first_row(self):
        # Row 0 contains 1 and 2 and lies within nothing; rows 1 and 2 are the first pair, before 1 and 3, 2 and 3.
        self.becomes([4], "7:1 1:1 2:1 4:1", (0, 1, 2), "7:1 4:1 empty:1 3:1")

    def test_lowest_second_row(self):
        # Row 0 contains row 1; with row 2 it meets in 2 and joins to 7.
        self.becomes([4], "3:1 1:1 6:1 12:1", (0, 0, 2), "1:1 12:1 2:1 7:1")

    def test_first_row_before_second_row(self):
        # Rows 0 and 3 come before rows 1 and 2.
        self.becomes([4], "3:1 1:1 2:1 4:2", (0, 0, 3), "1:1 2:1 4:1 empty:1 7:1")


class Conclusions(Steps):
    def test_groups_and_literals_in_order(self):
        # S 1, A 1 and 2, T 2, B 2 and 1, moved weight 3.  Group 1: nothing with 3 and 3.  Group 2: 3 with 3 and 3.
        # Group 3: 1 with 1 or 5 and 2; then 1 with 1 or 2 and 2 or 6.  Group 4: 2 with 2 or 6 and 1; then 2 with
        # 2 or 1 and 1 or 5.
        self.becomes([3, 3, 3], "1,1,2:5 2,2,1:3", (0, 0, 1),
                     "1,1,2:2 0,3,3:3 3,3,3:3 1,5,2:3 1,3,6:3 2,6,1:3 2,3,5:3")

    def test_the_first_row_may_be_used_up(self):
        self.becomes([3, 3, 3], "1,1,2:3 2,2,1:5", (0, 0, 1),
                     "2,2,1:2 0,3,3:3 3,3,3:3 1,5,2:3 1,3,6:3 2,6,1:3 2,3,5:3")

    def test_literals_of_separate_variables(self):
        # S 6, A 1 at variable 1 and 2 at 3; T 5, B 4 at 2 and 1 at 4; the meet is 4, the join of 6 and 5 is full.
        # Complements by size: 4 of 3 values is 3, 1 of 2 is 2, 1 of 4 is 14, 2 of 2 is 1.
        self.becomes([3, 4, 3, 2, 2], "6,1,0,2,0:1 5,0,4,0,1:1", (0, 0, 1),
                     "4,1,4,2,1:1 6,1,3,2,0:1 6,1,4,2,2:1 5,14,4,0,1:1 5,1,4,1,1:1")

    def test_complements_are_of_the_own_domain(self):
        self.becomes([3, 2, 4], "1,0,3:1 2,1,0:1", (0, 0, 1), "0,1,3:1 3,1,3:1 1,2,3:1 2,1,12:1")

    def test_full_conclusions_are_dropped(self):
        # The same literal 2 on both sides: its complement joined with it is full, in groups 3 and 4 alike.
        self.becomes([4, 3], "3,2:1 6,2:1", (0, 0, 1), "2,2:1 7,2:1")
        # A's 3 contains B's 2: group 3 gives 3 or 5, which is full; group 4 gives 2 or 4.
        self.becomes([4, 3], "3,3:1 6,2:1", (0, 0, 1), "2,3:1 7,3:1 6,6:1")

    def test_equal_rows_are_merged_in_place(self):
        self.becomes([4], "3:2 6:5 2:1 7:4", (0, 0, 1), "6:3 2:3 7:6")

    def test_both_rows_used_up(self):
        self.becomes([4], "1:2 2:2 4:7", (0, 0, 1), "4:7 empty:2 3:2")

    def test_empty_row_gains(self):
        self.becomes([2, 2], "empty:10 2,0:4 1,0:6", (0, 1, 2), "empty:14 1,0:2")

    def test_words_of_the_twelfth_variable(self):
        # Variable 5 is the third of sign word 1, variable 11 the third of word 3.  Row 0: 2 at 0, 2 at 5; row 1:
        # 1 at 0, 1 at 11.  The join at 0 is full; complements turn 1 into 2 and 2 into 1.
        start = [0x1000000C] + [0x20000002] * 12
        before = start + [0xA0000002,
                          0x50000002, 0x51020000, 0x52000000, 0x53000000, 0x60000001, 0xC0000000,
                          0x50000001, 0x51000000, 0x52000000, 0x53010000, 0x60000001, 0xC0000000] + [0] * 8
        after = start + [0xA0000003,
                         0x50000000, 0x51020000, 0x52000000, 0x53010000, 0x60000001, 0xC0000000,
                         0x50000002, 0x51020000, 0x52000000, 0x53020000, 0x60000001, 0xC0000000,
                         0x50000001, 0x51010000, 0x52000000, 0x53010000, 0x60000001, 0xC0000000] + [0] * 2
        self.assertEqual(step_call(before), ("stepped", 0, 0x70000001, after))


class TwoWordWeights(Steps):
    """Weights around the limit of the low word, which is 268,435,455."""

    def test_carry(self):
        # The third row is the meet 2 of 3 and 6.
        for meet in [268_435_453, 268_435_454, 268_435_455, 268_435_456, (1 << 32) - 1, (1 << 55) - 1]:
            self.becomes([4], f"3:2 6:5 2:{meet}", (0, 0, 1), f"6:3 2:{meet + 2} 7:2")

    def test_borrow(self):
        for weight in [268_435_455, 268_435_456, 268_435_457, 1 << 29, MAX_WEIGHT]:
            self.becomes([4], f"3:2 6:{weight}", (0, 0, 1), f"6:{weight - 2} 2:2 7:2")
            self.becomes([4], f"3:{weight} 6:2", (0, 0, 1), f"3:{weight - 2} 2:2 7:2")

    def test_low_words_alone_decide_nothing(self):
        # By the low words 0 or 1 would be the lesser weight, and the second row would be used up, too.
        self.becomes([4], f"3:{1 << 28} 6:2", (0, 0, 1), "3:268435454 2:2 7:2")
        self.becomes([4], f"3:2 6:{1 << 28}", (0, 0, 1), "6:268435454 2:2 7:2")
        self.becomes([4], f"3:{3 << 28} 6:{(2 << 28) + 1}", (0, 0, 1), f"3:268435455 2:{(2 << 28) + 1} 7:{(2 << 28) + 1}")

    def test_low_word_becomes_0(self):
        # A row is used up where the whole weight goes, not where its low word does.
        self.becomes([4], f"3:{(1 << 28) + 2} 6:2", (0, 0, 1), f"3:{1 << 28} 2:2 7:2")
        self.becomes([4], f"3:{1 << 28} 6:{1 << 28}", (0, 0, 1), f"2:{1 << 28} 7:{1 << 28}")

    def test_forbidden_rows(self):
        self.becomes([2], "2:268431361 1:268431361", (0, 0, 1), "empty:268431361")
        self.becomes([2], "empty:268431361 2:268431361 1:268431362", (0, 1, 2), "empty:536862722 1:1")


class Refusals(Steps):
    # As test_groups_and_literals_in_order, with the last conclusion 2,3,5 already a row: five new rows for one
    # used up, seven in all, and three more on the weight of row 2.
    SIZES = [3, 3, 3]
    ROWS = "1,1,2:5 2,2,1:3 2,3,5:"

    def test_weight_at_its_limit(self):
        after = f"1,1,2:2 2,3,5:{MAX_WEIGHT} 0,3,3:3 3,3,3:3 1,5,2:3 1,3,6:3 2,6,1:3"
        self.becomes(self.SIZES, f"{self.ROWS}{MAX_WEIGHT - 3}", (0, 0, 1), after, room=7)

    def test_weight_passes_its_limit(self):
        for weight in [MAX_WEIGHT - 2, MAX_WEIGHT]:
            self.refused(11, self.SIZES, f"{self.ROWS}{weight}", 20)

    def test_sum_of_two_halves(self):
        # 2 to the 55th and as much again is one too many.
        half = 1 << 55
        self.becomes([4], f"3:{half - 1} 6:{half} 2:{half}", (0, 0, 1), f"6:1 2:{MAX_WEIGHT} 7:{half - 1}")
        self.refused(11, [4], f"3:{half} 6:{half} 2:{half}", 20)
        self.refused(11, [4], f"3:{MAX_WEIGHT} 6:{MAX_WEIGHT} 2:{MAX_WEIGHT}", 20)

    def test_the_empty_row_passes_the_limit(self):
        self.becomes([2], f"2:1 1:1 empty:{MAX_WEIGHT - 1}", (0, 0, 1), f"empty:{MAX_WEIGHT}")
        self.refused(11, [2], f"2:1 1:1 empty:{MAX_WEIGHT}", 20)

    def test_table_full(self):
        for room in [3, 4, 5, 6]:
            self.refused(12, self.SIZES, self.ROWS + "1", room)
        self.refused(12, self.SIZES, self.ROWS + "1", 6, spare=5)

    def test_weight_before_full(self):
        # The first row without room would be written long before the weight is added.
        for room in [3, 6]:
            self.refused(11, self.SIZES, f"{self.ROWS}{MAX_WEIGHT - 2}", room)
            self.refused(12, self.SIZES, f"{self.ROWS}{MAX_WEIGHT - 3}", room)

    def test_rows_used_up_make_room(self):
        # Two rows in the only two places: both go and two come.
        self.becomes([2, 2], "2,0:1 1,2:1", (0, 0, 1), "0,2:1 2,1:1", room=2)
        self.refused(12, [2, 2], "2,0:2 1,2:1", 2)

    def test_done_before_full(self):
        source = table([3], "3:1 2:1", table_length(1, 2))
        self.assertEqual(step_call(source), ("done", 0, 0, source))

    def test_no_more_than_4096_rows(self):
        # The step makes three rows of two.
        sizes, start = [4, 8, 8], "3,0,0:2 6,0,0:1 "
        self.refused(12, sizes, start + filler_rows(4_094), 4_200)
        rows = filler_rows(4_093)
        self.becomes(sizes, start + rows, (0, 0, 1), "3,0,0:1 " + rows + " 2,0,0:1 7,0,0:1", room=4_200)
        self.becomes(sizes, start + rows, (0, 0, 1), "3,0,0:1 " + rows + " 2,0,0:1 7,0,0:1", room=4_096)
