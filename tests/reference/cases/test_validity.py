"""Which tables are valid (9), in either form of their rows, and that one with rows is valid in its own form alone."""

import unittest

from reference import complete_call, plan_call, run_call, step_call, to_five, to_six, words
from reference.fields import table, table_length
from reference.forms import FIVE, SIX
from reference.limits import FIVE_MAX_WEIGHT, MAX_WEIGHT

from .support import filler_rows

SIGNS = [words.signs(index, [0, 0, 0]) for index in range(4)]


class Calls(unittest.TestCase):
    """What the calls that take a table of each form say of one."""

    def refused_as_six(self, source):
        """With nothing changed and all other fields 0."""
        self.assertEqual(step_call(source), ("refused", 9, 0, source))
        self.assertEqual(run_call(source, 9, [4, 5]), ("refused", 9, 0, 0, source, [4, 5]))
        self.assertEqual(plan_call(source, [8, 8, 8]), (9, [8, 8, 8]))
        self.assertEqual(plan_call(source, []), (9, []))
        self.assertEqual(complete_call(source, 1, [0], [8, 8, 8]), (9, 0, [8, 8, 8]))
        self.unconverted(to_five, source)

    def refused_as_five(self, source):
        self.unconverted(to_six, source)

    def unconverted(self, convert, source):
        for target in ([], [8] * 3, [8] * 99):
            self.assertEqual(convert(source, target), (9, 0, target))

    def accepted_as_six(self, source):
        self.assertEqual(step_call(source).number, 0)
        self.assertIn(to_five(source, [8] * len(source)).number, (0, 16))

    def accepted_as_five(self, source):
        self.assertEqual(to_six(source, [8] * 2 * len(source)).number, 0)


class EitherForm:
    """The conditions that both forms have."""

    def setUp(self):
        self.width = self.FORM.row_words
        self.good = self.made([3, 1], "6,0:2 1,0:5", spare=3)

    def made(self, sizes, text, spare=0):
        """The table of these rows, with so many words past the last."""
        return table(sizes, text, table_length(len(sizes), len(text.split()), spare, self.FORM), self.FORM)

    def changed(self, at, w):
        return self.good[:at] + [w] + self.good[at + 1:]

    def test_good(self):
        self.accepted(self.good)
        for sizes in ([1], []):
            self.accepted(self.made(sizes, ""))
            self.accepted(self.made(sizes, "empty:5"))

    def test_too_short(self):
        for length in range(4):
            self.refused(self.good[:length])
        for length in range(4, 4 + self.width):
            self.refused(self.made([3, 1], "6,0:2")[:length])

    def test_head_sizes_and_count(self):
        for w in [0, words.head(0), words.head(13), words.head(1), words.head(3), words.head(18), words.size(2)]:
            self.refused(self.changed(0, w))
        for w in [0, words.size(0), words.size(9), words.size(19), words.head(3)]:
            self.refused(self.changed(1, w))
        for w in [0, words.row_count(0), words.row_count(1), words.row_count(3), words.row_count(1 << 20 | 2),
                  words.weight(2)]:
            self.refused(self.changed(3, w))

    def test_more_rows_than_the_capacity(self):
        one = self.made([2], "2:1")
        self.accepted(one)
        self.refused(one[:-1])

    def test_sign_words(self):
        for at in range(4, 8):
            for w in [0, SIGNS[(at - 3) % 4], words.word(4, words.payload_of(SIGNS[at - 4])), words.weight(1)]:
                self.refused(self.changed(at, w))

    def test_signs_full_or_beyond(self):
        # A sign of three values is full at 7 and beyond from 8 on; one of a single value can only be 0.
        for sign in [7, 8, 9, 15, 128, 255]:
            self.refused(self.changed(4, words.signs(0, [sign, 0, 0])))
        for sign in [1, 2, 255]:
            self.refused(self.changed(4, words.signs(0, [6, sign, 0])))
        self.refused(self.made([8], "255:1"))
        self.accepted(self.made([8], "254:1"))

    def test_signs_of_variables_from_n_on(self):
        self.refused(self.changed(4, words.signs(0, [6, 0, 1])))
        for index in [1, 2, 3]:
            for triple in [[1, 0, 0], [0, 2, 0], [0, 0, 128]]:
                self.refused(self.changed(4 + index, words.signs(index, triple)))

    def test_weights(self):
        # The first row's weight begins at word 8; a second word of it is 0 in both rows.
        for w in [0, words.weight(0), words.cost(2), words.row_count(2), words.high_weight(2), words.signs(0, [2, 0, 0])]:
            self.refused(self.changed(8, w))
            self.refused(self.changed(8 + self.width, w))
        for weight in [1, 65_536, self.FORM.max_weight]:
            self.accepted(self.made([3, 1], f"6,0:{weight} 1,0:5", spare=self.width))

    def test_equal_signs(self):
        self.refused(self.made([3, 1], "6,0:2 1,0:5 6,0:1", spare=2))
        self.refused(self.made([3], "empty:2 empty:2"))
        self.refused(self.made([3], f"empty:2 empty:{self.FORM.max_weight}"))

    def test_words_past_the_last_row(self):
        # Three words are fewer than a row; in the longer slice there is room for a row that is not in use.
        for spare in [3, self.width + 3]:
            longer = self.made([3, 1], "6,0:2 1,0:5", spare)
            for at in range(len(longer) - spare, len(longer)):
                for w in [1, 1 << 31, words.high_weight(0)]:
                    self.refused(longer[:at] + [w] + longer[at + 1:])

    def test_capacity_is_at_most_4096(self):
        rows = filler_rows(4_097)
        most = self.made([4, 8, 8], rows.rsplit(" ", 1)[0])
        self.accepted(most)
        self.accepted(most + [0] * 60)
        self.refused(most + [0] * 59 + [1])
        self.refused(self.made([4, 8, 8], rows, spare=60))


class SixWordRows(EitherForm, Calls):
    FORM = SIX
    refused = Calls.refused_as_six
    accepted = Calls.accepted_as_six

    def test_weights_of_two_words(self):
        for weight in [FIVE_MAX_WEIGHT, FIVE_MAX_WEIGHT + 1, 1 << 55, MAX_WEIGHT]:
            self.accepted(self.made([3, 1], f"6,0:{weight} 1,0:5", spare=9))

    def test_high_words(self):
        for at in [9, 15]:
            for w in [0, 1, words.weight(0), words.weight(1), words.forbidden(), words.word(13, 0), words.cost(0), SIGNS[0]]:
                self.refused(self.changed(at, w))
            for high in [0, 1, 268_435_455]:
                self.accepted(self.changed(at, words.high_weight(high)) + [0] * 9)

    def test_low_word_of_0(self):
        for high in [1, 1 << 27, 268_435_455]:
            source = self.changed(8, words.weight(0)) + [0] * 9
            source[9] = words.high_weight(high)
            self.accepted(source)
            source[9] = words.weight(high)
            self.refused(source)

    def test_weight_words_in_the_other_order(self):
        source = list(self.good)
        source[8], source[9] = source[9], source[8]
        self.refused(source)


class FiveWordRows(EitherForm, Calls):
    FORM = FIVE
    refused = Calls.refused_as_five
    accepted = Calls.accepted_as_five

    def test_a_high_word_in_place_of_the_weight(self):
        for at in [8, 13]:
            for high in [0, 1, 268_435_455]:
                self.refused(self.changed(at, words.high_weight(high)))


class OneForm(Calls):
    """A table with rows is valid in its own form alone, one without rows in both."""

    ROWS = ["6,0:2", "6,0:2 1,0:5", "empty:1", "empty:268435455 6,0:268431361 1,0:1"]

    def test_no_row(self):
        for behind in range(14):
            self.accepted_as_six(table([3, 1], "", 4 + behind))
            self.accepted_as_five(table([3, 1], "", 4 + behind))

    def test_rows(self):
        for text in self.ROWS:
            for behind in range(14):
                count = len(text.split())
                self.refused_as_six(table([3, 1], text, table_length(2, count, behind, FIVE), FIVE))
                self.refused_as_five(table([3, 1], text, table_length(2, count, behind, SIX), SIX))

    def test_the_other_form_within_the_words(self):
        # The count is put down so that the words of one row could be those of the other form; the rest is not zero.
        five = table([3, 1], "6,0:2 1,0:5", 14, FIVE)
        self.refused_as_six(five[:3] + [words.row_count(1)] + five[4:])
        six = table([3, 1], "6,0:2", 10, SIX)
        self.refused_as_five(six)
        self.accepted_as_five(six[:9] + [0])
        self.accepted_as_five(six[:9])

    def test_as_many_words_as_the_other_form_would_have(self):
        # Six rows of five words are as long as five of six.
        text = "6,0:1 1,0:1 2,0:1 3,0:1 4,0:1 5,0:1"
        five = table([3, 1], text, 34, FIVE)
        self.accepted_as_five(five)
        self.refused_as_six(five)
        self.refused_as_six(five[:3] + [words.row_count(5)] + five[4:])
