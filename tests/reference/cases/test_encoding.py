"""Encoding an instance: the words of the table, its rows in order, and refusals 10 and 12."""

import unittest

from reference import encode, words
from reference.fields import forbidden, instance, table, table_length

ONE = [([(0, 0)], 3)]


class Encoding(unittest.TestCase):
    def test_words(self):
        # P3, with three words behind the last whole row.
        source = instance([2, 2], [([(0, 0), (1, 0)], 2), ([(0, 1), (1, 0)], 1)])
        self.assertEqual(encode(source, [0xFFFFFFFF] * 19),
                         (0, [0x10000002, 0x20000002, 0x20000002, 0xA0000002,
                              0x50000202, 0x51000000, 0x52000000, 0x53000000, 0x60000002, 0xC0000000,
                              0x50000201, 0x51000000, 0x52000000, 0x53000000, 0x60000001, 0xC0000000, 0, 0, 0]))

    def test_last_variable(self):
        # Variable 11 is the third of sign word 3; all values but 7 of 8 are 127.
        source = instance([1] * 11 + [8], [([(0, 0), (11, 7)], 65_535)])
        self.assertEqual(encode(source, [1] * 20)[1][13:],
                         [0xA0000001, 0x50000000, 0x51000000, 0x52000000, 0x537F0000, 0x6000FFFF, 0xC0000000])

    def test_repeats_add_in_place(self):
        # Cost 0 adds no row; a size of 1 gives no literal, so (0,0) is a constant here.
        entries = [([(1, 0)], 4), ([(1, 2)], 0), ([(0, 0)], 5), ([(1, 1)], 1), ([(0, 0), (1, 0)], 6), ([], 2)]
        self.assertEqual(encode(instance([1, 3], entries), [9] * 23), (0, table([1, 3], "0,6:10 0,0:7 0,5:1", 23)))

    def test_forbidden(self):
        # Such an entry makes its row like any other, and adds to it like any other.
        entries = [forbidden((0, 0), (1, 2)), ([(0, 0)], 4), forbidden((0, 0)), forbidden(), forbidden((0, 0), (1, 2))]
        self.assertEqual(encode(instance([2, 3], entries), [9] * 22),
                         (0, table([2, 3], "2,3:536862722 2,0:268431365 empty:268431361", 22)))

    def test_greatest_weight(self):
        source = instance([2], [([(0, 0)], 65_535)] * 4_096)
        self.assertEqual(encode(source, [9] * 9), (0, table([2], "2:268431360", 9)))
        source = instance([2], [forbidden((0, 0))] * 4_096)
        self.assertEqual(encode(source, [9] * 9), (0, table([2], "2:1099494854656", 9)))

    def test_too_short_for_head_sizes_and_count(self):
        source = instance([2, 2], [([], 1)])
        for length in range(4):
            self.assertEqual(encode(source, [7] * length), (10, [7] * length))
        self.assertEqual(encode(source, [7] * 4), (12, [7] * 4))

    def test_room_for_no_row(self):
        for length in range(3, 9):
            self.assertEqual(encode(instance([2], []), [7] * length), (0, table([2], "", length)))
            self.assertEqual(encode(instance([2], [([(0, 0)], 0)]), [7] * length).number, 0)
            self.assertEqual(encode(instance([2], ONE), [7] * length), (12, [7] * length))
            self.assertEqual(encode(instance([2], [forbidden((0, 0))]), [7] * length), (12, [7] * length))
        self.assertEqual(encode(instance([2], ONE), [7] * 9), (0, table([2], "2:3", 9)))

    def test_only_the_finished_rows_count(self):
        two = ONE + [([(0, 1)], 1)]
        self.assertEqual(encode(instance([2], two + ONE + two), [7] * 20), (0, table([2], "2:9 1:2", 20)))
        for length in [9, 13, 14]:
            self.assertEqual(encode(instance([2], two), [7] * length), (12, [7] * length))

    def test_input_before_state(self):
        self.assertEqual(encode([words.head(13)], []), (1, []))
        self.assertEqual(encode(instance([2], []) + [words.cost(65_536)], [7]), (4, [7]))

    def test_most_rows(self):
        # 4,096 different clauses of four variables with 8 values each fill a table of that capacity.
        entries = [([(0, at >> 9), (1, at >> 6 & 7), (2, at >> 3 & 7), (3, at & 7)], 1) for at in range(4_096)]
        source = instance([8] * 4, entries)
        length = table_length(4, 4_096)
        full = encode(source, [7] * (length + 50))
        self.assertEqual((full.number, full.table[5]), (0, words.row_count(4_096)))
        self.assertEqual(full.table[length:], [0] * 50)
        # 255 - 128 = 127 at every variable is the last row.
        self.assertEqual(full.table[length - 6:length],
                         [0x507F7F7F, 0x5100007F, 0x52000000, 0x53000000, 0x60000001, 0xC0000000])
        self.assertEqual(encode(source, [7] * (length - 1)), (12, [7] * (length - 1)))
