"""The layout of every word, written out in hexadecimal."""

import unittest

from reference import words
from reference.fields import forbidden, instance, sheet, table
from reference.forms import FIVE, SIX
from reference.limits import FIVE_MAX_WEIGHT, FORBIDDEN_WEIGHT, MAX_WEIGHT


class Words(unittest.TestCase):
    def test_each_kind(self):
        self.assertEqual(words.head(12), 0x1000000C)
        self.assertEqual(words.size(8), 0x20000008)
        self.assertEqual(words.binding(11, 7), 0x30000B07)
        self.assertEqual(words.cost(65_535), 0x4000FFFF)
        self.assertEqual(words.signs(3, [1, 2, 4]), 0x53040201)
        self.assertEqual(words.weight(268_435_455), 0x6FFFFFFF)
        self.assertEqual(words.step(11, 4_094, 4_095), 0x7BFFEFFF)
        self.assertEqual(words.step(1, 2, 3), 0x71002003)
        self.assertEqual(words.easting(300), 0x8000012C)
        self.assertEqual(words.easting(-1), 0x8FFFFFFF)
        self.assertEqual(words.northing(-1_000_000), 0x9FF0BDC0)
        self.assertEqual(words.row_count(4_096), 0xA0001000)
        self.assertEqual(words.forbidden(), 0xB0000000)
        self.assertEqual(words.high_weight(268_435_455), 0xCFFFFFFF)

    def test_weights(self):
        self.assertEqual(FORBIDDEN_WEIGHT, 268_431_361)
        self.assertEqual(MAX_WEIGHT, 72_057_594_037_927_935)
        self.assertEqual(SIX.weight_words(FORBIDDEN_WEIGHT), [0x6FFFF001, 0xC0000000])
        self.assertEqual(SIX.weight_words(1 << 28), [0x60000000, 0xC0000001])
        self.assertEqual(SIX.weight_words(MAX_WEIGHT), [0x6FFFFFFF, 0xCFFFFFFF])

    def test_weights_of_one_word(self):
        self.assertEqual(FIVE_MAX_WEIGHT, 268_435_455)
        self.assertEqual(FIVE.weight_words(FORBIDDEN_WEIGHT), [0x6FFFF001])
        self.assertEqual(FIVE.weight_words(FIVE_MAX_WEIGHT), [0x6FFFFFFF])

    def test_unpacking(self):
        self.assertEqual(words.coordinate_of(0x9FF0BDC0), -1_000_000)
        self.assertEqual(words.coordinate_of(0x87FFFFFF), 134_217_727)
        self.assertEqual(words.coordinate_of(0x88000000), -134_217_728)
        self.assertEqual(words.binding_of(0x30000B07), (11, 7))
        self.assertEqual(words.signs_of(0x53040201, 3), [1, 2, 4])
        self.assertIsNone(words.signs_of(0x53040201, 2))
        self.assertEqual(words.step_of(0x71002003), (1, 2, 3))
        self.assertIsNone(words.step_of(0x61002003))

    def test_built_instance(self):
        self.assertEqual(instance([1, 2], [([(0, 0), (1, 1)], 5), forbidden((1, 0)), ([], 7)]),
                         [0x10000002, 0x20000001, 0x20000002, 0x30000000, 0x30000101, 0x40000005,
                          0x30000100, 0xB0000000, 0x40000007])

    def test_built_sheet(self):
        self.assertEqual(sheet([[(0, 0)], [(300, 400), (-1, 2)]], [([(1, 0)], 9)]),
                         [0x10000002, 0x20000001, 0x80000000, 0x90000000,
                          0x20000002, 0x8000012C, 0x90000190, 0x8FFFFFFF, 0x90000002, 0x30000100, 0x40000009])

    def test_built_table(self):
        # Four variables: the fourth is the first of the second sign word.
        self.assertEqual(table([2, 3, 4, 2], f"2,5,8,1:9 empty:{3 << 28 | 4}", 20),
                         [0x10000004, 0x20000002, 0x20000003, 0x20000004, 0x20000002, 0xA0000002,
                          0x50080502, 0x51000001, 0x52000000, 0x53000000, 0x60000009, 0xC0000000,
                          0x50000000, 0x51000000, 0x52000000, 0x53000000, 0x60000004, 0xC0000003, 0, 0])
        self.assertEqual(table([2, 3, 4, 2], "2,5,8,1:9 empty:4", 18, FIVE),
                         [0x10000004, 0x20000002, 0x20000003, 0x20000004, 0x20000002, 0xA0000002,
                          0x50080502, 0x51000001, 0x52000000, 0x53000000, 0x60000009,
                          0x50000000, 0x51000000, 0x52000000, 0x53000000, 0x60000004, 0, 0])
