"""The readout: metres to the chosen place, and refusal 8 after the sheet's faults."""

import unittest

from reference import readout_call, words
from reference.fields import sheet
from reference.words import easting, northing

SOURCE = sheet([[(0, 0)], [(300, 400), (600, 800)]], [([(1, 0)], 9)])
HERE = (easting(0), northing(0))


class Readout(unittest.TestCase):
    def refused(self, *arguments):
        self.assertEqual(readout_call(SOURCE, *arguments), (8, 0))

    def test_metres(self):
        self.assertEqual(readout_call(SOURCE, [0, 0], 1, *HERE), (0, 5))
        self.assertEqual(readout_call(SOURCE, [0, 1], 1, *HERE), (0, 10))
        self.assertEqual(readout_call(SOURCE, [0, 1], 0, *HERE), (0, 0))
        # From (-300,400) to (600,800): 900 and 400, the square 970,000 lies between those of 9.5 and 10 metres.
        self.assertEqual(readout_call(SOURCE, [0, 1], 1, easting(-300), northing(400)), (0, 10))

    def test_variable(self):
        for variable in [2, 3, 12, 2 ** 32]:
            self.refused([0, 1], variable, *HERE)

    def test_position_at_the_bound(self):
        # 10^12 is 10,000 m; 999,400 squared and 800 squared make 998,801,000,000, and 9,994 squared is 99,880,036.
        for place in [(easting(1_000_000), northing(0)), (easting(-1_000_000), northing(0)),
                      (easting(0), northing(1_000_000)), (easting(0), northing(-1_000_000))]:
            self.assertEqual(readout_call(SOURCE, [0, 1], 0, *place), (0, 10_000))
        self.assertEqual(readout_call(SOURCE, [0, 1], 1, easting(1_000_000), northing(0)), (0, 9_994))

    def test_position_out_of_range(self):
        for place in [(easting(1_000_001), northing(0)), (easting(-1_000_001), northing(0)),
                      (easting(0), northing(1_000_001)), (easting(0), northing(-1_000_001))]:
            self.refused([0, 1], 0, *place)

    def test_position_of_another_kind(self):
        for place in [(northing(0), easting(0)), (easting(0), easting(0)), (northing(0), northing(0)), (0, 0),
                      (easting(0), words.cost(0)), (words.size(0), northing(0))]:
            self.refused([0, 1], 0, *place)

    def test_assignment(self):
        for assignment in [[], [0], [0, 1, 0], [0, 2], [0, 255]]:
            self.refused(assignment, 0, *HERE)
        # The value of a variable that is not asked for.
        self.refused([1, 0], 1, *HERE)

    def test_sheet_first(self):
        self.assertEqual(readout_call([words.head(13)], [], 99, 0, 0), (1, 0))
        self.assertEqual(readout_call(SOURCE[:5], [], 99, 0, 0), (2, 0))
        self.assertEqual(readout_call(SOURCE[:-1], [], 99, 0, 0), (3, 0))
        self.assertEqual(readout_call(SOURCE + [words.cost(65_536)], [0, 1], 0, *HERE), (4, 0))
        self.assertEqual(readout_call(SOURCE + [words.cost(0)] * 4_094, [0, 1], 0, *HERE), (5, 0))
        self.assertEqual(readout_call(SOURCE + [words.cost(0)] * 4_093, [0, 1], 0, *HERE), (0, 0))
