"""Faults 1 to 5 of instances and sheets, the bounds, and the instance made from a sheet."""

import unittest

from reference import check_call, encode, make_instance, readout_call, words
from reference.fields import forbidden, instance, sheet
from reference.inputs import cost_call

ROOM = [3] * 20_000
TWO = [words.head(2), words.size(2), words.size(3)]
PLACE = [words.easting(0), words.northing(0)]


class Faults(unittest.TestCase):
    def refused(self, number, source):
        """The same number from both calls that read an instance, with nothing changed."""
        self.assertEqual(encode(source, ROOM[:40]), (number, ROOM[:40]))
        self.assertEqual(check_call(source, [1], [9], 0, ROOM[:40]), (number, 0, ROOM[:40]))

    def refused_sheet(self, number, source):
        self.assertEqual(make_instance(source, ROOM[:40]), (number, 0, ROOM[:40]))
        self.assertEqual(readout_call(source, [9], 99, 0, 0), (number, 0))

    def accepted(self, source):
        self.assertEqual(encode(source, ROOM).number, 0)

    def accepted_sheet(self, source):
        self.assertEqual(make_instance(source, ROOM).number, 0)

    def test_head(self):
        heads = [[words.size(1)], [words.cost(1)], [words.head(13)], [words.head(1 << 4)], [words.head(1 << 4 | 1)],
                 [words.head(1 << 27)], [words.head(1 << 27 | 1)], [0], [1], [words.forbidden()], [words.forbidden(1)],
                 [words.high_weight(1)], [words.word(15, 1)]]
        for source in heads:
            self.refused(1, source)
            self.refused_sheet(1, source)

    def test_twelve_and_thirteen_variables(self):
        self.accepted([words.head(12)] + [words.size(1)] * 12)
        self.refused(1, [words.head(13)] + [words.size(1)] * 13)
        self.accepted_sheet([words.head(12)] + [words.size(1), *PLACE] * 12)
        self.refused_sheet(1, [words.head(13)] + [words.size(1), *PLACE] * 13)

    def test_no_variables(self):
        # No words at all, and a head of 0 with constant costs: these are a sheet and an instance at once.
        for rest in [[], [words.cost(0)], [words.forbidden()], [words.cost(65_535), words.forbidden(), words.cost(1)],
                     [words.cost(1)] * 4_096, [words.forbidden()] * 4_096]:
            self.accepted([words.head(0)] + rest)
            self.accepted_sheet([words.head(0)] + rest)
        self.accepted([])
        self.accepted_sheet([])

    def test_faults_without_variables(self):
        low, high, most = words.cost(1), words.cost(65_536), [words.cost(0)] * 4_096
        pair, unnamed, station = words.binding(0, 0), words.forbidden(1), [words.size(1), *PLACE]
        others = [pair, unnamed, words.head(0), words.head(1), *station, words.weight(1), words.row_count(0), words.high_weight(0), 0]
        faults = [(3, [low, other]) for other in others] + [(3, [other, low]) for other in others]
        faults += [(3, [low, pair, words.forbidden()]), (3, [pair, high]), (3, station + [high]), (4, [high]), (4, [low, high]),
                   (4, [high, pair]), (5, most + [low]), (5, most + [words.forbidden()]), (4, most + [high]),
                   (3, most + [unnamed]), (3, most + [pair]), (3, most + station)]
        for number, rest in faults:
            self.refused(number, [words.head(0)] + rest)
            self.refused_sheet(number, [words.head(0)] + rest)

    def test_sizes(self):
        for wrong in [words.size(0), words.size(9), words.size(1 << 8 | 2), words.head(1), words.cost(1), 2,
                      words.forbidden(), words.forbidden(1), words.high_weight(1)]:
            self.refused(2, [words.head(2), words.size(1), wrong])
            self.refused_sheet(2, [words.head(2), words.size(1), *PLACE, wrong, *PLACE])
        self.refused(2, [words.head(2), words.size(1)])
        self.refused_sheet(2, [words.head(2), words.size(1), *PLACE])
        self.accepted([words.head(2), words.size(1), words.size(8)])

    def test_coordinates_missing_or_of_another_kind(self):
        start = [words.head(1), words.size(2), *PLACE]
        east, north = words.easting(5), words.northing(5)
        for rest in [[], [east], [north, east], [east, east], [north, north], [words.cost(1)], [east, words.cost(1)],
                     [words.forbidden()], [words.forbidden(5), north], [east, words.forbidden()], [east, words.forbidden(5)],
                     [words.high_weight(5), north], [east, words.high_weight(5)]]:
            self.refused_sheet(2, start + rest)
        self.accepted_sheet(start + [east, north])

    def test_coordinates_at_the_bound(self):
        for east, north in [(1_000_000, 0), (-1_000_000, 0), (0, 1_000_000), (0, -1_000_000)]:
            self.accepted_sheet([words.head(1), words.size(1), words.easting(east), words.northing(north)])
        for east, north in [(1_000_001, 0), (-1_000_001, 0), (0, 1_000_001), (0, -1_000_001)]:
            self.refused_sheet(2, [words.head(1), words.size(1), words.easting(east), words.northing(north)])

    def test_entry_words(self):
        end = [words.cost(1)]
        wrong = [words.binding(2, 0), words.binding(15, 0), words.binding(0, 2), words.binding(1, 3),
                 words.size(1), words.weight(1), words.easting(0), words.head(2), words.step(0, 0, 1), 0,
                 words.high_weight(0), words.high_weight(1), words.word(15, 0)]
        for bad in wrong:
            self.refused(3, TWO + [bad] + end)
            self.refused(3, TWO + end + [words.binding(0, 1), bad] + end)

    def test_entries_of_a_sheet(self):
        start = [words.head(1), words.size(1), *PLACE]
        self.refused_sheet(3, start + [words.binding(0, 1), words.cost(1)])
        self.refused_sheet(3, start + [words.binding(1, 0), words.cost(1)])
        self.refused_sheet(3, start + [words.easting(0), words.cost(1)])
        self.refused_sheet(3, start + [words.binding(0, 0)])
        self.refused_sheet(4, start + [words.binding(0, 0), words.cost(65_536)])
        self.accepted_sheet(start + [words.binding(0, 0), words.cost(65_535)])

    def test_unnamed_bits_of_a_binding(self):
        for bit in [*range(3, 8), *range(12, 28)]:
            self.refused(3, TWO + [words.binding(1, 2) | 1 << bit, words.cost(1)])
        self.accepted(TWO + [words.binding(1, 2), words.cost(1)])

    def test_variables_must_rise(self):
        self.refused(3, TWO + [words.binding(0, 0), words.binding(0, 1), words.cost(1)])
        self.refused(3, TWO + [words.binding(1, 0), words.binding(0, 0), words.cost(1)])
        self.accepted(TWO + [words.binding(0, 0), words.binding(1, 0), words.cost(1)])
        # A new entry starts anew.
        self.accepted(TWO + [words.binding(1, 0), words.cost(1), words.binding(0, 0), words.cost(1)])

    def test_no_cost_at_the_end(self):
        self.refused(3, TWO + [words.binding(0, 0)])
        self.refused(3, TWO + [words.cost(1), words.binding(0, 0), words.binding(1, 0)])
        self.accepted(TWO)

    def test_twelve_bindings(self):
        start = [words.head(12)] + [words.size(8)] * 12
        self.accepted(start + [words.binding(variable, 7) for variable in range(12)] + [words.cost(1)])

    def test_costs(self):
        self.accepted(TWO + [words.cost(65_535)])
        for amount in [65_536, 1 << 27]:
            self.refused(4, TWO + [words.cost(amount)])
            self.refused(4, TWO + [words.binding(0, 0), words.cost(amount)])

    def test_forbidden_in_the_place_of_a_cost(self):
        pair = [words.binding(0, 1), words.binding(1, 2)]
        start = [words.head(2), words.size(2), *PLACE * 2, words.size(3), *PLACE * 3]
        for bindings in [[], pair[:1], pair[1:], pair]:
            self.accepted(TWO + bindings + [words.forbidden()])
            self.accepted(TWO + bindings + [words.forbidden()] + bindings + [words.cost(1)])
            self.accepted_sheet(start + bindings + [words.forbidden()])
        # It closes its entry: the next one starts anew.
        self.accepted(TWO + [words.binding(1, 0), words.forbidden(), words.binding(0, 0), words.cost(1)])
        self.refused(3, TWO + [words.binding(1, 0), words.binding(0, 0), words.forbidden()])
        self.refused(3, TWO + [words.binding(2, 0), words.forbidden()])
        self.refused(3, TWO + [words.forbidden(), words.binding(0, 0)])

    def test_unnamed_bits_of_forbidden(self):
        for bit in range(28):
            for bindings in [[], [words.binding(0, 0)]]:
                self.refused(3, TWO + bindings + [words.forbidden(1 << bit)])
                self.refused(3, TWO + [words.forbidden()] + bindings + [words.forbidden(1 << bit)])
            self.refused_sheet(3, [words.head(1), words.size(1), *PLACE, words.forbidden(1 << bit)])
        self.refused(3, TWO + [words.forbidden(65_536)])

    def test_forbidden_weighs_no_ordinary_cost(self):
        # The number itself is no cost word's, and 65,535 is none.
        self.refused(4, TWO + [words.cost(268_431_361)])
        source = TWO + [words.binding(0, 0), words.forbidden(), words.cost(65_535), words.binding(1, 2), words.forbidden()]
        for assignment, cost in [([1, 0], 65_535), ([0, 0], 268_496_896), ([1, 2], 268_496_896), ([0, 2], 536_928_257)]:
            self.assertEqual(cost_call(source, assignment), (0, cost))
        self.assertEqual(cost_call(TWO + [words.forbidden()] * 4_096, [0, 0]), (0, 1_099_494_854_656))

    def test_forbidden_entries_count(self):
        for most in [TWO + [words.forbidden()] * 4_096, TWO + [words.binding(0, 0), words.forbidden()] * 4_096,
                     TWO + [words.cost(0)] * 4_095 + [words.forbidden()], TWO + [words.forbidden(), words.cost(0)] * 2_048]:
            self.accepted(most)
            for closing in [words.forbidden(), words.cost(0)]:
                self.refused(5, most + [closing])
                self.refused(5, most + [words.binding(0, 0), closing])
            self.refused(3, most + [words.forbidden(1)])
            self.refused(3, most + [words.binding(0, 0), words.forbidden(1)])
            self.refused(3, most + [words.binding(0, 2), words.forbidden()])
            self.refused(4, most + [words.cost(65_536)])

    def test_entry_limit(self):
        most = TWO + [words.cost(0)] * 4_096
        self.accepted(most)
        self.refused(5, most + [words.cost(0)])
        self.refused(5, most + [words.binding(0, 0), words.cost(0)])
        self.refused(5, most + [words.cost(65_535)])
        self.refused(4, most + [words.cost(65_536)])
        self.refused(3, most + [words.binding(0, 2), words.cost(0)])
        self.refused(3, most + [words.binding(0, 0)])

    def test_travel_counts_first(self):
        # Three legs of 0 m, of which each counts.
        start = [words.head(3), words.size(1), *PLACE, words.size(1), *PLACE, words.size(2), *PLACE, *PLACE]
        most = start + [words.cost(1)] * 4_093
        self.accepted_sheet(most)
        self.refused_sheet(5, most + [words.cost(1)])
        self.refused_sheet(5, most + [words.forbidden()])
        self.refused_sheet(4, most + [words.cost(65_536)])
        self.refused_sheet(3, most + [words.forbidden(1)])
        self.accepted_sheet(start + [words.forbidden()] * 4_093)
        self.refused_sheet(5, start + [words.forbidden()] * 4_094)

    def test_nearest_the_front_decides(self):
        low, high = words.cost(1), words.cost(65_536)
        bad = words.binding(2, 0)
        self.refused(4, TWO + [high, bad, low])
        self.refused(3, TWO + [bad, high])
        self.refused(2, [words.head(1), words.size(9), bad, high])
        self.refused(1, [words.head(13), words.size(9), bad])
        self.refused(3, TWO + [words.forbidden(1), high])
        self.refused(4, TWO + [high, words.forbidden(1)])
        self.refused(5, TWO + [low] * 4_097 + [bad, high])
        self.refused(5, TWO + [words.forbidden()] * 4_097 + [words.forbidden(1)])
        self.refused(3, TWO + [low] * 4_095 + [bad, low, low, low])
        self.refused_sheet(2, [words.head(1), words.size(1), words.easting(1_000_001), words.size(9), bad, high])
        self.refused_sheet(4, [words.head(1), words.size(1), *PLACE, high, bad, low])


class MadeInstance(unittest.TestCase):
    # From (0,0) to (10000,0) 100 m and to (20000,0) 200 m; from (0,10000) the squares are 2 * 10^8, so 141 m,
    # and 5 * 10^8, so 224 m; to (10000,10000) it is 100 m and 141 m.
    PLACES = [[(0, 0), (0, 10_000)], [(10_000, 0), (20_000, 0)], [(10_000, 10_000)]]
    MADE = [0x10000003, 0x20000002, 0x20000002, 0x20000001,
            0x30000000, 0x30000100, 0x40000064, 0x30000000, 0x30000101, 0x400000C8,
            0x30000001, 0x30000100, 0x4000008D, 0x30000001, 0x30000101, 0x400000E0,
            0x30000100, 0x30000200, 0x40000064, 0x30000101, 0x30000200, 0x4000008D,
            0x40000004, 0x30000001, 0x40000000]

    def source(self):
        return sheet(self.PLACES, [([], 4), ([(0, 1)], 0)])

    def test_travel_first_and_in_counting_order(self):
        self.assertEqual(make_instance(self.source(), [8] * 25), (0, 25, self.MADE))

    def test_forbidden_entries_are_copied(self):
        entries = [forbidden(), forbidden((0, 1), (2, 0)), ([(1, 1)], 65_535), forbidden((1, 0))]
        self.assertEqual(make_instance(sheet(self.PLACES, entries), [8] * 31),
                         (0, 30, self.MADE[:22] + [0xB0000000, 0x30000001, 0x30000200, 0xB0000000,
                                                   0x30000101, 0x4000FFFF, 0x30000100, 0xB0000000, 8]))

    def test_rest_of_the_target_is_kept(self):
        self.assertEqual(make_instance(self.source(), [8] * 30), (0, 25, self.MADE + [8] * 5))

    def test_short_target_is_unchanged(self):
        self.assertEqual(make_instance(self.source(), [8] * 24), (10, 0, [8] * 24))
        self.assertEqual(make_instance(self.source(), []), (10, 0, []))

    def test_input_before_state(self):
        self.assertEqual(make_instance([words.head(13)], []), (1, 0, []))
        self.assertEqual(make_instance(self.source() + [words.cost(65_536)], []), (4, 0, []))

    def test_largest_instance(self):
        # Head, two sizes, the three words of one leg, 4,095 costs.
        source = sheet([[(0, 0)], [(0, 100)]], [([], 65_535)] * 4_095)
        made = make_instance(source, [0] * 4_101)
        self.assertEqual((made.number, made.written), (0, 4_101))
        self.assertEqual(made.target[:7], [0x10000002, 0x20000001, 0x20000001, 0x30000000, 0x30000100,
                                           0x40000001, 0x4000FFFF])
        self.assertEqual(instance([1, 1], [([(0, 0), (1, 0)], 1)] + [([], 65_535)] * 4_095), made.target)
