"""Document 01's small fields P1 to P8: encoding, steps, final rows, assignment and check."""

import unittest
from typing import NamedTuple

from reference import check_call, encode, plan_call, run_call, step_call, words
from reference.distance import distance, whole_metres
from reference.fields import instance, table, table_length


class Case(NamedTuple):
    sizes: list
    entries: list
    encoded: str
    steps: list         # (variable, first row, second row)
    final: str
    bound: int
    assignment: list


# The rows before the first step and the pairs are worked out by hand; all else stands in document 01.
CASES = {
    "P1": Case([2], [([(0, 0)], 3), ([(0, 1)], 1)], "2:3 1:1", [(0, 0, 1)], "2:2 empty:1", 1, [1]),
    # 6:2 5:1 3:4, then 6:1 3:4 4:1, then 3:3 4:1 2:1, then the end: always rows 0 and 1.
    "P2": Case([3], [([(0, 0)], 2), ([(0, 1)], 1), ([(0, 2)], 4)], "6:2 5:1 3:4",
               [(0, 0, 1)] * 3, "3:2 2:1 empty:1", 1, [1]),
    "P3": Case([2, 2], [([(0, 0), (1, 0)], 2), ([(0, 1), (1, 0)], 1)], "2,2:2 1,2:1",
               [(0, 0, 1)], "2,2:1 0,2:1", 0, [0, 1]),
    "P4": Case([2, 2], [([(0, 0)], 1), ([(0, 1), (1, 0)], 1)], "2,0:1 1,2:1",
               [(0, 0, 1)], "0,2:1 2,1:1", 0, [1, 1]),
    "P5": Case([1], [([(0, 0)], 7)], "empty:7", [], "empty:7", 7, [0]),
    "P6": Case([1], [([], 0)], "", [], "", 0, [0]),
}


class SmallFields(unittest.TestCase):
    def hold(self, case):
        length = table_length(len(case.sizes), 8, 3)
        source = instance(case.sizes, case.entries)
        start = table(case.sizes, case.encoded, length)
        end = table(case.sizes, case.final, length)
        derivation = [words.step(*pair) for pair in case.steps]
        count = len(derivation)
        self.assertEqual(encode(source, [7] * length), (0, start))
        self.assertEqual(run_call(start, 100, [5] * 10),
                         ("done", 0, count, case.bound, end, derivation + [5] * (10 - count)))
        self.assertEqual(plan_call(end, [9] * 4), (0, case.assignment + [9] * (4 - len(case.sizes))))
        self.assertEqual(check_call(source, derivation, case.assignment, case.bound, [6] * length),
                         (0, count, end))

    def test_p1(self):
        self.hold(CASES["P1"])

    def test_p2(self):
        self.hold(CASES["P2"])

    def test_p3(self):
        self.hold(CASES["P3"])

    def test_p4(self):
        self.hold(CASES["P4"])

    def test_p5(self):
        self.hold(CASES["P5"])

    def test_p6(self):
        self.hold(CASES["P6"])

    def test_p2_step_by_step(self):
        between = ["6:2 5:1 3:4", "6:1 3:4 4:1", "3:3 4:1 2:1", "3:2 2:1 empty:1"]
        tables = [table([3], rows, 30) for rows in between]
        for before, after in zip(tables, tables[1:]):
            self.assertEqual(step_call(before), ("stepped", 0, 0x70000001, after))
        self.assertEqual(step_call(tables[-1]), ("done", 0, 0, tables[-1]))

    def test_p7_nested_signs(self):
        nested = table([3], "3:1 2:1", 20)
        self.assertEqual(step_call(nested), ("done", 0, 0, nested))

    def test_p8_root(self):
        self.assertEqual(whole_metres(2_499), 0)
        self.assertEqual(whole_metres(2_500), 1)

    def test_every_root_of_the_first_metres(self):
        # A distance comes to as many metres as there are halves, 50 cm, 150 cm and so on, that it has reached.
        halves = [half * half for half in range(50, 500, 100)]
        for square in range(100_001):
            self.assertEqual(whole_metres(square), sum(half <= square for half in halves))

    def test_roots_around_every_half(self):
        for metres in range(28_285):
            half = 50 * (2 * metres + 1)
            self.assertEqual([whole_metres(half * half + more) for more in (-1, 0, 1)], [metres, metres + 1, metres + 1])
            self.assertEqual([whole_metres(10_000 * metres * metres + more) for more in (0, 1)], [metres, metres])

    def test_longest_distance(self):
        # 8 * 10^12 lies between the squares of 28,284 m (7,999,846,560,000) and of half a metre more (8,000,129,402,500).
        self.assertEqual(distance((-1_000_000, -1_000_000), (1_000_000, 1_000_000)), 28_284)
