"""What the program prints: the worked example, every other line, and its buffers."""

import random
import subprocess
import sys
import unittest
from pathlib import Path

from reference import Buffers, printed_plan, words
from reference.fields import as_bytes, forbidden, growing_sheet, sheet

from .support import CONSTANT_FIRST, EXAMPLE, GROWING, HERE, LONGEST


class Lines(unittest.TestCase):
    def prints(self, source, *lines, **buffers):
        expected = "".join(line + "\n" for line in lines).encode()
        self.assertEqual(printed_plan(source, Buffers(**buffers)), expected)


class Printed(Lines):
    def test_worked_example(self):
        self.assertEqual(printed_plan(EXAMPLE), b"PLAN\nCOST 10\nSTEPS 1\n0 0 0\n1 1 10\n")

    def test_command(self):
        ran = subprocess.run([sys.executable, "-B", "-m", "reference"], input=EXAMPLE, capture_output=True,
                             cwd=Path(__file__).resolve().parent.parent, check=True)
        self.assertEqual(ran.stdout, b"PLAN\nCOST 10\nSTEPS 1\n0 0 0\n1 1 10\n")

    def test_default_buffers(self):
        self.assertEqual(Buffers(), (16_000, 16_000, 16_000, 15_998, 16_000))

    def test_metres_from_the_chosen_place(self):
        # One place each, 3 m, then 4 m and 65,535 for a combination that cannot be avoided.
        source = sheet([[(0, 0)], [(300, 0)], [(300, 449)]], [([(0, 0), (2, 0)], 65_535)])
        self.prints(as_bytes(source), "PLAN", "COST 65542", "STEPS 0", "0 0 0", "1 0 3", "2 0 4")

    def test_one_variable(self):
        self.prints(as_bytes(sheet([[HERE, HERE]], [])), "PLAN", "COST 0", "STEPS 0", "0 0 0")

    def test_paused_by_the_limit(self):
        # After two steps the rows are empty:5 3:3 4:1 2:1.
        self.prints(CONSTANT_FIRST, "PAUSED 2 BOUND 5", limit=2)
        self.prints(CONSTANT_FIRST, "PAUSED 0 BOUND 5", limit=0)
        self.prints(CONSTANT_FIRST, "PLAN", "COST 6", "STEPS 3", "0 1 0", limit=3)

    def test_paused_by_the_step_buffer(self):
        self.prints(CONSTANT_FIRST, "PAUSED 2 BOUND 5", steps=2)
        self.prints(CONSTANT_FIRST, "PLAN", "COST 6", "STEPS 3", "0 1 0", steps=3)

    def test_full(self):
        self.prints(GROWING, "FULL 1 BOUND 1", table=34)
        self.prints(GROWING, "PAUSED 1 BOUND 1", table=34, limit=1)
        self.prints(GROWING, "PLAN", "COST 1", "STEPS 2", "0 1 0", "1 1 0", "2 1 0", table=35)

    def test_encoding_refused(self):
        self.prints(GROWING, "REFUSED 12", table=28)
        self.prints(GROWING, "REFUSED 12", table=5)
        self.prints(GROWING, "REFUSED 10", table=4)

    def test_faults(self):
        self.prints(as_bytes([0]), "REFUSED 1")
        self.prints(as_bytes([words.head(13)]), "REFUSED 1")
        self.prints(as_bytes([words.head(1)]), "REFUSED 2")
        self.prints(EXAMPLE[:-4], "REFUSED 3")
        self.prints(EXAMPLE + as_bytes([words.cost(65_536)]), "REFUSED 4")
        # Two legs and the entry of the example are counted.
        self.prints(EXAMPLE + as_bytes([words.cost(0)] * 4_094), "REFUSED 5")
        self.prints(EXAMPLE + as_bytes([words.cost(0)] * 4_093), "PLAN", "COST 10", "STEPS 1", "0 0 0", "1 1 10")

    def test_length_not_a_multiple_of_four(self):
        for cut in [1, 2, 3]:
            self.prints(EXAMPLE[:-cut], "REFUSED 1")
            self.prints(EXAMPLE + bytes(cut), "REFUSED 1")
            self.prints(bytes(64_000 - cut), "REFUSED 1")

    def test_more_than_64000_bytes(self):
        for more in [1, 2, 4, 5, 1_000]:
            self.prints(bytes(64_000 + more), "REFUSED 10")
        self.prints(bytes(64_000), "REFUSED 1")

    def test_sheet_of_64000_bytes(self):
        self.assertEqual(len(LONGEST), 64_000)
        self.prints(LONGEST, "PLAN", "COST 3998", "STEPS 0", "0 0 0", "1 0 0", "2 0 0")
        self.prints(LONGEST, "REFUSED 10", instance=15_999)

    def test_instance_longer_than_its_buffer(self):
        # Four variables have eight coordinates and three legs of three words: 16,001 words from 16,000.
        entries = [([(0, 0), (1, 0), (2, 0), (3, 0)], 1)] * 3_197 + [([(0, 0)], 1)]
        source = as_bytes(sheet([[HERE]] * 4, entries))
        self.assertEqual(len(source), 64_000)
        self.prints(source, "REFUSED 10")
        self.prints(source[:-8] + as_bytes([words.binding(0, 0), words.cost(65_536)]), "REFUSED 4")


class Forbidden(Lines):
    def test_all_forbidden(self):
        self.prints(as_bytes(sheet([[HERE]], [forbidden()])), "REFUSED 15")
        self.prints(as_bytes(sheet([[HERE]], [forbidden((0, 0))])), "REFUSED 15")
        self.prints(as_bytes(sheet([[HERE] * 2, [HERE]], [forbidden((0, 0)), forbidden((0, 1), (1, 0))])), "REFUSED 15")

    def test_not_all_forbidden(self):
        two = [[HERE] * 2, [(300, 400)]]
        self.prints(as_bytes(sheet(two, [forbidden((0, 0))])), "PLAN", "COST 5", "STEPS 1", "0 1 0", "1 0 5")
        self.prints(as_bytes(sheet(two, [forbidden((0, 0)), ([(0, 1)], 65_535)])),
                    "PLAN", "COST 65540", "STEPS 1", "0 1 0", "1 0 5")

    def test_the_greatest_cost_forbids_nothing(self):
        self.prints(as_bytes(sheet([[HERE]], [([(0, 0)], 65_535)])), "PLAN", "COST 65535", "STEPS 0", "0 0 0")
        self.prints(as_bytes(sheet([[HERE]], [([], 65_535)] * 4_096)), "PLAN", "COST 268431360", "STEPS 0", "0 0 0")
        self.prints(as_bytes(sheet([[HERE]], [([], 65_535)] * 4_095 + [forbidden()])), "REFUSED 15")

    def test_many_small_costs(self):
        # Together they are above 65,535, which the other value costs or is forbidden.
        small = [([(0, 0)], 40_000)] * 3
        two = [[HERE] * 2]
        self.prints(as_bytes(sheet(two, small + [([(0, 1)], 65_535)])), "PLAN", "COST 65535", "STEPS 1", "0 1 0")
        self.prints(as_bytes(sheet(two, small + [forbidden((0, 1))])), "PLAN", "COST 120000", "STEPS 1", "0 0 0")

    def test_refused_where_the_run_is_done_alone(self):
        # The run has one step to make, and its table needs three rows.
        source = as_bytes(sheet([[HERE] * 2], [forbidden(), ([(0, 0)], 1), ([(0, 1)], 2)]))
        self.prints(source, "PAUSED 0 BOUND 268431361", limit=0)
        self.prints(source, "REFUSED 15", limit=1)
        self.prints(source, "REFUSED 15", table=21)
        self.prints(source, "REFUSED 12", table=20)

    def test_bounds_above_32_bits(self):
        source = as_bytes(sheet([[HERE] * 2], [forbidden()] * 4_094 + [([(0, 0)], 1), ([(0, 1)], 2)]))
        self.prints(source, "PAUSED 0 BOUND 1098957991934", limit=0)
        self.prints(source, "REFUSED 15")
        # Three rows, four after the step.
        source = as_bytes(sheet([[HERE] * 2] * 2, [forbidden()] * 17 + [([(0, 0)], 2), ([(0, 1), (1, 0)], 1)]))
        self.prints(source, "FULL 0 BOUND 4563333137", table=27)
        self.prints(source, "REFUSED 15", table=28)

    def test_faults(self):
        start = as_bytes(sheet([[HERE]], []))
        self.prints(start + as_bytes([words.forbidden(1)]), "REFUSED 3")
        self.prints(start + as_bytes([words.forbidden()] * 4_097), "REFUSED 5")
        self.prints(start + as_bytes([words.forbidden()] * 4_096), "REFUSED 15")


class Rows(Lines):
    def test_most_rows(self):
        # The program's table has room for 2,665 rows with up to six variables, for 2,664 with more.
        self.prints(as_bytes(growing_sheet(6, 2_664)),
                    "PLAN", "COST 0", "STEPS 1", "0 1 0", "1 1 0", "2 0 0", "3 0 0", "4 0 0", "5 0 0")
        for variables, most in [(6, 2_665), (7, 2_664), (12, 2_664)]:
            self.prints(as_bytes(growing_sheet(variables, most)), "FULL 0 BOUND 0")
            self.prints(as_bytes(growing_sheet(variables, most + 1)), "REFUSED 12")


class Chains(unittest.TestCase):
    """Fields in which only neighbours and single values cost: their least cost is found from one end to the other."""

    @staticmethod
    def metres(here, there):
        square = (here[0] - there[0]) ** 2 + (here[1] - there[1]) ** 2
        found = 0
        while 2_500 * (2 * found + 1) ** 2 <= square:
            found += 1
        return found

    def least_cost(self, places, single):
        reached = list(single[0])
        for variable in range(1, len(places)):
            reached = [single[variable][value]
                       + min(cost + self.metres(before, place)
                             for cost, before in zip(reached, places[variable - 1]))
                       for value, place in enumerate(places[variable])]
        return min(reached)

    def hold(self, rng, variables, values):
        places = [[(2_000 * variable + rng.randrange(1_000), rng.randrange(-3_000, 3_000)) for _ in range(values)]
                  for variable in range(variables)]
        single = [[rng.randrange(30) for _ in range(values)] for _ in range(variables)]
        entries = [([(variable, value)], single[variable][value])
                   for variable in range(variables) for value in range(values)]
        lines = printed_plan(as_bytes(sheet(places, entries))).decode().split("\n")
        self.assertEqual((lines[0], lines[1], lines[-1]), ("PLAN", f"COST {self.least_cost(places, single)}", ""))
        chosen = [[int(part) for part in line.split(" ")] for line in lines[3:-1]]
        self.assertEqual([line[0] for line in chosen], list(range(variables)))
        paid = sum(single[variable][value] + metres for variable, value, metres in chosen)
        self.assertEqual(lines[1], f"COST {paid}")

    def test_chains(self):
        rng = random.Random(20)
        for variables, values in [(2, 3), (3, 3), (4, 4), (5, 3), (6, 4), (12, 2), (3, 8), (2, 8)]:
            self.hold(rng, variables, values)
