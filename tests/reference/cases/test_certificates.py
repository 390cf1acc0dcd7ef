"""Certificates: their words for worked fields, what is refused of them and in which order, and that those made are accepted."""

import random
import unittest

from reference import Buffers, certified, printed_plan, run_call, verified, words
from reference.certificates import BUFFERS, MOST_WORDS, Certificate, certificate_words, read_certificate, request
from reference.derivations import ended_otherwise
from reference.fields import all_forbidden, as_bytes, forbidden, growing_sheet, sheet
from reference.inputs import instance_of, made_words, read_sheet
from reference.limits import FORBIDDEN_WEIGHT, MAX_WEIGHT
from reference.planning import words_of
from reference.plans import rebuilt
from reference.tables import empty_weight, encode
from reference.words import binding, head, high_weight, step, weight

from .support import CONSTANT_FIRST, EXAMPLE, GROWING, HERE, LONGEST, cost_table, random_field

# The worked example has one spot and two. The rows of the second station are 2:14 and 1:10; their step leaves the empty row at 10.
WORDS = [0x10000002, 0x30000000, 0x30000101, 0x6000000A, 0xC0000000, 0x71000001]
FRONT, STEP = WORDS[:5], WORDS[5]
PLANNED = b"PLAN\nCOST 10\nSTEPS 1\n0 0 0\n1 1 10\n"
ACCEPTED = b"ACCEPTED\nCOST 10\nSTEPS 1\n0 0 0\n1 1 10\n"
# Without stations and words: a head of 0 and a claim of 0.
NOTHING = [0x10000000, 0x60000000, 0xC0000000]


class Verdicts(unittest.TestCase):
    def verdict(self, source, certificate, **buffers):
        return verified(request(source, as_bytes(certificate)), BUFFERS._replace(**buffers))

    def accepts(self, source, certificate, *lines, **buffers):
        expected = "".join(line + "\n" for line in ("ACCEPTED", *lines)).encode()
        self.assertEqual(self.verdict(source, certificate, **buffers), expected)

    def refuses(self, number, source, certificate, **buffers):
        self.assertEqual(self.verdict(source, certificate, **buffers), f"REFUSED {number}\n".encode())


class Made(unittest.TestCase):
    def test_worked_example(self):
        self.assertEqual(certified(EXAMPLE), (PLANNED, as_bytes(WORDS)))

    def test_no_words(self):
        self.assertEqual(certified(b""), (b"PLAN\nCOST 0\nSTEPS 0\n", as_bytes(NOTHING)))
        self.assertEqual(certified(as_bytes([head(0)])), (b"PLAN\nCOST 0\nSTEPS 0\n", as_bytes(NOTHING)))

    def test_no_variables_with_costs(self):
        source = as_bytes([head(0), words.cost(3), words.cost(65_535)])
        self.assertEqual(certified(source), (b"PLAN\nCOST 65538\nSTEPS 0\n", as_bytes([0x10000000, 0x60010002, 0xC0000000])))

    def test_greatest_cost(self):
        source = as_bytes(sheet([[HERE]], [([], 65_535)] * 4_096))
        self.assertEqual(certified(source)[1], as_bytes([0x10000001, 0x30000000, 0x6FFFF000, 0xC0000000]))

    def test_several_steps(self):
        # P2 with a constant first: empty:5 6:2 5:1 3:4. Rows 1 and 2 leave empty:5 6:1 3:4 4:1, then empty:5 3:3 4:1 2:1, and at
        # last empty:6.
        self.assertEqual(certified(CONSTANT_FIRST)[1],
                         as_bytes([0x10000001, 0x30000001, 0x60000006, 0xC0000000, 0x70001002, 0x70001002, 0x70001002]))

    def test_no_plan_no_certificate(self):
        self.assertEqual(certified(EXAMPLE[:-4]), (b"REFUSED 3\n", b""))
        self.assertEqual(certified(bytes(64_001)), (b"REFUSED 10\n", b""))
        self.assertEqual(certified(b"abc"), (b"REFUSED 1\n", b""))
        self.assertEqual(certified(as_bytes(sheet([[HERE]], [forbidden()]))), (b"REFUSED 15\n", b""))
        self.assertEqual(certified(CONSTANT_FIRST, Buffers(limit=2)), (b"PAUSED 2 BOUND 5\n", b""))
        self.assertEqual(certified(GROWING, Buffers(table=34)), (b"FULL 1 BOUND 1\n", b""))

    def test_buffers(self):
        self.assertEqual(BUFFERS, (16_000, 16_000, 200_000, 24_590, 200_000))
        self.assertEqual(MOST_WORDS, 200_015)
        # The planner's table has no room for these rows, the other one has.
        source = as_bytes(growing_sheet(12, 2_665))
        self.assertEqual(printed_plan(source), b"REFUSED 12\n")
        self.assertEqual(certified(source)[0].split(b"\n")[:3], [b"PLAN", b"COST 0", b"STEPS 1"])


class Accepted(Verdicts):
    def test_worked_example(self):
        self.assertEqual(verified(request(EXAMPLE, as_bytes(WORDS))), ACCEPTED)

    def test_no_words(self):
        for source in (b"", as_bytes([head(0)])):
            self.accepts(source, NOTHING, "COST 0", "STEPS 0")

    def test_another_order_of_steps(self):
        # As test_checker has it: of 6:2 5:1 3:4 rows 1 and 2, and then rows 0 and 2, two steps in place of three.
        source = as_bytes(sheet([[HERE] * 3], [([(0, 0)], 2), ([(0, 1)], 1), ([(0, 2)], 4)]))
        self.accepts(source, [head(1), binding(0, 1), weight(1), high_weight(0), step(0, 1, 2), step(0, 0, 2)],
                     "COST 1", "STEPS 2", "0 1 0")

    def test_before_the_end(self):
        # The second step of GROWING is not needed for the claim.
        front = [head(3), binding(0, 1), binding(1, 1), binding(2, 1), weight(1), high_weight(0)]
        for steps in ([step(0, 0, 1)], [step(0, 0, 1), step(1, 1, 2)]):
            self.accepts(GROWING, front + steps, "COST 1", f"STEPS {len(steps)}", "0 1 0", "1 1 0", "2 1 0")

    def test_forbidden_claims(self):
        # Every plan is forbidden: the first spot once, the second 17 times.
        source = as_bytes(sheet([[HERE] * 2], [forbidden((0, 0))] + [forbidden((0, 1))] * 17))
        front = [head(1), binding(0, 0), weight(268_431_361), high_weight(0)]
        self.accepts(source, front + [step(0, 0, 1)], "COST 268431361", "STEPS 1", "0 0 0")
        self.refuses(7, source, front)
        self.assertEqual(certified(source), (b"REFUSED 15\n", b""))

    def test_claims_above_32_bits(self):
        source = as_bytes(sheet([[HERE]], [forbidden()] * 17))
        self.accepts(source, [0x10000001, 0x30000000, 0x6FFEF011, 0xC0000010], "COST 4563333137", "STEPS 0", "0 0 0")
        # The same in 32 bits, in 28, and with bits above.
        for low, high in ((0xFFEF011, 0), (0xFFEF010, 16), (0xFFEF011, 17), (0xFFEF011, 0x8000010), (0, 0)):
            self.refuses(7, source, [0x10000001, 0x30000000, weight(low), high_weight(high)])


class Refused(Verdicts):
    def test_each_front_word(self):
        for at, changes in enumerate([[0x10000001, 0x10000003, 0x1000000D, 0x10000012, 0x20000002, 0x00000002],
                                      [0x30000001, 0x30000100, 0x30000008, 0x30001000, 0x38000000, 0x40000000, 0x00000000],
                                      [0x30000100, 0x30000001, 0x30000102, 0x30000107, 0x30000109, 0x30000201, 0x20000101],
                                      [0x60000009, 0x6000000B, 0x60000000, 0x6800000A, 0x7000000A, 0xC000000A],
                                      [0xC0000001, 0xC8000000, 0x60000000, 0xB0000000, 0xD0000000, 0x00000000]]):
            for word in changes:
                self.refuses(7, EXAMPLE, WORDS[:at] + [word] + WORDS[at + 1:])

    def test_step_word(self):
        for word in [0x71000000, 0x71001000, 0x71000002, 0x70000001, 0x72000001, 0x61000001, 0xD1000001, 0x00000000, 0xFFFFFFFF]:
            self.refuses(6, EXAMPLE, FRONT + [word])

    def test_trailing_word(self):
        for word in (0, STEP, head(2), weight(10), 0xFFFFFFFF):
            self.refuses(6, EXAMPLE, WORDS + [word])

    def test_cut_off(self):
        whole = as_bytes(WORDS)
        for length in range(len(whole)):
            self.assertEqual(verified(request(EXAMPLE, whole[:length])), b"REFUSED 7\n")
        for more in (1, 2, 3):
            self.assertEqual(verified(request(EXAMPLE, whole + bytes(more))), b"REFUSED 7\n")

    def test_another_number_of_variables(self):
        # The steps are replayed first: a step word that is bad decides, whatever the head says.
        for front in ([head(0)], [head(1), binding(0, 0)], [head(3), binding(0, 0), binding(1, 1), binding(2, 0)],
                      [head(12), *(binding(variable, 0) for variable in range(12))]):
            claim = [weight(10), high_weight(0)]
            self.refuses(7, EXAMPLE, front + claim + [STEP])
            self.refuses(6, EXAMPLE, front + claim + [STEP, STEP])

    def test_spot_out_of_range(self):
        for first, second in ((1, 1), (0, 2), (7, 7)):
            front = [head(2), binding(0, first), binding(1, second), weight(10), high_weight(0)]
            self.refuses(7, EXAMPLE, front + [STEP])
            self.refuses(6, EXAMPLE, front + [STEP, STEP])

    def test_dearer_plan(self):
        # The first spot costs 14; what the steps prove is 10.
        for cost in (10, 14):
            self.refuses(7, EXAMPLE, [head(2), binding(0, 0), binding(1, 0), weight(cost), high_weight(0), STEP])

    def test_full(self):
        # Four rows, of which the second step makes five.
        front = [head(3), binding(0, 1), binding(1, 1), binding(2, 1), weight(1), high_weight(0)]
        steps = [step(0, 0, 1), step(1, 1, 2)]
        self.accepts(GROWING, front + steps, "COST 1", "STEPS 2", "0 1 0", "1 1 0", "2 1 0", table=35)
        self.refuses(12, GROWING, front + steps, table=34)
        self.refuses(12, GROWING, front + [0], table=28)


class Order(Verdicts):
    """Everything is wrong at once; one fault after another is put right."""

    LONG = bytes(4 * MOST_WORDS)

    def test_sheet_first(self):
        for certificate in (b"", b"abc", self.LONG, self.LONG + b"\0"):
            for source, number in ((bytes(64_001), 10), (bytes(64_003), 10), (EXAMPLE[:-1], 1), (bytes(63_999), 1),
                                   (EXAMPLE[4:], 1), (EXAMPLE[:4], 2), (EXAMPLE[:-4], 3),
                                   (EXAMPLE + as_bytes([words.cost(65_536)]), 4),
                                   (EXAMPLE + as_bytes([words.cost(0)] * 4_094), 5), (self.longer_instance(), 10)):
                self.assertEqual(verified(request(source, certificate)), f"REFUSED {number}\n".encode())

    @staticmethod
    def longer_instance():
        """A sheet of 16,000 words whose instance has 16,001."""
        return as_bytes(sheet([[HERE]] * 4, [([(0, 0), (1, 0), (2, 0), (3, 0)], 1)] * 3_197 + [([(0, 0)], 1)]))

    def test_certificate(self):
        self.assertEqual(len(self.LONG), 800_060)
        for certificate, number in ((self.LONG + b"\0", 10), (self.LONG + bytes(4), 10), (self.LONG[:-1], 7), (self.LONG, 7),
                                    (as_bytes(FRONT) + self.LONG[20:] + b"\0", 10), (as_bytes(FRONT) + self.LONG[20:-1], 7),
                                    (as_bytes(FRONT) + self.LONG[20:], 6), (as_bytes(FRONT[:4] + [0, 0]), 7),
                                    (as_bytes(FRONT[:3] + [weight(9), high_weight(0), 0]), 6),
                                    (as_bytes(FRONT[:3] + [weight(9), high_weight(0), STEP]), 7)):
            self.assertEqual(verified(request(EXAMPLE, certificate)), f"REFUSED {number}\n".encode())

    def test_form_before_steps(self):
        self.refuses(7, EXAMPLE, [head(2), binding(0, 0), binding(1, 1) | 8, weight(10), high_weight(0), 0])
        self.refuses(6, EXAMPLE, [head(2), binding(0, 0), binding(1, 3), weight(10), high_weight(0), 0])

    def test_longest_sheet(self):
        front = [head(3), binding(0, 0), binding(1, 0), binding(2, 0), weight(3_998), high_weight(0)]
        self.assertEqual(len(LONGEST), 64_000)
        self.accepts(LONGEST, front, "COST 3998", "STEPS 0", "0 0 0", "1 0 0", "2 0 0")
        self.assertEqual(verified(request(LONGEST + b"\0", as_bytes(front))), b"REFUSED 10\n")


class Requests(unittest.TestCase):
    WHOLE = request(EXAMPLE, as_bytes(WORDS))

    def test_layout(self):
        self.assertEqual(self.WHOLE, b"\x2c\0\0\0" + EXAMPLE + as_bytes(WORDS))

    def test_cut_requests(self):
        # Up to the length a sheet of no words, whose certificate is missing; within the sheet its own fault.
        for length in range(len(self.WHOLE)):
            got = verified(self.WHOLE[:length])
            if length <= 4 or length >= 48:
                self.assertEqual(got, b"REFUSED 7\n")
            elif length % 4:
                self.assertEqual(got, b"REFUSED 1\n")
            else:
                self.assertIn(got, (b"REFUSED 2\n", b"REFUSED 3\n", b"REFUSED 7\n"))

    def test_lengths_that_are_wrong(self):
        # The sheet and the certificate are parted elsewhere: a word of the one is taken for one of the other.
        rest = self.WHOLE[4:]
        for length, number in ((0, 7), (40, 3), (43, 1), (45, 1), (48, 3), (64_000, 3), (0xFFFFFFFF, 3), (0x2C000000, 3)):
            self.assertEqual(verified(as_bytes([length]) + rest), f"REFUSED {number}\n".encode())
        # Bytes that do not come do not count for the length.
        self.assertEqual(verified(as_bytes([70_000]) + bytes(64_001)), b"REFUSED 10\n")
        self.assertEqual(verified(as_bytes([70_000]) + bytes(64_000)), b"REFUSED 1\n")


class Words(unittest.TestCase):
    def test_there_and_back(self):
        for made in (Certificate([], 0, []), Certificate([1], 1 << 28, [0]),
                     Certificate([7] * 12, MAX_WEIGHT, [step(11, 4_094, 4_095)] * 3)):
            self.assertEqual(read_certificate(certificate_words(made)), made)


class Random(unittest.TestCase):
    """Small random fields: what is made is accepted, at the least cost by definition; and so is a derivation with other pairs."""

    def hold(self, rng, chosen):
        sizes, entries = random_field(rng)
        source = sheet([[(rng.randrange(900), rng.randrange(900)) for _ in range(size)] for size in sizes], entries)
        text, certificate = certified(as_bytes(source))
        every = instance_of(read_sheet(source)).entries
        costs = cost_table(sizes, every)
        self.assertEqual(text == b"REFUSED 15\n", all_forbidden(sizes, every))
        if certificate:
            self.assertEqual(verified(request(as_bytes(source), certificate)), text.replace(b"PLAN", b"ACCEPTED"))
            self.assertEqual(read_certificate(words_of(certificate)).cost, min(costs.values()))
        derivation, rows = ended_otherwise(made_words(source), chosen)
        other = Certificate(rebuilt(sizes, rows), empty_weight(rows), derivation)
        self.assertEqual((other.cost, costs[tuple(other.assignment)]), (min(costs.values()),) * 2)
        told = verified(request(as_bytes(source), as_bytes(certificate_words(other)))).decode().split("\n")
        self.assertEqual(told[:3], ["ACCEPTED", f"COST {other.cost}", f"STEPS {len(derivation)}"])
        return as_bytes(certificate_words(other)) == certificate, other.cost >= FORBIDDEN_WEIGHT

    def test_accepted(self):
        rng = random.Random(11)
        # Among them are certificates that are the planner's and others, and claims above every ordinary cost and others.
        for found in zip(*(self.hold(rng, rng.choice) for _ in range(150))):
            self.assertGreater(min(found.count(True), found.count(False)), 10)

    def test_first_pairs_are_the_planners(self):
        rng = random.Random(12)
        for _ in range(60):
            sizes, entries = random_field(rng)
            source = as_bytes(sheet([[HERE] * size for size in sizes], entries))
            instance = made_words(words_of(source))
            derivation, _ = ended_otherwise(instance, lambda pairs: pairs[0])
            ran = run_call(encode(instance, [0] * BUFFERS.table).table, 1_000, [0] * 1_000)
            self.assertEqual(derivation, ran.derivation[:ran.steps])
