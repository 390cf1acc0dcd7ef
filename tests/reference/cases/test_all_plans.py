"""Small fields against all their assignments, after every step and at the end, where any last values are completed."""

import random
from itertools import product

from reference import check_call, complete_call, encode, plan_call, run_call, step_call
from reference.fields import all_forbidden, instance, table_length
from reference.limits import FORBIDDEN_WEIGHT

from .support import Comparison, cost_table, random_field


class Fields(Comparison):
    def hold(self, sizes, entries, source=None):
        """The words of the field are those of an instance, or others that say the same."""
        source, costs = instance(sizes, entries) if source is None else source, cost_table(sizes, entries)
        start = encode(source, [5] * table_length(len(sizes), 200, 3)).table
        derivation, table = self.step_to_the_end(start, costs)
        bound = self.conserved(table, costs)
        self.assertEqual(bound, min(costs.values()))
        self.assertEqual(run_call(start, 9_999, [4] * (len(derivation) + 1)),
                         ("done", 0, len(derivation), bound, table, derivation + [4]))
        assignment = complete_call(table, len(sizes), [], [8] * len(sizes)).target
        self.assertEqual(plan_call(table, [8] * 5), (15, [8] * 5) if all_forbidden(sizes, entries)
                         else (0, assignment + [8] * (5 - len(sizes))))
        self.assertEqual(costs[tuple(assignment)], bound)
        self.assertEqual(check_call(source, derivation, assignment, bound, [6] * len(start)),
                         (0, len(derivation), table))
        self.completed(table, costs)
        return len(derivation)

    def step_to_the_end(self, table, costs):
        """The step words and the last table, each step held against the plain reading and all assignments."""
        derivation = []
        while True:
            self.conserved(table, costs)
            answer = step_call(table)
            self.same_step(table, answer)
            table = answer.table
            if answer.outcome != "stepped":
                self.assertEqual(answer.outcome, "done")
                return derivation, table
            derivation.append(answer.word)

    def test_random_fields(self):
        rng = random.Random(1)
        steps = sum(self.hold(*random_field(rng)) for _ in range(200))
        self.assertGreater(steps, 500)

    def test_no_variables(self):
        for count in range(4):
            for costs in product([0, 1, 2, FORBIDDEN_WEIGHT], repeat=count):
                self.assertEqual(self.hold([], [([], cost) for cost in costs]), 0)
        self.assertEqual(self.hold([], [], source=[]), 0)

    def test_every_field_of_one_variable(self):
        for size in [1, 2, 3]:
            for costs in product([0, 1, 2, 3, FORBIDDEN_WEIGHT], repeat=size):
                self.hold([size], [([(0, value)], cost) for value, cost in enumerate(costs)])

    def every_field_of_two_variables(self, paired, single):
        pairs = list(product(range(2), repeat=2))
        for costs in product(paired, repeat=4):
            for first, second in product(single, repeat=2):
                entries = [([(0, a), (1, b)], cost) for (a, b), cost in zip(pairs, costs)]
                self.hold([2, 2], entries + [([(0, 1)], first), ([(1, 0)], second)])

    def test_every_field_of_two_variables(self):
        self.every_field_of_two_variables([0, 1, 2], [0, 1])

    def test_every_field_of_two_variables_with_forbidden_ones(self):
        self.every_field_of_two_variables([0, 1, FORBIDDEN_WEIGHT], [0, FORBIDDEN_WEIGHT])
