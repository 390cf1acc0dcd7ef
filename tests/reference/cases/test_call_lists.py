"""Step calls, runs and plan calls in any order on one table, which may be converted on the way, and derivations of any permitted
pairs."""

import random
from itertools import combinations

from reference import (check_call, complete_call, encode, most_rows, plan_call, run_call, step_call, to_five, to_six,
                       words)
from reference.fields import all_forbidden, forbidden, instance, table_length
from reference.forms import FIVE
from reference.limits import FIVE_MAX_WEIGHT, ROW_WORDS
from reference.tables import empty_weight, read_table, table_words

from .plain import may_resolve, plain_rows
from .support import Comparison, cost_table, random_field


class CallLists(Comparison):
    CALLS = ["step", "run_steps", "plan"]

    def test_random_lists(self):
        rng = random.Random(3)
        outcomes = [self.hold(rng, *random_field(rng)) for _ in range(150)]
        self.assertGreater(outcomes.count("done"), 50)
        self.assertGreater(outcomes.count("full"), 10)
        self.assertGreater(outcomes.count("unfinished"), 10)

    def test_no_variables(self):
        rng = random.Random(8)
        for _ in range(20):
            for entries in [[], [([], 3), ([], 4)], [([], 3), forbidden()]]:
                self.assertEqual(self.hold(rng, [], entries), "done")
            self.assertEqual(self.hold(rng, [], [], source=[]), "done")

    def hold(self, rng, sizes, entries, source=None):
        """Up to fifteen random calls, then the end if it has come; the words may be others than those of an instance."""
        source, costs = instance(sizes, entries) if source is None else source, cost_table(sizes, entries)
        table, derivation = self.tight_table(rng, source), []
        bound = self.conserved(table, costs)
        for _ in range(rng.randint(0, 15)):
            table = self.one_call(rng, table, derivation)
            bound = self.conserved(table, costs)
        self.assertLessEqual(len(derivation), sum(size * size for size in sizes) * sum(costs.values()))
        self.assertEqual(derivation, self.first_steps(source, len(derivation)))
        last = step_call(table)
        if last.outcome != "done":
            self.assertIn(last.number, (0, 12))
            return "full" if last.number else "unfinished"
        assignment = complete_call(table, len(sizes), [], [0] * len(sizes)).target
        self.assertEqual((bound, costs[tuple(assignment)]), (min(costs.values()),) * 2)
        self.assertEqual(plan_call(table, assignment).number, 15 if all_forbidden(sizes, entries) else 0)
        self.accepted(source, derivation, (assignment, bound), table)
        return "done"

    def accepted(self, source, derivation, claim, table):
        """By the checker, in a work table as long as the list's."""
        self.assertEqual(check_call(source, derivation, *claim, [6] * len(table)), (0, len(derivation), table))

    def first_steps(self, source, count):
        """So many step words of a run in a table with room for all."""
        return run_call(encode(source, [5] * 5_000).table, count, [0] * count).derivation

    def tight_table(self, rng, source):
        """The encoded table in a slice that has often no room for what the steps need."""
        sizes, rows = read_table(encode(source, [5] * 500).table)
        length = table_length(len(sizes), len(rows) + rng.choice([0, 0, 1, 60]), rng.randrange(ROW_WORDS))
        return encode(source, [5] * length).table

    def one_call(self, rng, table, derivation):
        """The table after one random call; its step words are put behind the derivation."""
        return getattr(self, rng.choice(self.CALLS))(rng, table, derivation)

    def step(self, _, table, derivation):
        answer = step_call(table)
        self.assertIn(answer.number, (0, 12))
        if answer.outcome == "stepped":
            derivation.append(answer.word)
        else:
            self.assertEqual(answer.table, table)
        return answer.table

    def run_steps(self, rng, table, derivation):
        limit, room = rng.randrange(4), rng.randrange(5)
        answer = run_call(table, limit, [3] * room)
        self.assertIn(answer.number, (0, 12))
        self.assertEqual(answer.derivation[answer.steps:], [3] * (room - answer.steps))
        derivation += answer.derivation[:answer.steps]
        return answer.table

    def plan(self, rng, table, _):
        (sizes, rows), room = read_table(table), rng.randrange(5)
        left, heavy = step_call(table).outcome != "done", empty_weight(rows) >= 268_431_361
        answer = plan_call(table, [9] * room)
        self.assertEqual(answer.number, 10 if room < len(sizes) else 13 if left else 15 if heavy else 0)
        if answer.number:
            self.assertEqual(answer.target, [9] * room)
        return table


class ConvertedLists(CallLists):
    """The same with conversions there and back, into slices of other lengths."""

    CALLS = CallLists.CALLS + ["convert"]

    def convert(self, rng, table, derivation):
        """The table behind both conversions; as it was, where the first one is refused."""
        sizes, rows = read_table(table)
        room, heavy = max(0, len(rows) + rng.choice([-1, 0, 1])), any(row.weight > FIVE_MAX_WEIGHT for row in rows)
        length = table_length(len(sizes), room, rng.randrange(5), FIVE)
        five = to_five(table, [5] * length)
        self.assertEqual(five.number, 16 if heavy else 12 if room < len(rows) else 0)
        if five.number:
            self.assertEqual(five.target, [5] * length)
            return table
        return self.six_again(rng, five.target, len(rows))

    def six_again(self, rng, five, row_total):
        """All other calls refuse the five-word table, and so does its conversion without room; then it succeeds."""
        variables = words.payload_of(five[0])
        if row_total:
            self.assertEqual((step_call(five), run_call(five, 9, [3]), plan_call(five, [9] * 4)),
                             (("refused", 9, 0, five), ("refused", 9, 0, 0, five, [3]), (9, [9] * 4)))
            self.assertEqual(to_five(five, [5] * len(five)), (9, 0, [5] * len(five)))
            short = [5] * table_length(variables, row_total - 1, rng.randrange(ROW_WORDS))
            self.assertEqual(to_six(five, short), (12, 0, short))
        six = to_six(five, [5] * table_length(variables, row_total + rng.choice([0, 1, 60]), rng.randrange(ROW_WORDS)))
        self.assertEqual(six[:2], (0, row_total))
        return six.target

    def accepted(self, source, derivation, claim, table):
        """With room for the most rows that there ever were, however long the list's last table is, and not with one row less."""
        (sizes, rows), most = read_table(table), most_rows(source, derivation)
        length = table_length(len(sizes), most)
        self.assertEqual(check_call(source, derivation, *claim, [6] * length),
                         (0, len(derivation), table_words(sizes, rows, length)))
        if most:
            self.assertEqual(check_call(source, derivation, *claim, [6] * (length - 1)).number, 12)


def permitted_words(table):
    """The step words of all permitted pairs, whatever bucket their rows are in."""
    sizes, rows = read_table(table)
    domains = [frozenset(range(size)) for size in sizes]
    clauses = [clause for clause, _ in plain_rows(rows)]
    return [words.step(variable, first, second)
            for variable in range(len(sizes))
            for first, second in combinations(range(len(rows)), 2)
            if may_resolve(domains, variable, clauses[first], clauses[second])]


class Derivations(Comparison):
    def test_random_derivations(self):
        rng = random.Random(4)
        steps = sum(self.hold(rng, *random_field(rng)) for _ in range(80))
        self.assertGreater(steps, 200)

    def hold(self, rng, sizes, entries):
        """Up to eight random permitted steps: the checker's table keeps every assignment's cost."""
        source, costs = instance(sizes, entries), cost_table(sizes, entries)
        derivation, table = [], encode(source, [5] * table_length(len(sizes), 300)).table
        for count in range(8):
            choice = permitted_words(table)
            if not choice:
                return count
            derivation.append(rng.choice(choice))
            # The assignment is too long, so the answer is 7 once all steps are replayed.
            answer = check_call(source, derivation, [0] * 4, 0, [6] * len(table))
            self.assertEqual((answer.number, answer.steps), (7, len(derivation)))
            table = answer.table
            self.conserved(table, costs)
        return len(derivation)
