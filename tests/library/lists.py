"""Lists of encodings, steps, runs, plans, completions and conversions through the proved library against the reference, word for
word."""

import itertools
import random
from collections import Counter

import proved
import reference
from different import require
from reference import fields
from reference.answers import BAD_TABLE
from reference.clauses import full
from reference.forms import FIVE, SIX
from reference.limits import FORBIDDEN_WEIGHT, MAX_WEIGHT, ROW_WORDS
from reference.tables import Row, read_table, table_words

OUTCOMES = {"done": 0, "paused": 1, "refused": 2}

# Fields without variables: with no cost, with two that add up, and forbidden.
EMPTY_FIELDS = [
    ([], []),
    ([], [([], 3), ([], 0), ([], 4)]),
    ([], [([], 3), fields.forbidden()]),
]
# P1 to P6 of document 01, and these.
SMALL_FIELDS = [
    ([2], [([(0, 0)], 3), ([(0, 1)], 1)]),
    ([3], [([(0, 0)], 2), ([(0, 1)], 1), ([(0, 2)], 4)]),
    ([2, 2], [([(0, 0), (1, 0)], 2), ([(0, 1), (1, 0)], 1)]),
    ([2, 2], [([(0, 0)], 1), ([(0, 1), (1, 0)], 1)]),
    ([1], [([(0, 0)], 7)]),
    ([1], [([], 0)]),
    *EMPTY_FIELDS,
]

# Every number that a call can answer, and every outcome: each is reached several times.
DUE = ([("encode", number) for number in (0, 1, 2, 3, 4, 5, 10, 12)]
       + [("step", "done"), ("step", "stepped"), ("step", 9), ("step", 11), ("step", 12)]
       + [("run", "done"), ("run", "paused"), ("run", 9), ("run", 11), ("run", 12)]
       + [("plan", number) for number in (0, 9, 10, 13, 15)]
       + [("complete", number) for number in (0, 9, 10, 11, 13, 14)]
       + [("to_six", number) for number in (0, 9, 10, 12)]
       + [("to_five", number) for number in (0, 9, 10, 12, 16)])
reached = Counter()


def noted(answer, values):
    """An answer slice with these values in front, as far as it goes."""
    return values[:len(answer)] + answer[len(values):]


def same(name, outcome, got, expected):
    require(len(got) == len(expected), f"{name}: {len(got)} fields, reference {len(expected)}")
    for field, mine, other in zip(got._fields, got, expected):
        require(mine == other, f"{name}, {field}: {str(mine)[:400]}, reference {str(other)[:400]}")
    reached[name, outcome] += 1


def encode(instance, table, answer):
    expected = reference.encode(instance, table)
    rows = 0 if expected.number else len(read_table(expected.table).rows)
    same("encode", expected.number, proved.encode(instance, table, answer),
         (expected.number, noted(answer, [rows]), expected.table))
    return expected.table


def step(table, answer):
    expected = reference.step_call(table)
    same("step", expected.number or expected.outcome, proved.step_call(table, answer),
         (expected.number, noted(answer, [int(expected.outcome == "done"), expected.word]), expected.table))
    return expected.table


def run_steps(table, limit, derivation, answer):
    expected = reference.run_call(table, limit, derivation)
    outcome = 0 if expected.number == BAD_TABLE else OUTCOMES[expected.outcome]
    values = [outcome, expected.steps, expected.bound]
    same("run", expected.number or expected.outcome, proved.run_call(table, limit, derivation, answer),
         (expected.number, noted(answer, values), expected.table, expected.derivation))
    return expected.table


def plan(table, target):
    expected = reference.plan_call(table, target)
    same("plan", expected.number, proved.plan_call(table, target), expected)


def complete(table, k, fixed, target, answer):
    expected = reference.complete_call(table, k, fixed, target)
    same("complete", expected.number, proved.complete_call(table, k, fixed, target, answer),
         (expected.number, noted(answer, [expected.cost]), expected.target))


def to_six(source, target, answer):
    return converted("to_six", reference.to_six(source, target), proved.to_six(source, target, answer), answer)


def to_five(source, target, answer):
    return converted("to_five", reference.to_five(source, target), proved.to_five(source, target, answer), answer)


def converted(name, expected, got, answer):
    same(name, expected.number, got, (expected.number, noted(answer, [expected.rows]), expected.target))
    return expected


def there_and_back(table, variables, chance):
    """To five words and to six again, each in a target that may have no room; the table as it was, where one is refused."""
    def target(form):
        few = fields.table_length(variables, chance.randrange(6), chance.randrange(5), form)
        return [4] * chance.choice([variables + 1, few, len(table), len(table), 2 * len(table)])
    answer = [77] * chance.choice([0, 1, 2])
    five = to_five(table, target(FIVE), answer)
    to_six(table, target(SIX), answer)
    if five.number:
        return table
    to_five(five.target, target(FIVE), answer)
    six = to_six(five.target, target(SIX), answer)
    return table if six.number else six.target


def random_completion(table, variables, chance):
    """Any k, at times one too high, and about as many small values as are left."""
    k = chance.choice(list(range(variables + 1)) * 3 + [variables + 1, 2 ** 64 - 1])
    fixed = [chance.choice([0, 0, 0, 1, 3]) for _ in range(variables - k + chance.choice([-1, 0, 0, 0, 0, 1]))]
    complete(table, k, fixed, [200] * chance.choice([variables - 1, variables, variables, variables + 2]),
             [77] * chance.choice([0, 1, 2]))


def one_call(table, variables, chance):
    """Makes one random call on both sides; the table after it."""
    choice, answer = chance.random(), [77] * chance.choice([0, 1, 2, 3, 3, 5])
    if choice < 0.35:
        return step(table, answer)
    if choice < 0.6:
        limit, room = chance.choice([0, 1, 2, 3, 40, 2 ** 64 - 1]), chance.choice([0, 1, 3, 3, 60])
        return run_steps(table, limit, [9] * room, answer)
    if choice < 0.7:
        return there_and_back(table, variables, chance)
    if choice < 0.85:
        plan(table, [200] * chance.choice([0, variables - 1, variables, variables, variables + 2]))
    else:
        random_completion(table, variables, chance)
    return table


def damaged(source, chance):
    """The words with a flipped bit, cut short, or with one put in again."""
    spoiled = list(source)
    at = chance.randrange(len(spoiled)) if spoiled else 0
    way = chance.random()
    if spoiled and way < 0.7:
        spoiled[at] ^= 1 << chance.randrange(32)
    elif spoiled and way < 0.85:
        spoiled.insert(at, spoiled[at])
    else:
        spoiled = spoiled[:at]
    return spoiled


def calls_on(table, variables, instance, chance):
    """A list of calls on a table, some of them on a damaged copy, and once in a while the encoding anew."""
    for _ in range(chance.randint(1, 12)):
        way = chance.random()
        if way < 0.1:
            one_call(damaged(table, chance), variables, chance)
        elif way < 0.15:
            table = encode(instance, table, [77])
        elif way < 0.2:
            table = encode(damaged(instance, chance), table, [77, 77])
        else:
            table = one_call(table, variables, chance)


def random_field(chance):
    variables = chance.choice([0, 1, 2, 2, 3, 3, 4, 5, 8, 12])
    sizes = [chance.randint(1, chance.choice([2, 4, 8])) for _ in range(variables)]
    entries = []
    for _ in range(chance.randint(0, 14)):
        bound = sorted(chance.sample(range(variables), chance.randint(0, min(variables, 3))))
        entries.append(([(v, chance.randrange(sizes[v])) for v in bound],
                        chance.choice([0, 1, 2, 5, 300, 65535, FORBIDDEN_WEIGHT])))
    return sizes, entries


def rows_of(field):
    """How many rows the encoding of a field has."""
    return len(read_table(reference.encode(fields.instance(*field), [0] * 5000).table).rows)


def list_of_calls(field, chance):
    """An encoding in a table that may have too little room for it or for the steps, then calls."""
    sizes, entries = field
    instance = fields.instance(sizes, entries)
    rows = max(rows_of(field) + chance.choice([-1, 0, 0, 1, 2, 5, 40, 40]), 0)
    length = chance.choice([fields.table_length(len(sizes), rows, chance.randrange(ROW_WORDS))] * 9 + [len(sizes) + 1])
    table = encode(instance, [4] * length, [77] * chance.choice([0, 1, 2]))
    calls_on(table, len(sizes), instance, chance)


def heavy_list(chance):
    """Calls on a valid table that need not come from an instance, with weights around the limits: of all, of the low word, of a
    forbidden entry."""
    sizes = [chance.randint(2, 4) for _ in range(chance.choice([0, 1, 2, 3, 4, 12]))]
    clauses = {tuple(chance.choice([0, chance.randrange(full(size))]) for size in sizes)
               for _ in range(chance.randint(1, 9))}
    weights = chance.choice([[1, 3, MAX_WEIGHT - 3, MAX_WEIGHT], [(1 << 28) - 1, 1 << 28, 1],
                             [FORBIDDEN_WEIGHT - 1, FORBIDDEN_WEIGHT]])
    rows = [Row(signs, chance.choice(weights)) for signs in sorted(clauses)]
    chance.shuffle(rows)
    length = fields.table_length(len(sizes), len(rows) + chance.choice([0, 1, 2, 30]), chance.randrange(ROW_WORDS))
    calls_on(table_words(sizes, rows, length), len(sizes), fields.instance(sizes, []), chance)


def to_the_end(field, rows, most):
    """Runs of at most so many steps in a table of so many rows, until one makes none; then a step call, the plan, and its
    completions from zeros on."""
    sizes, entries = field
    table = encode(fields.instance(sizes, entries), [4] * fields.table_length(len(sizes), rows), [77])
    before = None
    while table != before:
        before, table = table, run_steps(table, most, [0] * most, [77, 77, 77])
    step(table, [77, 77])
    plan(table, [9] * len(sizes))
    for k in range(len(sizes) + 1):
        complete(table, k, [0] * (len(sizes) - k), [9] * len(sizes), [77])


def step_by_step(field):
    """Step calls, with the plan asked for before each of them."""
    sizes, entries = field
    table = encode(fields.instance(sizes, entries), [4] * fields.table_length(len(sizes), 40, 3), [77])
    for _ in range(8):
        plan(table, [9] * len(sizes))
        table = step(table, [77, 77])


def twelve_variables(chance, most_values, reach):
    """Twelve variables with costs between each and those up to `reach` behind it."""
    sizes = [chance.randint(2, most_values) for _ in range(12)]
    entries = [([(v, a)], chance.randint(0, 20)) for v in range(12) for a in range(sizes[v])]
    for v in range(12):
        for w in range(v + 1, min(v + reach + 1, 12)):
            entries += [([(v, a), (w, b)], chance.randint(0, 9)) for a in range(sizes[v]) for b in range(sizes[w])]
    return sizes, entries


def every_call(table, variables):
    """A step call, a run, a plan call, a completion and conversions on the same table."""
    step(table, [77, 77])
    run_steps(table, 3, [9] * 4, [77, 77, 77])
    plan(table, [9] * variables)
    complete(table, 1, [0] * (variables - 1), [9] * variables, [77])
    five = to_five(table, [4] * len(table), [77])
    to_six(five.target, [4] * len(table), [77])


def at_the_bounds(chance):
    """4,096 rows and 4,097, 4,097 entries; slices with room for one row less, as many, and more."""
    triples = itertools.combinations(range(12), 3)
    every = [(list(zip(bound, values)), 1) for bound in triples for values in itertools.product(range(8), repeat=3)]
    entries = chance.sample(every, 4097)
    for rows in (4095, 4096, 4300):
        for count in (4095, 4096, 4097):
            length = fields.table_length(12, rows, 1)
            table = encode(fields.instance([8] * 12, entries[:count]), [4] * length, [77])
            every_call(table, 12)
    clauses = [(0,) * 8 + signs for signs in itertools.product(range(9), repeat=4)]
    for count in (4095, 4096, 4097):
        rows = [Row(signs, 1) for signs in clauses[:count]]
        every_call(table_words([8] * 12, rows, fields.table_length(12, 4300)), 12)


def too_heavy_and_too_long():
    """A step that both 11 and 12 forbid: its meet is there with a weight of 1, its three other conclusions are not."""
    for rows in (3, 4):
        every_call(fields.table([4, 4], f"3,1:{MAX_WEIGHT} 5,2:{MAX_WEIGHT} 1,3:1", fields.table_length(2, rows)), 2)


def run():
    chance = random.Random(5)
    for field in SMALL_FIELDS:
        to_the_end(field, 3000, 16000)
        step_by_step(field)
    for most_values, reach in ((4, 1), (4, 1), (5, 1), (3, 2), (2, 4)):
        field = twelve_variables(chance, most_values, reach)
        to_the_end(field, 3000, 16000)
        to_the_end(field, rows_of(field) + 12, 70)
    for _ in range(1200):
        list_of_calls(random_field(chance), chance)
        heavy_list(chance)
    at_the_bounds(chance)
    too_heavy_and_too_long()
    missing = [case for case in DUE if reached[case] < 3]
    require(not missing, f"hardly reached: {missing}")
    return sum(reached.values())
