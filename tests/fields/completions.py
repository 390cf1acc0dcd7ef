"""Completions of fixed values: refusals alone and at once, what is fixed at and beside its bounds, targets of every length, costs
around the greatest, and every choice of last values in larger fields; small_fields has those of every small field."""

import random
from collections import Counter
from itertools import product

import reference
from both import SIZE_MAX, named_variables
from chosen import GROWING, NONE_LEFT, TWO_LEFT, chain, long_chain, random_field, scattered
from different import Different, require
from lists import SMALL_FIELDS
from records import ROWS, STEPS
from reference import fields
from reference.answers import BAD_FIXED, BAD_TABLE, FORBIDDEN, GOOD, PAIR_LEFT, TARGET_TOO_SHORT, WEIGHT_TOO_HIGH
from reference.limits import FORBIDDEN_WEIGHT, MAX_ROWS, MAX_WEIGHT
from reference.steps import DONE
from reference.tables import Row, read_table, table_words

ORDER = [BAD_TABLE, TARGET_TOO_SHORT, BAD_FIXED, PAIR_LEFT, WEIGHT_TOO_HIGH]
# What is wrongly fixed in a field of three and two values: k and the bytes.
WRONGLY_FIXED = [(3, []), (3, [0]), (SIZE_MAX, [0, 0, 0]), (1, []), (1, [0, 0]), (2, [0]), (0, [0]), (1, [2]), (0, [3, 0]),
                 (0, [255, 0])]
RANDOM_TABLES = 400
FORBIDDEN_FIELDS = 60
OTHER_SIZES = [3, 1, 8, 2]


def paid(entries, assignment):
    """What an assignment costs by the entries of its field."""
    return sum(cost for bindings, cost in entries if all(assignment[variable] == value for variable, value in bindings))


def least_costs(sizes, entries):
    """For every choice of last values, from none to all, the least cost of the assignments that end with them."""
    least = {}
    for assignment in product(*map(range, sizes)):
        cost = paid(entries, assignment)
        for k in range(len(sizes) + 1):
            least[assignment[k:]] = min(cost, least.get(assignment[k:], cost))
    return least


def completed(both, sizes, entries, table):
    """Completes every choice of last values in a field's finished table, each at the least cost that its assignments tell; the
    answers by what is fixed."""
    least, answers = least_costs(sizes, entries), {}
    for fixed, cost in least.items():
        k = len(sizes) - len(fixed)
        answer = answers[fixed] = both.complete(table, k, list(fixed), [8] * len(sizes))
        plan = tuple(answer.target)
        if (answer.number, answer.cost, plan[k:]) != (GOOD, cost, fixed) or least[plan] != cost:
            raise Different(f"{answer} for the last values {fixed} of {sizes} {entries}, whose least cost is {cost}")
    return answers


def finished(field):
    """The table of a field without a pair."""
    start = reference.encode(fields.instance(*field), [0] * fields.table_length(len(field[0]), ROWS)).table
    ran = reference.run_call(start, STEPS, [0] * STEPS)
    require(ran.outcome == DONE, f"no end of the run of {field}")
    return ran.table


def larger_fields(both):
    """Every choice of last values where a row has more than two signs, and where all sign words are in use."""
    for field in [GROWING, chain(random.Random(3), [3, 2, 2]), chain(random.Random(4), [2, 3, 2, 2]), long_chain()]:
        completed(both, *field, finished(field))


def forbidden_fields(both):
    """Every choice of last values beside forbidden entries; there is a plan unless all assignments are forbidden."""
    chance = random.Random(10)
    numbers = Counter()
    for field in [NONE_LEFT, TWO_LEFT] + [scattered(chance, [2, 3, 2], 14) for _ in range(FORBIDDEN_FIELDS)]:
        table = finished(field)
        completed(both, *field, table)
        number = both.plan(table, [9] * len(field[0])).number
        require((number == FORBIDDEN) == fields.all_forbidden(*field), f"{number} for the plan of {field}")
        numbers[number] += 1
    require(min(numbers[GOOD], numbers[FORBIDDEN]) > 10, f"hardly reached: {numbers}")


def faulty_table(numbers):
    """A table of three and two values to which these numbers apply; the weight is too high if value 0 is last."""
    rows = [Row((0, 2), MAX_WEIGHT if WEIGHT_TOO_HIGH in numbers else 1), Row((0, 0), 1)]
    if PAIR_LEFT in numbers:
        rows += [Row((4, 0), 1), Row((2, 0), 1)]
    table = table_words([3, 2], rows, fields.table_length(2, len(rows), spare=2))
    return table[:-1] + [1] if BAD_TABLE in numbers else table


def refusals_in_order(both):
    """Every set of the refusals at once: the answer is the first of them in the order of the call."""
    for chosen in product([False, True], repeat=len(ORDER)):
        numbers = [number for number, applies in zip(ORDER, chosen) if applies]
        table, lengths = faulty_table(numbers), [0, 1] if TARGET_TOO_SHORT in numbers else [2, 3]
        for k, fixed in WRONGLY_FIXED if BAD_FIXED in numbers else [(1, [0]), (0, [1, 0])]:
            for length in lengths:
                answer = both.complete(table, k, fixed, [9] * length)
                require(answer.number == (numbers + [GOOD])[0], f"{answer.number} where {numbers} apply to {k} {fixed}")


def fixed_bounds(both):
    """Any number of fixed values from any k on, the last in range and the first out of it at every place."""
    count = len(OTHER_SIZES)
    for rows in ("", "4,0,127,1:3 0,0,2,2:1 0,0,0,2:5"):
        table = fields.table(OTHER_SIZES, rows, 40)
        for k, length in product(range(count + 3), range(count + 3)):
            both.complete(table, k, [0] * length, [200] * 6)
        for k in range(count):
            good = [size - 1 for size in OTHER_SIZES[k:]]
            for at, value in product(range(count - k), [0, 1, 2, 3, 7, 8, 128, 255]):
                both.complete(table, k, good[:at] + [value] + good[at + 1:], [200] * 6)


def high_k(both):
    """A k far above the variables, also one whose low bits are a good one, and as many fixed values as n - k has in 64 bits."""
    table = fields.table(OTHER_SIZES, "0,0,0,2:5", 40)
    for k in range(len(OTHER_SIZES) + 1):
        for more in (16, 256, 1 << 16, 1 << 31, 1 << 32, 1 << 63):
            both.complete(table, k + more, [0] * (len(OTHER_SIZES) - k), [200] * 4)
    for k in range(SIZE_MAX - 20, SIZE_MAX + 1):
        both.complete(table, k, [0] * (len(OTHER_SIZES) + SIZE_MAX + 1 - k), [200] * 4)
        both.complete(table, k, [], [200] * 4)


def targets(both):
    """Targets of every length: too short, just long enough, and with a rest that is kept."""
    for sizes, entries in SMALL_FIELDS + [GROWING, long_chain()]:
        table = finished((sizes, entries))
        for length, k in product(range(len(sizes) + 4), (0, len(sizes) // 2, len(sizes))):
            both.complete(table, k, [0] * (len(sizes) - k), list(range(200, 200 + length)))


def zeros_cost(both, table, k, total):
    """Completes zeros from k on, which falsify so much weight."""
    answer = both.complete(table, k, [0] * (named_variables(table) - k), [9] * named_variables(table))
    due = (GOOD, total) if total <= MAX_WEIGHT else (WEIGHT_TOO_HIGH, 0)
    require((answer.number, answer.cost) == due, f"{answer} where zeros from {k} on cost {total}")


def greatest_costs(both):
    """Two weights that add up to the greatest, to one less and to one more, in either order, behind and before another row."""
    other = ["4,1:7"]
    for weight in (1, 2, MAX_WEIGHT // 2, MAX_WEIGHT // 2 + 1, MAX_WEIGHT - 1, MAX_WEIGHT):
        for sum_of_both in (MAX_WEIGHT - 1, MAX_WEIGHT, MAX_WEIGHT + 1, weight + MAX_WEIGHT):
            if not 1 <= sum_of_both - weight <= MAX_WEIGHT:
                continue
            heavy = [f"0,2:{weight}", f"empty:{sum_of_both - weight}"]
            for rows in (heavy, heavy[::-1], other + heavy, heavy + other, heavy[:1] + other + heavy[1:]):
                table = fields.table([3, 2], " ".join(rows), 25)
                zeros_cost(both, table, 2, sum_of_both - weight)
                zeros_cost(both, table, 1, sum_of_both)
                for k, fixed in [(1, [1]), (0, [0, 0]), (0, [2, 0]), (0, [0, 1])]:
                    both.complete(table, k, fixed, [9] * 2)


def most_rows(both):
    """As many rows as there may be, whose weights add up to the greatest, to one more, to powers of two, and far beyond; the row
    that makes the difference is the first or the last."""
    heavy = [[first] + [other] * (MAX_ROWS - 1) for first, other in fields.HEAVY_ROWS]
    for weights in heavy + [weights[::-1] for weights in heavy[:2]]:
        table = table_words([8] * 12, fields.settled_rows(weights), fields.table_length(12, MAX_ROWS, spare=3))
        zeros_cost(both, table, 0, sum(weights))
        zeros_cost(both, table, 8, 0)


def with_weights(chance, table):
    """The table with other weights, which decide nothing about a pair: light ones, heavy ones, or both."""
    sizes, rows = read_table(table)
    weights = chance.choice([[1, 2, 3], [MAX_WEIGHT], [1, MAX_WEIGHT - 1, MAX_WEIGHT], [MAX_WEIGHT // 8, MAX_WEIGHT // 3],
                             [FORBIDDEN_WEIGHT, 1], [(1 << 28) - 1, 1 << 28, 1]])
    return table_words(sizes, [Row(row.signs, chance.choice(weights)) for row in rows], len(table))


def random_tables(both):
    """Finished tables of random fields, most of them with other weights; any last values, now and then out of range."""
    chance = random.Random(9)
    for _ in range(RANDOM_TABLES):
        field = random_field(chance)
        sizes, table = field[0], finished(field)
        if chance.random() < 0.8:
            table = with_weights(chance, table)
        for k in range(len(sizes) + 1):
            fixed = [chance.randrange(size + (chance.random() < 0.02)) for size in sizes[k:]]
            both.complete(table, k, fixed, [200] * (len(sizes) + chance.choice([-1, 0, 0, 0, 0, 1])))


def compare(both):
    larger_fields(both)
    forbidden_fields(both)
    refusals_in_order(both)
    fixed_bounds(both)
    high_k(both)
    targets(both)
    greatest_costs(both)
    most_rows(both)
    random_tables(both)
