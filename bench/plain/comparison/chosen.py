"""Chosen inputs that random ones hardly meet: limits and half metres reached exactly, two faults at once, fields without
variables."""

from itertools import product

import calls
import empty_fields
from reference import fields, words
from reference.limits import FORBIDDEN_WEIGHT, MAX_ENTRIES, MAX_ROWS, MAX_WEIGHT
from reference.tables import Row, table_words


def chosen_calls():
    return (entry_calls() + forbidden_calls() + full_calls() + faulty_tables() + weight_words() + heavy_and_full()
            + heavy_plans() + completion_calls() + heavy_completions() + claim_calls() + forbidden_claims() + distance_calls()
            + empty_calls())


def entry_calls():
    """As many entries as are allowed, one more, and one more whose cost or binding is faulty."""
    behind = [[], [words.cost(0)], [words.cost(65_536)], [words.binding(0, 2), words.cost(65_536)], [words.forbidden()],
              [words.forbidden(1)]]
    return [calls.encode(fields.instance(sizes, [(bindings, cost)] * MAX_ENTRIES) + more, [0] * 20)
            for sizes, bindings in (([2], [(0, 0)]), ([], [])) for cost in (1, FORBIDDEN_WEIGHT) for more in behind]


def forbidden_calls():
    """Words that forbid, good and faulty ones, and high words in the place of every word of a sheet and an instance."""
    sheet = fields.sheet([[(0, 0)], [(0, 0), (300, 400)]], [fields.forbidden((0, 0), (1, 1)), ([], 3)])
    instance = fields.instance([1, 2], [fields.forbidden((0, 0), (1, 1)), ([], 3)])
    made = [calls.make(sheet[:at] + [word] + sheet[at + 1:], [0] * 40) for at in range(len(sheet)) for word in fields.FORBIDDEN_WORDS]
    return made + [calls.cost(instance[:at] + [word] + instance[at + 1:], [0, 1])
                   for at in range(len(instance)) for word in fields.FORBIDDEN_WORDS]


def full_calls():
    """Steps in tables that they fill to the last row or beyond, and a table with one row too many."""
    made = []
    for fill, room in [(MAX_ROWS - 3, MAX_ROWS), (MAX_ROWS - 3, MAX_ROWS + 3), (MAX_ROWS - 2, MAX_ROWS + 3),
                       (MAX_ROWS - 1, MAX_ROWS + 3)]:
        rows = [Row((1, 0, 0), 1), Row((2, 1, 0), 1)]
        rows += [Row((0, 1 + at // 254, 1 + at % 254), 1) for at in range(fill)]
        made.append(calls.step(table_words((4, 8, 8), rows, fields.table_length(3, room))))
    return made


def faulty_tables():
    """Two rows of equal signs, and each word behind the last whole row."""
    twice = fields.table([3, 3], "1,1:1 2,0:1 1,1:2", fields.table_length(2, 3))
    good = fields.table([3, 3], "1,1:1 2,0:1", fields.table_length(2, 2, spare=5))
    spare = [good[:at] + [1] + good[at + 1:] for at in range(len(good) - 5, len(good))]
    return [call for table in [twice, *spare] for call in on_table(table)]


def on_table(table):
    """Each call on a table of two variables."""
    return [calls.step(table), calls.run(table, 5, [0] * 5), calls.plan(table, [0] * 2), calls.complete(table, 2, [], [0] * 2)]


def weight_words():
    """A row's two words of weight with every kind and with payloads of 0, and rows of five words."""
    good = fields.table([3, 3], "1,1:1 empty:1", fields.table_length(2, 2))
    tables = [good[:8] + [words.word(kind, low), words.word(other, high)] + good[10:]
              for kind in range(16) for other in range(16) for low, high in ((0, 0), (1, 0), (0, 1), (1, 1))]
    five = good[:9] + good[10:15]
    return [call for table in tables + [five + [0] * more for more in range(7)] for call in on_table(table)]


def heavy_and_full():
    """A step that would make a row too heavy and need a row too many, and the same where its low word alone is full."""
    made = []
    for weight in (MAX_WEIGHT - 1, MAX_WEIGHT, words.PAYLOAD_MASK - 1, words.PAYLOAD_MASK):
        for room in (3, 4):
            table = fields.table([3, 3], f"1,1:1 2,0:2 0,1:{weight}", fields.table_length(2, room))
            made += [calls.step(table), calls.run(table, 5, [0] * 5)]
    return made


def heavy_plans():
    """The empty row around a forbidden entry's weight, with and without a pair left, beside a heavy row, in a short target."""
    weights = [FORBIDDEN_WEIGHT - 1, FORBIDDEN_WEIGHT, FORBIDDEN_WEIGHT + 1, 1 << 28, 1 << 32, (1 << 32) + 1, MAX_WEIGHT]
    tables = [fields.table([3, 2], f"{rows} empty:{weight}", 30)
              for rows in ("4,1:1", "4,0:1 2,0:1", f"0,2:{MAX_WEIGHT}") for weight in weights]
    return [call for table in tables for call in on_table(table) + [calls.plan(table, [9])]]


def completion_calls():
    """Any k with any fixed values, in range or not, too few or too many, in tables with and without a pair, a high cost, a
    fault; the target is too short, just long enough or longer."""
    tables = [fields.table([3, 2], rows, 30)
              for rows in ("4,1:1 6,2:1 0,2:3 empty:2", f"0,2:{MAX_WEIGHT} empty:1", f"4,0:1 2,0:1 empty:{MAX_WEIGHT}", "4,3:1")]
    tails = [list(fixed) for count in range(4) for fixed in product([0, 1, 2, 3, 255], repeat=count)]
    return [calls.complete(table, k, fixed, [9] * length)
            for table in tables for k in (0, 1, 2, 3, (1 << 64) - 1) for fixed in tails for length in (1, 2, 4)]


def heavy_completions():
    """As many rows as there may be, zeros falsifying all of them or none."""
    made = []
    for first, other in fields.HEAVY_ROWS:
        rows = fields.settled_rows([first] + [other] * (MAX_ROWS - 1))
        table = table_words([8] * 12, rows, fields.table_length(12, MAX_ROWS))
        made += [calls.complete(table, k, [0] * (12 - k), [9] * 12) for k in (0, 8)]
    return made


def claim_calls():
    """The costs 0 to 3 of a field of least cost 1, and the same with a high bit."""
    instance = fields.instance([2], [([(0, 0)], 3), ([(0, 1)], 1)])
    derivation = [words.step(0, 0, 1)]
    return [calls.check(instance, derivation, [value], claimed + high, [0] * 20)
            for value in range(2) for claimed in range(4) for high in (0, 1 << 28, 1 << 32, 1 << 63)]


def forbidden_claims():
    """Claims of so many forbidden entries, around their cost and its low bits."""
    made = []
    for count in (1, 2, 16, 17, MAX_ENTRIES):
        instance, cost = fields.instance([1], [fields.forbidden()] * count), count * FORBIDDEN_WEIGHT
        claims = {0, cost - 1, cost, cost + 1, cost & words.PAYLOAD_MASK, cost & 0xFFFFFFFF, cost + (1 << 56), cost + (1 << 63)}
        made += [calls.check(instance, [], [0], claimed, [0] * 9) for claimed in sorted(claims)]
        made.append(calls.cost(instance, [0]))
    # Costs whose low bits are those of the empty row, of which there is none.
    return made + [calls.check(fields.high_cost(*total), [], [value], claimed, [0] * 9)
                   for total in fields.ROUND_COSTS for value in range(2) for claimed in (0, 1 << 28, 1 << 32)]


def distance_calls():
    """Distances just below, at and above half and whole metres."""
    sheet = fields.sheet([[(0, 0)]], [])
    return [calls.readout(sheet, [0], 0, words.easting(50 * halves + more), words.northing(aside))
            for halves in (1, 2, 3, 4, 199, 200, 19_998, 19_999) for more in (-1, 0, 1) for aside in (0, 1)]


def empty_calls():
    """Fields without variables through every call: number and fields are those that are due by the papers."""
    made = [(asked.due, getattr(calls, asked.name)(*asked.arguments)) for asked in empty_fields.every_call()]
    return [call._replace(expected=due + call.expected[len(due):]) for due, call in made]
