"""The bounds of an input through every call that reads one: stations, costs, entries with legs counted, forbidden ones, targets."""

from itertools import product

import driver
from inputs import named_variables
from reference import fields, words
from reference.answers import BAD_READOUT, GOOD
from reference.inputs import made_words
from reference.limits import FORBIDDEN_WEIGHT

HERE = (0, 0)
MOST_ENTRIES = 4_096


def instance_calls(both, instance):
    """The calls that read an instance, with room for forty rows."""
    plan = [0] * named_variables(instance)
    length = fields.table_length(len(plan), 40)
    _, paid = both.cost(instance, plan)
    both.encode(instance, [9] * length)
    both.check(instance, [], plan, paid, [9] * length)
    both.drive(instance, [9] * length, [driver.run_word(1, 1)], [9] * 2, [9] * 14)


def sheet_calls(both, sheet):
    """The calls that read a sheet; a good one is made in targets around its instance's length."""
    plan = [0] * named_variables(sheet)
    number = both.readout(sheet, plan, max(len(plan) - 1, 0), words.easting(0), words.northing(300)).number
    lengths = [0, 40]
    if number in (GOOD, BAD_READOUT):
        needed = len(made_words(sheet))
        lengths += [needed - 1, needed, needed + 1]
    for length in lengths:
        both.make(sheet, [9] * length)


def station_bounds(both):
    for stations in (0, 1, 12, 13):
        for size in (1, 8, 9):
            both_forms(both, stations, size, [words.cost(7)])
    for head in (0, 15, 0xFFFFFFF):
        both_forms(both, 1, 1, [], head)


def both_forms(both, stations, size, entries, head=None):
    """An instance and a sheet of so many stations with so many spots; another number may stand in the head."""
    front = words.head(stations if head is None else head)
    place = [words.easting(0), words.northing(0)]
    instance_calls(both, [front] + [words.size(size)] * stations + entries)
    sheet_calls(both, [front] + ([words.size(size)] + place * size) * stations + entries)


def cost_bounds(both):
    """Costs at the bound in constants, single spots and combinations of all stations."""
    for cost in (0, 65_535, 65_536, 0xFFFFFFF):
        for stations in (0, 1, 12):
            bindings = [words.binding(station, 1) for station in range(stations)]
            both_forms(both, 12, 2, bindings + [words.cost(cost)])
            both_forms(both, 12, 2, bindings + [words.cost(cost)] + bindings + [words.cost(1)])


def ends_of_entries():
    """What may stand where the last entry ends or the one too many begins."""
    pair, cost = words.binding(0, 0), words.cost
    return [[], [cost(0)], [cost(65_535)], [cost(65_536)], [pair], [pair, cost(1)], [pair, pair, cost(1)],
            [words.binding(15, 0), cost(1)], [cost(1), cost(65_536)], [words.forbidden()], [words.forbidden(1)],
            [pair, words.forbidden()], [words.high_weight(0)]]


def entry_bounds(both):
    """4,095 and 4,096 entries of the greatest cost or forbidden, and what follows."""
    for sizes, bindings in (([2], [(0, 1)]), ([], [])):
        for cost in (65_535, FORBIDDEN_WEIGHT):
            for entries in (MOST_ENTRIES - 1, MOST_ENTRIES):
                for end in ends_of_entries():
                    instance_calls(both, fields.instance(sizes, [(bindings, cost)] * entries) + end)


def forbidden_words(both):
    """Words that forbid, good and faulty ones, and high words in the place of every word."""
    entries = [fields.forbidden((0, 0), (1, 1)), ([(1, 0)], 3)]
    instance, sheet = fields.instance([1, 2], entries), fields.sheet([[HERE], [HERE, HERE]], entries)
    for word in fields.FORBIDDEN_WORDS:
        for at in range(len(instance) + 1):
            instance_calls(both, instance[:at] + [word] + instance[at + 1:])
        for at in range(len(sheet) + 1):
            sheet_calls(both, sheet[:at] + [word] + sheet[at + 1:])


def forbidden_claims(both):
    """The cost of so many forbidden entries, claims beside it and with other high bits; no plan, but a completion."""
    for sizes, count in product(([1], []), (1, 2, 15, 16, 17, MOST_ENTRIES - 1, MOST_ENTRIES)):
        instance, length = fields.instance(sizes, [fields.forbidden()] * count), fields.table_length(len(sizes), 1)
        plan = [0] * len(sizes)
        _, paid = both.cost(instance, plan)
        for claimed in (paid, paid - 1, paid + 1, paid & words.PAYLOAD_MASK, paid & 0xFFFFFFFF, paid + (1 << 56), paid + (1 << 63)):
            both.check(instance, [], plan, claimed, [9] * length)
        both.on_table(both.encode(instance, [9] * length).table)
        both.drive(instance, [9] * length, [driver.plan_word(2)], [9], [9] * 2)
    # Costs whose low bits are those of the empty row, of which there is none.
    for total in fields.ROUND_COSTS:
        for value in range(2):
            for claimed in (0, 1 << 28, 1 << 32):
                both.check(fields.high_cost(*total), [], [value], claimed, [9] * fields.table_length(1, 1))


def leg_bounds(both):
    """Legs count first: so many stations with so many spots leave the rest of 4,096 for entries."""
    for stations, size in ((0, 8), (1, 8), (2, 1), (2, 8), (12, 8)):
        legs = max(stations - 1, 0) * size * size
        for entries in (MOST_ENTRIES - 1 - legs, MOST_ENTRIES - legs):
            every_other = [fields.forbidden() if at % 2 else ([], 1) for at in range(entries)]
            sheet = fields.sheet([[HERE] * size] * stations, every_other)
            for end in ends_of_entries():
                sheet_calls(both, sheet + end)


def compare(both):
    station_bounds(both)
    cost_bounds(both)
    entry_bounds(both)
    forbidden_words(both)
    forbidden_claims(both)
    leg_bounds(both)
