"""Sheets and instances through the proved library against the reference: small words, damage, truncation, targets."""

import itertools
import random

import proved
import reference
from different import require
from reference import fields, inputs, words
from reference.answers import Refused

# Each kind with payloads at and beside its bounds, and with set unnamed bits.
INTERESTING = [0, 1, 0xFFFFFFFF] + [
    (kind << 28) | payload
    for kind in range(1, 13)
    for payload in (0, 1, 2, 8, 9, 12, 13, 65535, 65536, 0x100, 0x808, 1000000, 1000001, 267435456, 267435455,
                    0x8000000, 0xFFFFFFF)]


def named_variables(source):
    """The number of variables that the head of a sheet, an instance or a table names, if it has one at all."""
    return source[0] & 15 if source else 0


def good_sheets():
    """A dozen accepted sheets: no station to twelve, travel, constants, empty entries, forbidden ones, bounds."""
    chance = random.Random(1)
    sheets = [[],
              fields.sheet([], [([], 65535), fields.forbidden(), ([], 1)]),
              fields.sheet([[(0, 0)], [(300, 400), (600, 800)]], [([(1, 0)], 9)]),
              fields.sheet([[(-1000000, 1000000)]], []),
              fields.sheet([[(0, 0)] * 8], [([], 65535), ([], 0)]),
              fields.sheet([[(0, 0)], [(0, 0)] * 2], [fields.forbidden((0, 0), (1, 1)), fields.forbidden(), ([(1, 0)], 65535)])]
    for stations in (2, 3, 4, 5, 6, 8, 10, 11, 12):
        places = [[(chance.randint(-1000000, 1000000), chance.randint(-1000000, 1000000))
                   for _ in range(chance.randint(1, 3))] for _ in range(stations)]
        entries = []
        for _ in range(chance.randint(1, 4)):
            bound = sorted(chance.sample(range(stations), chance.randint(0, min(stations, 3))))
            entries.append(([(v, chance.randrange(len(places[v]))) for v in bound], chance.randint(0, 65535)))
        sheets.append(fields.sheet(places, entries))
    return sheets


def same_instance(sheet, target):
    expected = tuple(reference.make_instance(sheet, target))
    got = tuple(proved.make_instance(sheet, target))
    require(got == expected, f"make {sheet} in {len(target)} words: {got[:2]}, reference {expected[:2]}")


def small_sheets():
    for length in (0, 1, 2):
        for sheet in itertools.product(INTERESTING, repeat=length):
            yield list(sheet)


def damaged(sheet, chance):
    """Every word replaced by some interesting ones and with single bits flipped, then every truncation."""
    for at in range(len(sheet)):
        for word in chance.sample(INTERESTING, 12) + [sheet[at] ^ (1 << bit) for bit in range(32)]:
            yield sheet[:at] + [word] + sheet[at + 1:]
    for length in range(len(sheet)):
        yield sheet[:length]


def same_cost(instance, plan):
    got, expected = tuple(proved.cost(instance, plan)), inputs.cost_call(instance, plan)
    require(got == expected, f"cost of {plan} in {instance}: {got}, reference {expected}")


def same_costs(instance, chance):
    """Plans of every kind: cut, too long, out of range, and in range or nearly so."""
    stations = named_variables(instance)
    plans = [[], [0] * stations, [0] * (stations + 1), [255] * stations]
    plans += [[chance.randrange(4) for _ in range(stations)] for _ in range(8)]
    for plan in plans:
        same_cost(instance, plan)
    return len(plans)


def answer_slices(instance):
    """An answer is written as far as its slice goes, and what lies behind its fields is kept."""
    plan = [0] * named_variables(instance)
    number, cost = proved.cost(instance, plan)
    for length, expected in ((0, []), (2, [cost, 77]), (3, [cost, 77, 77])):
        got = proved.answered_cost(instance, plan, length)
        require(got == (number, expected), f"cost in an answer of {length}: {got}, due {number, expected}")


def constant_bounds(front):
    """The bounds of a cost and of entries, in constant ones behind these words."""
    for cost in (65535, 65536):
        yield front + [words.cost(cost)]
    for entries in (4096, 4097):
        yield front + [words.cost(at % 2) for at in range(entries)]
        yield front + [words.forbidden()] * entries
    yield front + [words.forbidden()] * 4096 + [words.forbidden(1)]


def bounds():
    """The bounds of documents 01 and 02: stations, costs and entries."""
    for stations in (0, 12, 13):
        yield [words.head(stations)] + [w for _ in range(stations)
                                        for w in (words.size(1), words.easting(0), words.northing(0))]
    for places in ([], [[(0, 0)]]):
        yield from constant_bounds(fields.sheet(places, []))
    two = fields.sheet([[(0, 0)] * 8] * 2, [])
    for entries in (4096 - 64, 4097 - 64):
        yield two + [words.cost(1)] * entries
        yield two + [words.forbidden()] * entries


def instance_bounds():
    """The same bounds of an instance."""
    for stations in (0, 12, 13):
        yield [words.head(stations)] + [words.size(1)] * stations
    for sizes in ([], [1]):
        yield from constant_bounds(fields.instance(sizes, []))


def room_for(sheet):
    """Words in a target that is a little longer than the sheet's instance."""
    if not accepted(sheet):
        return 40
    return len(inputs.made_words(sheet)) + 3


def sheet_cases(sheets, chance):
    spoiled = [sheet for good in sheets for sheet in damaged(good, chance)]
    cases = 0
    for sheet in itertools.chain(small_sheets(), spoiled, bounds()):
        same_instance(sheet, [3] * room_for(sheet))
        cases += 1
    for sheet in sheets + list(bounds()):
        needed = room_for(sheet) - 3
        for length in (0, needed - 1, needed, needed + 3):
            same_instance(sheet, [7] * length)
            cases += 1
    return cases


def instance_cases(sheets, chance):
    """The same words read as instances: small ones, made ones, damaged ones, and the bounds without coordinates."""
    cases = 0
    for words_given in small_sheets():
        same_cost(words_given, [0] * named_variables(words_given))
        cases += 1
    for sheet in sheets:
        made = reference.make_instance(sheet, [0] * 16000)
        instance = made.target[:made.written]
        cases += same_costs(instance, chance)
        answer_slices(instance)
        for spoiled in damaged(instance[:40], chance):
            same_cost(spoiled, [0] * named_variables(spoiled))
            cases += 1
    for instance in instance_bounds():
        same_cost(instance, [0] * named_variables(instance))
        cases += 1
    return cases


def run():
    chance = random.Random(2)
    sheets = good_sheets()
    return sheet_cases(sheets, chance) + instance_cases(sheets, chance)


def accepted(sheet):
    try:
        inputs.read_sheet(sheet)
    except Refused:
        return False
    return True
