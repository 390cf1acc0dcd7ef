"""The sheets whose printed output is compared, each made anew and always the same: a name and the bytes on standard input."""

import random
from itertools import combinations, islice, product

from reference import words
from reference.fields import as_bytes, forbidden, growing_sheet, sheet
from reference.limits import FORBIDDEN_WEIGHT

HERE = (0, 0)
FAR = 1_000_000
# Document 01's worked example.
EXAMPLE = sheet([[(0, 0)], [(300, 400), (600, 800)]], [([(1, 0)], 9)])
# From one place to a spot 2.50, 3 or 2.20 m away and back, the last at a cost of 1: 6, 6 and 5 by the nearest metre. Rounded down, the
# first is best at 4; rounded up, the last is worst at 7. The last leg, 2.50 m, is in every plan, so that a half is printed.
ROUNDED = sheet([[HERE], [(250, 0), (300, 0), (220, 0)], [HERE], [(250, 0)]], [([(1, 2)], 1)])


def spread(seed, stations, spots, width, highest):
    """Places in a square of this width in centimetres, and a cost for each spot."""
    rng = random.Random(seed)
    places = [[(rng.randrange(width), rng.randrange(width)) for _ in range(spots)] for _ in range(stations)]
    return places, [([(station, spot)], rng.randint(1, highest)) for station in range(stations) for spot in range(spots)]


def combined(seed, stations, spots, width, entry_total, costs=(1, 7, 50, 65_535)):
    """The same with costs of combinations of up to four stations, and a constant one."""
    places, entries = spread(seed, stations, spots, width, 90)
    rng = random.Random(seed + 1)
    for _ in range(entry_total):
        bound = sorted(rng.sample(range(stations), rng.randint(2, min(stations, 4))))
        entries.append(([(station, rng.randrange(spots)) for station in bound], rng.choice(costs)))
    return places, entries + [([], 12)]


def plans():
    """Fields that are planned to the end."""
    yield "example", EXAMPLE
    yield "rounded", ROUNDED
    yield "one-station", sheet([[HERE, HERE]], [])
    yield "one-spot", sheet([[(5, 5)]], [([(0, 0)], 7)])
    yield "all-at-65535", sheet([[HERE, HERE]], [([(0, 0)], 65_535), ([(0, 1)], 65_535)])
    yield "corners", sheet([[(-FAR, -FAR), (FAR, -FAR)], [(FAR, FAR)], [(-FAR, -FAR), (-FAR, FAR)]], [])
    yield "greatest-cost", sheet([[HERE]], [([], 65_535)] * 4_096)
    yield "spread-3x8", sheet(*spread(3, 3, 8, 30_000, 300))
    yield "spread-12x3", sheet(*spread(4, 12, 3, 50_000, 300))
    yield "spread-12x1", sheet(*spread(5, 12, 1, 2 * FAR // 3, 300))
    yield "combined-5x3", sheet(*combined(6, 5, 3, 20_000, 12))
    yield "combined-8x2", sheet(*combined(7, 8, 2, 20_000, 25))
    yield "combined-12x2", sheet(*combined(8, 12, 2, 20_000, 12))


def no_stations():
    """Fields without stations: no words, and a head of 0 with constant costs, which all are in the plan."""
    yield "no-bytes", []
    yield "no-stations", sheet([], [])
    yield "no-stations-cost-7", sheet([], [([], 7)])
    yield "no-stations-costs-add", sheet([], [([], 3), ([], 0), ([], 65_535), ([], 3)])
    yield "no-stations-greatest-cost", sheet([], [([], 65_535)] * 4_096)
    yield "15-no-stations", sheet([], [forbidden()])
    yield "15-no-stations-beside-costs", sheet([], [([], 5), forbidden(), ([], 65_535)])
    for name, word in (("station", words.size(1)), ("easting", words.easting(0)), ("pair", words.binding(0, 0)),
                       ("head", words.head(0)), ("forbidden-1", words.forbidden(1)), ("zero", 0)):
        yield f"3-no-stations-but-{name}", sheet([], []) + [word]
        yield f"3-no-stations-but-{name}-between-costs", sheet([], [([], 5)]) + [word, words.cost(1)]
    yield "4-no-stations-cost-65536", sheet([], []) + [words.cost(65_536)]
    yield "5-no-stations-4097-entries", sheet([], [([], 0)] * 4_097)


def some_forbidden():
    """Fields with forbidden spots and combinations in which a plan is left."""
    yield "one-spot-left", sheet([[HERE] * 3], [forbidden((0, 0)), ([(0, 1)], 65_535), forbidden((0, 2))])
    yield "dearer-than-65535", sheet([[HERE] * 2], [forbidden((0, 0))] + [([(0, 1)], 40_000)] * 3)
    yield "nearest-spot-forbidden", sheet([[HERE], [(300, 400), (600, 800)]], [forbidden((0, 0), (1, 0))])
    pairs = [forbidden((0, spot), (1, other)) for spot in range(3) for other in range(3) if (spot, other) != (2, 1)]
    yield "one-combination-left", sheet([[HERE] * 3, [(100, 0)] * 3], pairs)
    yield "forbidden-5x3", sheet(*combined(6, 5, 3, 20_000, 12, (1, 50, FORBIDDEN_WEIGHT)))
    yield "forbidden-8x2", sheet(*combined(7, 8, 2, 20_000, 25, (7, 65_535, FORBIDDEN_WEIGHT)))


def all_forbidden():
    """No plan without a forbidden combination."""
    yield "15-constant", sheet([[HERE]], [forbidden()])
    yield "15-one-spot", sheet([[HERE]], [forbidden((0, 0))])
    yield "15-all-spots", sheet([[HERE, HERE]], [forbidden((0, 0)), forbidden((0, 1))])
    pairs = [forbidden((0, spot), (1, other)) for spot in range(3) for other in range(3)]
    yield "15-all-combinations", sheet([[HERE] * 3, [(100, 0)] * 3], pairs)
    yield "15-beside-65535", sheet([[HERE]], [([], 65_535)] * 4_095 + [forbidden()])
    yield "15-after-steps", sheet(*combined(6, 5, 3, 20_000, 12, (1, 50))) + [words.forbidden()]
    yield "15-4096-forbidden-entries", sheet([[HERE]], [forbidden()] * 4_096)


def bad_heads():
    for stations in (13, 0xFFFFFFF):
        yield f"1-head-of-{stations}", [words.head(stations)] + EXAMPLE[1:]
    yield "1-no-head", EXAMPLE[1:]
    yield "1-zeros", [0] * 16_000


def bad_stations():
    """A wrong word in place of each of the example's station and coordinate words, and cuts there."""
    for at, word in ((1, words.size(0)), (1, words.size(9)), (4, words.cost(1)), (2, words.easting(FAR + 1)),
                     (3, words.northing(-FAR - 1)), (5, words.northing(300)), (8, words.easting(0)),
                     (4, words.forbidden()), (5, words.forbidden()), (8, words.high_weight(0))):
        yield f"2-word-{at}-{word:08x}", EXAMPLE[:at] + [word] + EXAMPLE[at + 1:]
    for length in (1, 2, 4, 8):
        yield f"2-cut-at-{length}", EXAMPLE[:length]


def bad_entries():
    """A wrong word where an entry of the example begins, and ends of words within one."""
    pair = words.binding
    for word in (pair(2, 0), pair(1, 2), pair(15, 0), pair(0, 0) | 8, pair(0, 0) | 1 << 12, words.size(1), words.forbidden(1),
                 words.forbidden(1 << 27), words.high_weight(0), words.high_weight(1)):
        yield f"3-word-{word:08x}", EXAMPLE + [word, words.cost(1)]
    yield "3-not-rising", EXAMPLE + [pair(1, 0), pair(0, 0), words.cost(1)]
    yield "3-station-twice", EXAMPLE + [pair(1, 0), pair(1, 0), words.cost(1)]
    yield "3-no-cost", EXAMPLE + [pair(0, 0), pair(1, 0)]
    yield "3-head-of-0", [words.head(0)] + EXAMPLE[1:]
    yield "3-before-4", EXAMPLE + [pair(2, 0), words.cost(65_536)]
    yield "3-before-5", EXAMPLE + [words.forbidden()] * 4_093 + [words.forbidden(1)]


def bad_costs():
    """Costs above the bound, and more than 4,096 of them; the example has two legs and one entry."""
    yield "4-cost-65536", EXAMPLE + [words.cost(65_536)]
    yield "4-highest", EXAMPLE + [words.cost(0xFFFFFFF)]
    yield "4-before-3", EXAMPLE + [words.cost(65_536), words.binding(2, 0), words.cost(1)]
    yield "4-before-5", EXAMPLE + [words.cost(0)] * 4_093 + [words.cost(65_536)]
    yield "4096-entries", EXAMPLE + [words.cost(1)] * 4_093
    yield "5-4097-entries", EXAMPLE + [words.cost(1)] * 4_094
    yield "5-4097-forbidden-entries", sheet([[HERE]], [forbidden()] * 4_097)
    yield "5-forbidden-as-the-4097th", EXAMPLE + [words.cost(1)] * 4_093 + [words.forbidden()]
    yield "5-most-legs", sheet([[HERE] * 8] * 12, [([], 1)] * (4_097 - 704))
    yield "4096-with-most-legs", sheet([[HERE] * 8] * 12, [([], 1)] * (4_096 - 704))


def long_entries(bound, word_total):
    """Costs of one combination of so many stations, and constant ones, that have so many words together."""
    whole, rest = divmod(word_total, bound + 1)
    return ([words.binding(station, 0) for station in range(bound)] + [words.cost(1)]) * whole + [words.cost(1)] * rest


def long_inputs():
    """Sheets of 16,000 words and instances of 16,000, and one word more of each."""
    three, most = sheet([[HERE]] * 3, []), sheet([[HERE] * 8] * 12, [])
    for word_total in (16_000, 16_001):
        yield f"sheet-of-{word_total}-words", three + long_entries(3, word_total - len(three))
        # Head, station words and 704 legs of three words stand before the sheet's entries.
        yield f"instance-of-{word_total}-words", most + long_entries(4, word_total - 13 - 704 * 3)
    yield "4-before-10", most + long_entries(4, 13_875) + [words.cost(65_536)]


def fillers(total, stations):
    """Different entries of three stations. Those of one lowest station all name its spot 0, so no two of their rows go
    together."""
    made = []
    for lowest in range(5):
        entries = [([(lowest, 0), (one, spot), (two, other)], 1)
                   for one, two in combinations(range(lowest + 1, stations), 2)
                   for spot, other in product(range(8), repeat=2)]
        made += entries[:1_000]
    return made[:total]


def filled(total, last_entries, last_spots):
    """Twelve stations, so the capacity is 2,664: so many fillers, and these entries of the stations from 9 on."""
    return sheet([[HERE] * 8] * 9 + [[HERE] * last_spots] * 3, fillers(total, 9) + last_entries)


# Four rows of the last stations, four after the first step, five after the second, which is the last.
GROWING = [([(9, 0)], 2), ([(9, 1)], 1), ([(10, 0)], 2), ([(10, 1), (11, 0)], 1)]


def capacities():
    """Exactly the rows that the table has room for and one more, in the encoding and in the run. Of its 15,998 words
    none is left over with six and with twelve stations, and all but one of a row with seven."""
    yield "2664-rows-encoded", filled(2_664, [], 1)
    yield "12-2665-rows-encoded", filled(2_665, [], 1)
    yield "2664-rows-after-a-step", filled(2_659, GROWING, 2)
    yield "full-2665-rows-after-a-step", filled(2_660, GROWING, 2)
    for stations, most in ((6, 2_665), (7, 2_664)):
        yield f"{most}-rows-of-{stations}-stations", growing_sheet(stations, most - 1)
        yield f"full-{most}-rows-of-{stations}-stations", growing_sheet(stations, most)
        yield f"12-{most + 1}-rows-of-{stations}-stations", growing_sheet(stations, most + 1)
    entries = [(list(enumerate(spots)), 1) for spots in islice(product(range(8), repeat=4), 2_665)]
    yield "2665-rows-of-4-stations", sheet([[HERE] * 8] * 4, entries[:2_664] + [([], 5)])
    yield "12-2666-rows-of-4-stations", sheet([[HERE] * 8] * 4, entries + [([], 5)])


def high_bounds():
    """Bounds above 32 bits, of so many forbidden constants: full before the first step, and after some hundred."""
    yield "full-bound-of-17-forbidden", growing_sheet(12, 2_663) + [words.forbidden()] * 17
    # With 46 legs these are as many entries as there may be. No other station hinders a pair, so the rows are soon many.
    rng = random.Random(10)
    entries = [([(0, at % 3), *((station, 0) for station in sorted(rng.sample(range(1, 12), 3)))], at + 1) for at in range(150)]
    yield "full-bound-of-3900-forbidden", sheet([[HERE] * 3] + [[HERE] * 2] * 11, entries) + [words.forbidden()] * 3_900


def full_in_the_run():
    """Many steps before the rows run out."""
    rng = random.Random(9)
    costs = [([], 31)] + [([(station, spot)], rng.randint(1, 99)) for station in (9, 10, 11) for spot in range(4)]
    for one, two in ((9, 10), (9, 11), (10, 11)):
        costs += [([(one, spot), (two, other)], rng.randint(1, 99)) for spot in range(4) for other in range(4)]
    for total in (2_464, 2_564):
        yield f"full-in-the-run-{total}", filled(total, costs, 4)


def limits():
    """Exactly as many steps as the limit allows, and one more."""
    yield "16000-steps", sheet(*spread(454, 8, 8, 30_000, 300))
    yield "paused-16001-steps", sheet(*spread(661, 8, 8, 30_000, 300))


def odd_lengths():
    """Lengths that are no multiple of four, and more bytes than the buffer has."""
    example, full = as_bytes(EXAMPLE), as_bytes(sheet([[HERE]] * 3, [])) + bytes(64_000)
    for length in (1, 2, 3, 5, 43):
        yield f"1-{length}-bytes", example[:length]
    for length in (63_999, 64_001, 64_002, 64_004, 200_000):
        yield f"{length}-bytes", (full + bytes(200_000))[:length]


def all_sheets():
    """Every sheet as a name and its bytes."""
    for group in (plans, no_stations, some_forbidden, all_forbidden, bad_heads, bad_stations, bad_entries, bad_costs, long_inputs,
                  capacities, high_bounds, full_in_the_run, limits):
        for name, source in group():
            yield name, as_bytes(source)
    yield from odd_lengths()
