"""The seasons that are compared, each made anew and always the same: a name and the bytes on standard input."""

import random
from itertools import cycle, islice, product

from reference import words
from reference.fields import NO_HEAD, NO_WORDS, as_bytes, costing, instance, length, season
from reference.limits import FORBIDDEN_WEIGHT
from sheets import EXAMPLE, all_sheets

ONE = as_bytes(EXAMPLE)
# The shortest sheet that is passed over.
PASSED_OVER = bytes(64_004)
# Sheets of at most five words: refused under 1, 2 and 3, and planned, with a cost that may come twice.
REFUSED = [as_bytes([words.head(13)]), as_bytes([words.head(1)]), costing(7)[:-4] + as_bytes([words.size(1)])]
TINY = [*REFUSED, NO_WORDS, costing(7)[:-4], costing(7)]
# As short, with its one plan forbidden.
FORBIDDEN_SHEET = costing(FORBIDDEN_WEIGHT)


def constant(*costs):
    """The bytes of a sheet without stations that has these costs, or forbids."""
    return as_bytes(instance([], [([], cost) for cost in costs]))


NO_STATIONS = constant()


def cuts():
    """Ends of a file, and lengths about every bound."""
    yield "empty", b""
    for cut in (1, 2, 3):
        for last in (b"\0\0\0", b"\xff\xff\xff"):
            yield f"length cut after {cut} of {last}", last[:cut]
            yield f"length cut after {cut} of {last} behind a sheet", season([ONE]) + last[:cut]
    for count in (1, 2, 3):
        yield f"length 0 {count} times", length(0) * count
        yield f"length 0 {count} times and 3 bytes", length(0) * count + bytes(3)
    yield "length 0 before a sheet", season([NO_WORDS, ONE])
    yield "length 0 behind a sheet", season([ONE, NO_WORDS])
    for announced in (1, 12, 16_000, 16_001, 0x3FFFFFFF, 0x40000000, 0x4000000B, 0x7FFFFFFF, 0x80000000, 0xC0000001,
                      0xFFFFFFFF):
        yield f"length {announced} before 44 bytes", season([ONE]) + length(announced) + ONE
    for more in (64_003, 64_004):
        yield f"{more} bytes behind length 16,001", length(16_001) + bytes(more)
        yield f"{more} bytes and a sheet behind length 16,001", length(16_001) + bytes(more) + season([ONE])
    inside = season([ONE] * 2_000)
    yield "sheets in passed-over words", season([inside, costing(3), inside, ONE]) + b"\0"


def costs():
    """Which cost is the largest, and which sheet has it first."""
    for listed in ([3, 7, 7, 5], [7, 3, 7], [1, 2, 3], [0], [0, 0, 0], [0, 1, 1], [65_535, 65_535]):
        yield f"costs {listed}", season(map(costing, listed))
    yield "forbidden between costs", season([FORBIDDEN_SHEET, costing(3), FORBIDDEN_SHEET, costing(65_535), FORBIDDEN_SHEET])
    yield "forbidden alone", season([FORBIDDEN_SHEET] * 3)
    yield "nothing planned", season(REFUSED)
    for name, zero in (("costs 0", costing(0)), ("no words", NO_WORDS), ("no stations", NO_STATIONS)):
        yield f"refused before {name}", season([*REFUSED, PASSED_OVER, zero, zero])
    yield "refused before a plan", season([*REFUSED, PASSED_OVER, costing(4)])


def no_stations():
    """Sheets of no words and of no stations among others: which cost is the largest, and which sheet has it first."""
    sheets = {"no words": NO_WORDS, "no costs": NO_STATIONS, "cost 4": constant(1, 3), "forbidden": constant(FORBIDDEN_WEIGHT),
              "a station": costing(0), "a station at cost 4": costing(4)}
    for chosen in product(sheets, repeat=2):
        yield f"no stations: {' and '.join(chosen)}", season(sheets[name] for name in chosen)
    yield "no stations: all", season([*sheets.values(), *sheets.values()])
    yield "no stations: the greatest cost", season([ONE, constant(*[65_535] * 4_096), NO_WORDS])


def many_sheets():
    """As many sheets as are counted, and more."""
    tiny = list(islice(cycle([costing(cost) for cost in range(1, 30)] + TINY + [FORBIDDEN_SHEET]), 10_000))
    yield "10,000 sheets", season(tiny)
    yield "10,001 sheets", season(tiny + [costing(60_000)])
    last = season(tiny[:-1])
    for name, end in (("a plan", season([costing(1_000)])), ("no words", length(0)), ("a cut length", b"\0\0\0"),
                      ("a forbidden plan", season([FORBIDDEN_SHEET])), ("a cut sheet", season([ONE])[:-1]),
                      ("passed-over words", season([PASSED_OVER]))):
        yield f"{name} as the 10,000th sheet", last + end
    for cut in (1, 2, 3, 4):
        yield f"10,000 sheets and {cut} bytes", season([NO_WORDS] * 10_000) + length(16_000)[:cut]
    yield "10,000 refused sheets and a byte", season([NO_HEAD] * 10_000) + b"\0"


def every_outcome():
    """The sheets whose printed plans are compared, each by itself and all together in several orders. A length that is
    no multiple of four has no place in a season."""
    named = [(name, source) for name, source in all_sheets() if len(source) % 4 == 0]
    for name, source in named:
        yield f"{name} alone", season([source])
    sources = [source for _, source in named]
    yield "every outcome", season(sources)
    yield "every outcome, backwards", season(reversed(sources))
    for seed in (1, 2):
        random.Random(seed).shuffle(sources)
        yield f"every outcome, shuffled with seed {seed}", season(sources)


def truncated():
    """Every beginning of every season of up to two tiny sheets, and of one of three sheets."""
    whole = [season(chosen) for count in range(3) for chosen in product(TINY, repeat=count)]
    whole.append(season([ONE, TINY[1], ONE]))
    beginnings = {source[:end] for source in whole for end in range(len(source) + 1)}
    for source in sorted(beginnings):
        yield f"{len(source)} bytes {source.hex()}", source


def damaged(rng, source):
    """The bytes with a word changed, a byte changed, left out or doubled, or the end cut off."""
    at = rng.randrange(len(source))
    word = at - at % 4
    changed = int.from_bytes(source[word:word + 4], "little") + rng.choice([-2, -1, 1, 2, 16_000, 1 << 30])
    return rng.choice([source[:word] + length(changed % (1 << 32)) + source[word + 4:],
                       source[:at] + bytes([rng.randrange(256)]) + source[at + 1:],
                       source[:at] + source[at + 1:],
                       source[:at] + source[at:at + 1] + source[at:],
                       source[:at]])


def randomly_damaged():
    rng = random.Random(31)
    pool = TINY + [FORBIDDEN_SHEET, ONE, *(source for _, source in all_sheets() if 40 < len(source) < 500)]
    for number in range(250):
        sheets = [rng.choice(pool) for _ in range(rng.randint(1, 7))]
        if rng.random() < 0.15:
            sheets.insert(rng.randrange(len(sheets)), PASSED_OVER)
        source = season(sheets)
        for _ in range(rng.randint(1, 3)):
            source = damaged(rng, source) or length(1)
        yield f"randomly damaged {number}", source


def all_seasons():
    for group in (cuts, costs, no_stations, many_sheets, every_outcome, truncated, randomly_damaged):
        yield from group()
