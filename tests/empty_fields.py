"""Fields without variables, which are no words at all or a head of 0 with constant costs, through every call; empty_tables has their
tables. Each call comes with the number and the fields that documents 01 and 02 ask for."""

from itertools import product

from empty_tables import FIXED, HEAD, LENGTHS, START, asked, calls_on, conversions, refused_or, room_number, rows_of, slice_calls
from reference import words
from reference.answers import BAD_CLAIM, BAD_ENTRY, BAD_READOUT, BAD_STEP, COST_TOO_HIGH, GOOD, TARGET_TOO_SHORT
from reference.fields import instance
from reference.forms import FIVE, SIX
from reference.limits import FORBIDDEN_WEIGHT, MAX_COST
from reference.tables import Row, table_words

CONSTANTS = [0, 1, 65_535, FORBIDDEN_WEIGHT]
# The words of a table with room for the empty row.
ROOM = 8
NO_STEPS = [0, HEAD, words.step(0, 0, 0), words.step(0, 0, 1), words.step(0, 1, 0), words.step(15, 0, 1)]


def constants():
    """The costs of every field of up to three constants."""
    for count in range(4):
        yield from product(CONSTANTS, repeat=count)


def sources():
    """The words of each field, which are a sheet and an instance, with its costs."""
    yield [], ()
    for costs in constants():
        yield instance([], [([], cost) for cost in costs]), costs


def sheet_calls(source):
    """The instance has the sheet's own words, and there is no variable to ask for."""
    for length in LENGTHS:
        number = GOOD if len(source) <= length else TARGET_TOO_SHORT
        yield asked("make", source, [9] * length, due=refused_or(number, len(source)))
    for plan, variable, east in product(([], [0]), (0, 1, 12), (0, 1_000_001)):
        yield asked("readout", source, plan, variable, words.easting(east), words.northing(0), due=[BAD_READOUT, 0])


def instance_calls(source, total):
    """The only plan has no bytes and costs all entries."""
    yield asked("cost", source, [], due=[GOOD, total])
    for plan in ([0], [255], [0] * 12):
        yield asked("cost", source, plan, due=[BAD_CLAIM, 0])
    for length in LENGTHS:
        yield asked("encode", source, [9] * length, due=refused_or(room_number(length, SIX, total), rows_of(total)))


def check_calls(source, total):
    """The claim is the cost of all entries, and no step word is permitted."""
    for length in LENGTHS:
        yield asked("check", source, [], [], total, [9] * length, due=[room_number(length, SIX, total), 0])
    for plan in ([0], [255], [0] * 12):
        yield asked("check", source, [], plan, total, [9] * ROOM, due=[BAD_CLAIM, 0])
    for claimed in (total + 1, total ^ 1, total + (1 << 28), total + (1 << 32), total + (1 << 56), total + (1 << 63)):
        yield asked("check", source, [], [], claimed, [9] * ROOM, due=[BAD_CLAIM, 0])
        yield asked("check", source, NO_STEPS[-1:], [], claimed, [9] * ROOM, due=[BAD_STEP, 0])
    for step in NO_STEPS:
        yield asked("check", source, [step], [], total, [9] * ROOM, due=[BAD_STEP, 0])


def finished_calls(total):
    """The calls on the table of a field of this cost, in either form: in slices that end with it, that have a word more and that
    have room for a further row."""
    rows = [Row((), total)] * rows_of(total)
    for form in (FIVE, SIX):
        needed = START + form.row_words * len(rows)
        for spare in (0, 1, 6) if total <= form.max_weight else ():
            table = table_words((), rows, needed + spare, form)
            yield from calls_on(table, FIXED, [0, 2])
            yield from conversions(table, LENGTHS)


def closing(word):
    """The number of an entry that is this word alone, and what it costs."""
    kind, payload = words.kind_of(word), words.payload_of(word)
    if kind == words.COST:
        return (GOOD, payload) if payload <= MAX_COST else (COST_TOO_HIGH, 0)
    return (GOOD, FORBIDDEN_WEIGHT) if word == words.forbidden() else (BAD_ENTRY, 0)


def entry_calls():
    """Each kind of word as the only entry and between two costs."""
    for kind, payload in product(range(16), (0, 1, 65_535, 65_536, words.PAYLOAD_MASK)):
        word = words.word(kind, payload)
        number, cost = closing(word)
        for source, total in (([HEAD, word], cost), ([HEAD, words.cost(5), word, words.cost(2)], 7 + cost)):
            yield asked("make", source, [9] * 5, due=refused_or(number, len(source)))
            yield asked("readout", source, [], 0, 0, 0, due=[number or BAD_READOUT, 0])
            yield asked("cost", source, [], due=refused_or(number, total))
            yield asked("encode", source, [9] * ROOM, due=refused_or(number, rows_of(total)))
            yield asked("check", source, [], [], total, [9] * ROOM, due=[number, 0])


def every_call():
    for source, costs in sources():
        yield from sheet_calls(source)
        yield from instance_calls(source, sum(costs))
        yield from check_calls(source, sum(costs))
    for total in sorted({sum(costs) for costs in constants()}):
        yield from finished_calls(total)
    yield from slice_calls()
    yield from entry_calls()
