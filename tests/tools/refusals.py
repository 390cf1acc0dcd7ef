"""Why the planner refuses a sheet: the rows that it needs, against the reference, and the command that says it."""

import itertools
import random

import round_trips
from reference import fields, make_instance
from reference.answers import GOOD, TABLE_FULL
from reference.tables import encode, read_table
from sheets.room import clauses
from sheets.words import read_words

SHEETS = 200
# What the program lends for the instance and the table.
INSTANCE, TABLE = 16_000, 15_998
# For how many rows the table has room, by the stations. Of its words none is left over with six and with twelve,
# and all but one of a row with seven.
ROOMS = {6: 2_665, 7: 2_664, 12: 2_664}
ROOM = ROOMS[12]


def encoded(sheet):
    made = make_instance(sheet, [0] * INSTANCE)
    return encode(made.target[:made.written], [0] * TABLE)


def check_rows(checks, sheet):
    data = fields.as_bytes(sheet)
    checks.same(f"the rows of {data.hex()}", len(clauses(read_words(data))), len(read_table(encoded(sheet).table).rows))


def crowded(rows, stations=12):
    """A sheet of so many rows, each of three spots; every other one is forbidden. One entry repeats another, one forbids what
    has a cost, and one costs nothing. The stations have eight spots at one place: each leg is 0 m and has no row."""
    combinations = (list(zip(bound, values)) for bound in itertools.combinations(range(stations), 3)
                    for values in itertools.product(range(8), repeat=3))
    chosen = list(itertools.islice(combinations, rows))
    entries = [fields.forbidden(*bindings) if at % 2 else (bindings, 1) for at, bindings in enumerate(chosen)]
    return fields.sheet([[(0, 0)] * 8] * stations, entries + [(chosen[0], 5), fields.forbidden(*chosen[0]), ([], 0)])


def check_room(checks, stations, room):
    """The most rows that there is room for, and one more."""
    most, more = crowded(room, stations), crowded(room + 1, stations)
    checks.same(f"the most rows of {stations} stations", encoded(most).number, GOOD)
    checks.same(f"a row too many of {stations} stations", encoded(more).number, TABLE_FULL)
    checks.answers(["why", "-"], fields.as_bytes(most), b"")
    checks.answers(["why", "-"], fields.as_bytes(more),
                   f"{room + 1:,} combinations of spots have a cost or are forbidden, those of the legs included; "
                   f"the program's table has room for {room:,} (refusal 12)\n".encode())


def run(checks):
    rng = random.Random("rows of sheets")
    for _ in range(SHEETS):
        check_rows(checks, fields.sheet(*round_trips.random_sheet(rng)))
    for stations, room in ROOMS.items():
        check_room(checks, stations, room)
    checks.answers(["why", "-"], b"\x01", b"word 0: only 1 of its 4 bytes (refusal 1)\n")
    checks.answers(["why", "examples/corner.sheet"], b"", b"")
    # That every plan is forbidden is found by planning alone.
    checks.answers(["why", "-"], fields.as_bytes(fields.sheet([[(0, 0)]], [fields.forbidden()])), b"")
