"""Sheets as words. Reading tests in the order of document 01, front to back, so that the fault named is the one that the planner
refuses."""

from common.fault import Fault
from common.words import HEAD, PAYLOADS, SIZE, WORD_BYTES, Reader, packed, unpacked, whole_words, word

from .sheet import (FORBIDDEN, MAX_COORDINATE, MAX_COST, MAX_WORDS, Entry, Sheet, binding_fault, entry_fault, instance_fault,
                    instance_surplus, sizes_of)

BINDING = 3     # document 01: pair
COST = 4
EASTING = 8
NORTHING = 9
FORBIDDING = 11     # closes an entry in place of a cost

BINDING_BITS = 0xF07    # station and spot; all other bits of the payload are zero

# What ends an entry, as a fault says it.
CLOSING = "a cost or a forbidden word"

# The planner's numbers for these faults.
BAD_HEAD = 1
BAD_STATION = 2
BAD_ENTRY = 3
COST_TOO_HIGH = 4
TOO_MANY_ENTRIES = 5
TOO_LONG = 10

# What is said of a sheet that ends within a word.
CUT_WORD = f" (refusal {BAD_HEAD})"


def sheet_words(sheet):
    written = [word(HEAD, len(sheet.places))] if sheet.headed else []
    for values in sheet.places:
        written.append(word(SIZE, len(values)))
        for east, north in values:
            written += [word(EASTING, east), word(NORTHING, north)]
    for entry in sheet.entries:
        written += [word(BINDING, variable << 8 | value) for variable, value in entry.bindings]
        written.append(closing_word(entry.cost))
    return written


def closing_word(cost):
    return word(FORBIDDING, 0) if cost is FORBIDDEN else word(COST, cost)


def write_words(sheet):
    """The bytes of a file."""
    return packed(sheet_words(sheet))


def too_long():
    """The fault of a sheet that has more words than the planner takes."""
    return Fault(f"word {MAX_WORDS}", f"the planner takes {MAX_WORDS:,} words at most (refusal {TOO_LONG})")


def read_words(data):
    """The sheet that a file's bytes hold."""
    if len(data) > WORD_BYTES * MAX_WORDS:
        raise too_long()
    whole = whole_words(len(data), CUT_WORD)
    reader = Reader(unpacked(data), "sheet")
    headed = not reader.ended()
    stations = reader.take_stations(BAD_HEAD) if headed else 0
    places = tuple(read_places(reader, variable) for variable in range(stations))
    sizes = sizes_of(places)
    entries = read_entries(reader, sizes)
    reason = instance_fault(sizes, whole)
    if reason:
        raise Fault(f"word {MAX_WORDS - instance_surplus(sizes)}", f"{reason} (refusal {TOO_LONG})")
    return Sheet(places, entries, headed)


def read_places(reader, variable):
    spots = reader.take_spots(variable, BAD_STATION)
    return tuple((read_coordinate(reader, EASTING, f"the easting of spot {variable}/{value}"),
                  read_coordinate(reader, NORTHING, f"the northing of spot {variable}/{value}"))
                 for value in range(spots))


def read_coordinate(reader, kind, due):
    payload = reader.take_kind(kind, BAD_STATION, due)
    centimetres = payload - PAYLOADS if payload >= PAYLOADS // 2 else payload
    if abs(centimetres) > MAX_COORDINATE:
        reader.refuse(BAD_STATION, f"{due} is {centimetres:,} centimetres; at most {MAX_COORDINATE:,} either way")
    return centimetres


def read_entries(reader, sizes):
    entries = []
    while not reader.ended():
        entries.append(read_entry(reader, sizes, len(entries)))
    return tuple(entries)


def read_entry(reader, sizes, counted):
    bindings = []
    kind, payload = reader.take(BAD_ENTRY, CLOSING)
    while kind not in (COST, FORBIDDING):
        bindings.append(read_binding(reader, kind, payload, sizes, bindings))
        kind, payload = reader.take(BAD_ENTRY, CLOSING)
    cost = read_forbidden(reader, payload) if kind == FORBIDDING else read_cost(reader, payload)
    reason = entry_fault(sizes, counted)
    if reason:
        reader.refuse(TOO_MANY_ENTRIES, reason)
    return Entry(tuple(bindings), cost)


def read_forbidden(reader, payload):
    if payload:
        reader.refuse(BAD_ENTRY, f"a forbidden word with payload {payload:,}, which has to be 0")
    return FORBIDDEN


def read_cost(reader, payload):
    if payload > MAX_COST:
        reader.refuse(COST_TOO_HIGH, f"a cost of {payload:,}; at most {MAX_COST:,}")
    return payload


def read_binding(reader, kind, payload, sizes, before):
    if kind != BINDING:
        reader.refuse(BAD_ENTRY, f"a word of kind {kind} among the entries, which have pairs ({BINDING}) and then "
                                 f"a cost ({COST}) or a forbidden word ({FORBIDDING})")
    if payload & ~BINDING_BITS:
        reader.refuse(BAD_ENTRY, "a pair with a set bit outside its station and spot")
    variable, value = payload >> 8, payload & 7
    reason = binding_fault(sizes, before, variable, value)
    if reason:
        reader.refuse(BAD_ENTRY, reason)
    return variable, value
