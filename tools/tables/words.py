"""Tables as words. Reading tests front to back, so that the fault named is the first."""

from common.fault import Fault
from common.words import HEAD, PAYLOADS, SIZE, WORD_BYTES, Reader, packed, unpacked, whole_words, word

from .table import (EITHER, FIVE, MAX_WORDS, SIGN_WORDS, SIX, Row, Table, repeated_fault, rows_start, sign_fault,
                    spots_in)

SIGNS = 5
ROW_COUNT = 10
# Of the words of a weight, the low bits first.
WEIGHT_KINDS = (6, 12)

SIGNS_PER_WORD = 3
INDEX = 1 << 24     # a sign word's index stands above its three signs

# The planner's number for every fault of a table.
BAD_TABLE = 9


def write_words(table):
    """The bytes of a file; where a table has both forms, it has no rows."""
    written = [word(HEAD, len(table.sizes))] + [word(SIZE, size) for size in table.sizes] + [word(ROW_COUNT, len(table.rows))]
    for row in table.rows:
        written += row_words(table.forms[0], row)
    return packed(written) + bytes(WORD_BYTES * (table.words - len(written)))


def row_words(form, row):
    signs = row.signs + (0,) * (SIGN_WORDS * SIGNS_PER_WORD - len(row.signs))
    written = [word(SIGNS, index * INDEX + int.from_bytes(signs[SIGNS_PER_WORD * index:][:SIGNS_PER_WORD], "little"))
               for index in range(SIGN_WORDS)]
    return written + [word(kind, row.weight // PAYLOADS ** place) for place, kind in enumerate(WEIGHT_KINDS[:form.weight_words])]


def read_words(data):
    """The table that a file's bytes hold."""
    if len(data) > WORD_BYTES * MAX_WORDS:
        raise Fault(f"word {MAX_WORDS}", f"a table here has {MAX_WORDS:,} words at most")
    whole = whole_words(len(data))
    reader = Reader(unpacked(data), "table")
    sizes = tuple(reader.take_spots(station, BAD_TABLE) for station in range(reader.take_stations(BAD_TABLE)))
    count = reader.take_kind(ROW_COUNT, BAD_TABLE, "the number of rows")
    form = told_form(reader.words, len(sizes))
    if count > form.room(len(sizes), whole):
        reader.refuse(BAD_TABLE, f"a row count of {count:,}; {whole:,} words have room for {form.room_text(len(sizes), whole)}")
    rows = read_rows(reader, form, sizes, count)
    take_zeros(reader)
    return Table((form,) if rows else EITHER, sizes, rows, whole)


def told_form(words, stations):
    """The form of the first row, if there is one: a word behind five others that is the second of a weight tells six."""
    behind = words[rows_start(stations) + FIVE.row_words:][:1]
    return SIX if behind and behind[0] // PAYLOADS == WEIGHT_KINDS[1] else FIVE


def read_rows(reader, form, sizes, count):
    """The rows in order, kept by their signs, which no two have in common."""
    rows, places = [], {}
    for number in range(count):
        signs = read_signs(reader, form, sizes, number)
        reason = repeated_fault(places, signs)
        if reason:
            reader.refuse(BAD_TABLE, reason)
        places[signs] = number
        rows.append(Row(signs, read_weight(reader, form, number)))
    return tuple(rows)


def row_text(form, number):
    """A row as a fault names it, with the form that it was read in."""
    return f"row {number} ({form.name} words to a row)"


def read_signs(reader, form, sizes, number):
    signs = []
    for index in range(SIGN_WORDS):
        due = f"sign word {index} of {row_text(form, number)}"
        found, payload = divmod(reader.take_kind(SIGNS, BAD_TABLE, due), INDEX)
        if found != index:
            reader.refuse(BAD_TABLE, f"sign word {found} where {due} is due")
        for station, sign in enumerate(payload.to_bytes(SIGNS_PER_WORD, "little"), SIGNS_PER_WORD * index):
            reason = sign_fault(sizes, station, spots_in(sign))
            if reason:
                reader.refuse(BAD_TABLE, f"row {number}: {reason}")
            signs.append(sign)
    return tuple(signs[:len(sizes)])


def read_weight(reader, form, number):
    weight = 0
    for place, kind in enumerate(WEIGHT_KINDS[:form.weight_words]):
        weight += reader.take_kind(kind, BAD_TABLE, f"weight word {place} of {row_text(form, number)}") * PAYLOADS ** place
    if weight == 0:
        reader.refuse(BAD_TABLE, f"row {number} has a weight of 0")
    return weight


def take_zeros(reader):
    """The words behind the rows."""
    while not reader.ended():
        if any(reader.take(BAD_TABLE, "a zero")):
            reader.refuse(BAD_TABLE, "a word other than 0 behind the last row")
