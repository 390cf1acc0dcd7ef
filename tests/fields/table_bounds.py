"""The bounds of a table through every call that takes one: length, width of the rows, words past them, 4,096 rows, weights."""

import random

import driver
import reference
from chosen import GROWING, NONE_LEFT, chain, long_chain
from lists import SMALL_FIELDS
from records import recorded
from reference import fields, words
from reference.answers import GOOD
from reference.forms import FIVE, SIX
from reference.limits import FORBIDDEN_WEIGHT, MAX_WEIGHT, ROW_WORDS
from reference.tables import Row, read_table, table_words

MOST_ROWS = 4_096
STEPS = 500


def in_table_of(both, record, length):
    """All calls in a table of this length, which may be too short for head and sizes, the encoding or a step."""
    encoding = both.encode(record.instance, [9] * length)
    both.check(record.instance, record.derivation, record.plan, record.cost, [9] * length)
    both.drive(record.instance, [9] * length, [driver.run_word(STEPS, STEPS), driver.plan_word(12)], [9] * STEPS, [9] * 12)
    if encoding.number == GOOD:
        ran = both.run(encoding.table, STEPS, [9] * len(record.derivation))
        both.step(ran.table)
        both.plan(ran.table, [9] * 12)


def length_bounds(both):
    """Every length up to eight words more than the run needs; of the longest field those around its bounds alone."""
    for field in SMALL_FIELDS + [GROWING, NONE_LEFT, chain(random.Random(3), [3, 2, 2])]:
        record = recorded(field)
        for length in range(record.length + 8):
            in_table_of(both, record, length)
    record = recorded(long_chain())
    for length in list(range(30)) + list(range(record.length - 15, record.length + 8)):
        in_table_of(both, record, length)


def variable_bounds(both):
    """From no variables to more than a table may have, in slices with room for them or a few words less or more; with and without
    a row, in either form."""
    for variables in (0, 1, 11, 12, 13, 14, 15):
        for row_total, form in ((0, SIX), (1, FIVE), (1, SIX)):
            table = table_words([1] * variables, [Row((), 7)] * row_total, fields.table_length(variables, row_total, 2, form), form)
            for length in range(variables, len(table) + 1):
                both.on_table(table[:length])


def words_past_the_rows(both):
    """0 to 11 words past the last row: zero they belong to a valid table, any other content is 9."""
    for sizes, entries in SMALL_FIELDS + [GROWING]:
        rows = read_table(reference.encode(fields.instance(sizes, entries), [0] * 200).table).rows
        for spare in range(2 * ROW_WORDS):
            table = table_words(sizes, rows, fields.table_length(len(sizes), len(rows), spare))
            both.on_table(table)
            for at in range(len(table) - spare, len(table)):
                for word in (1, 0x80000000, words.signs(0, [0, 0, 0])):
                    both.on_table(table[:at] + [word] + table[at + 1:])


def width_of_the_rows(both):
    """A row of four to seven words, with and without zeros past it; a weight of 0 in one or both of its words, and words of
    other kinds in place of them."""
    signs = [words.signs(0, [2, 0, 0])] + [words.signs(index, [0, 0, 0]) for index in range(1, 4)]
    start = [words.head(1), words.size(2), words.row_count(1)]
    for low in (0, 1):
        for high in (0, 1):
            row = signs + [words.weight(low), words.high_weight(high)]
            for width in range(len(signs), len(row) + 1):
                for behind in range(ROW_WORDS + 1):
                    both.on_table(start + row[:width] + [0] * behind)
                    both.on_table(start + row[:width] + row[-1:] + [0] * behind)
            for wrong in ([row[5], row[4]], [row[4], row[4]], [row[5], row[5]], [row[4], words.forbidden()]):
                both.on_table(start + signs + wrong)


def filled(first_rows, row_total, length):
    """A table of three variables with these rows of the first one, and rows of the others behind them."""
    rows = [Row((sign, 0, 0), weight) for sign, weight in first_rows]
    rows += [Row((0, 1 + at // 254, 1 + at % 254), 1) for at in range(row_total - len(rows))]
    return table_words([4, 8, 8], rows, length)


def row_bounds(both):
    """4,095 to 4,097 rows in slices with and without room for more: a step that adds a row, and one that does not."""
    for first_rows in ([(3, 1), (6, 2)], [(3, 2), (6, 2)]):
        for row_total in (MOST_ROWS - 1, MOST_ROWS, MOST_ROWS + 1):
            for spare in (0, ROW_WORDS - 1, 2_000):
                table = filled(first_rows, row_total, fields.table_length(3, row_total, spare))
                both.step(table)
                both.run(table, 1, [9] * 2)
                both.plan(table, [9] * 3)


def weight_bounds(both):
    """A step whose conclusion meets a row of the greatest weight, or of one less, with and without room for the others:
    11 comes before 12, whichever conclusion it is. The low word's greatest weight is none to refuse."""
    premises = [Row((3, 1, 0), 1), Row((6, 0, 1), 2)]
    for conclusion in ((2, 1, 1), (7, 1, 1), (3, 1, 6), (6, 6, 1)):
        for weight in (words.PAYLOAD_MASK - 1, words.PAYLOAD_MASK, MAX_WEIGHT - 1, MAX_WEIGHT):
            rows = premises + [Row(conclusion, weight)]
            for more in range(5):
                both.on_table(table_words([4, 3, 3], rows, fields.table_length(3, len(rows) + more)))


def moved_weights(both):
    """Premises of every two weights around the limit of the low word and the greatest, with a conclusion of the same ones."""
    weights = (1, words.PAYLOAD_MASK, words.PAYLOAD_MASK + 1, words.PAYLOAD_MASK + 2, MAX_WEIGHT // 2 + 1, MAX_WEIGHT)
    for first in weights:
        for second in weights:
            for third in weights:
                rows = [Row((3,), first), Row((6,), second), Row((2,), third)]
                both.on_table(table_words([4], rows, fields.table_length(1, 4)))


def empty_row_bounds(both):
    """The empty row around a forbidden entry's weight, beside heavy rows, with and without a pair left, before and behind them;
    targets of every length."""
    others = ["", "0,2:1", f"0,2:{MAX_WEIGHT} 2,0:{FORBIDDEN_WEIGHT}", "2,0:1 1,0:1",
              f"0,2:{FORBIDDEN_WEIGHT} 0,1:{FORBIDDEN_WEIGHT}"]
    weights = [1, 65_535, FORBIDDEN_WEIGHT - 1, FORBIDDEN_WEIGHT, FORBIDDEN_WEIGHT + 1, words.PAYLOAD_MASK, 1 << 28, (1 << 28) + 1,
               1 << 32, MAX_WEIGHT]
    for rows in others:
        for weight in weights:
            for text in (f"{rows} empty:{weight}", f"empty:{weight} {rows}"):
                table = fields.table([2, 2], text, fields.table_length(2, 4))
                both.on_table(table)
                for length in range(4):
                    both.plan(table, [9] * length)


def words_past_all_rows(both):
    """A slice may be longer than 4,096 rows take; it is held to zero up to its very end."""
    length = fields.table_length(1, MOST_ROWS, 40)
    table = both.encode(fields.instance(*SMALL_FIELDS[0]), [9] * length).table
    both.on_table(table)
    for at in (length - 40, length - 1):
        both.on_table(table[:at] + [1] + table[at + 1:])


def most_encoded_rows(both):
    """4,096 entries with a row each. The first two resolve to more rows than they were."""
    entries = [([(0, 0), (1, 0)], 1), ([(0, 1), (2, 0)], 2)]
    entries += [([(0, at >> 9), (1, at >> 6 & 7), (2, at >> 3 & 7), (3, at & 7)], 1) for at in range(MOST_ROWS - 2)]
    for entry_total in (MOST_ROWS - 9, MOST_ROWS):
        instance = fields.instance([8] * 4, entries[:entry_total])
        needed = fields.table_length(4, entry_total)
        for length in (needed - 1, needed, needed + 5, needed + 300):
            both.encode(instance, [9] * length)
            both.check(instance, [words.step(0, 0, 1), 0], [1] * 4, 0, [9] * length)


def compare(both):
    length_bounds(both)
    variable_bounds(both)
    words_past_the_rows(both)
    width_of_the_rows(both)
    row_bounds(both)
    weight_bounds(both)
    moved_weights(both)
    empty_row_bounds(both)
    words_past_all_rows(both)
    most_encoded_rows(both)
