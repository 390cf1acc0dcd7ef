"""Conversions of tables: random ones there and back, and chosen ones of either form with each bit turned, cut and lengthened,
with targets around their bounds, weights around the greatest of one word, and as many rows as there may be."""

import calls
import reference
from reference import fields, words
from reference.forms import FIVE, SIX
from reference.limits import FIVE_MAX_WEIGHT, FORBIDDEN_WEIGHT, MAX_ROWS, MAX_WEIGHT
from reference.tables import Row, read_table, rows_start, table_words

# Each conversion with the form that it takes and the one that it makes.
CONVERSIONS = [(calls.to_six, FIVE, SIX), (calls.to_five, SIX, FIVE)]
SIZES = [3, 3]


def chosen_conversions():
    return target_lengths() + damaged_tables() + weights() + full_tables()


def random_conversions(rng, table):
    """A six-word table there and back, into targets that may have no room; and each by the conversion that it is not for."""
    sizes, rows = read_table(table)
    five = reference.to_five(table, [0] * len(table)).target
    return [calls.to_five(table, target(rng, sizes, rows, FIVE)), calls.to_six(five, target(rng, sizes, rows, SIX)),
            calls.to_six(table, target(rng, sizes, rows, SIX)), calls.to_five(five, target(rng, sizes, rows, FIVE))]


def target(rng, sizes, rows, form):
    """Mostly with room, often just so."""
    needed = fields.table_length(len(sizes), len(rows), form=form)
    length = rng.choice([needed, needed, needed + rng.randrange(20), needed - 1, rng.randrange(rows_start(len(sizes)) + 1)])
    return [rng.randrange(1 << 32) for _ in range(length)]


def target_lengths():
    """Every length up to a few words more than needed, for tables of no row, of one and of three."""
    made = []
    for convert, form, other in CONVERSIONS:
        for text in ("", "1,1:1", f"1,1:1 2,0:{FIVE_MAX_WEIGHT} empty:7"):
            row_total = len(text.split())
            source = fields.table(SIZES, text, fields.table_length(2, row_total, 3, form), form)
            made += [convert(source, [9] * length) for length in range(fields.table_length(2, row_total, 8, other))]
    return made


def damaged_tables():
    """Each bit turned, each word doubled and left out, every shorter slice, and longer ones with zeros and with something else;
    by both conversions."""
    made = []
    for form in (FIVE, SIX):
        good = fields.table(SIZES, "1,1:1 2,0:5", fields.table_length(2, 2, 2, form), form)
        spoiled = [good[:at] + [good[at] ^ 1 << bit] + good[at + 1:] for at in range(len(good)) for bit in range(32)]
        for at in range(len(good)):
            spoiled += [good[:at], good[:at] + good[at + 1:], good[:at] + good[at:at + 1] + good[at:]]
        for more in range(1, 9):
            spoiled += [good + [0] * more, good + [0] * (more - 1) + [1], good + [words.high_weight(0)] * more]
        made += [convert(table, [9] * 20) for table in spoiled for convert, _, _ in CONVERSIONS]
    return made


def weights():
    """Weights around the greatest of one word in each of three rows, in targets too short, without room and with it; and words of
    every kind in place of a weight of one word."""
    made = []
    for weight in (1, FORBIDDEN_WEIGHT, FIVE_MAX_WEIGHT, FIVE_MAX_WEIGHT + 1, 1 << 32, (1 << 32) + 1, MAX_WEIGHT):
        for at in range(3):
            rows = [Row((1 << row, 0), weight if row == at else 1) for row in range(3)]
            table = table_words(SIZES, rows, fields.table_length(2, 3))
            made += [calls.to_five(table, [9] * length) for length in (3, 4, 18, 19)]
    good = fields.table(SIZES, "1,1:1 empty:1", fields.table_length(2, 2, form=FIVE), FIVE)
    return made + [calls.to_six(good[:8] + [words.word(kind, payload)] + good[9:], [9] * 20)
                   for kind in range(16) for payload in (0, 1, FIVE_MAX_WEIGHT)]


def full_tables():
    """As many rows as there may be, one less and one more; targets a word short, just long enough and longer than any table."""
    made = []
    for convert, form, other in CONVERSIONS:
        for row_total in (MAX_ROWS - 1, MAX_ROWS, MAX_ROWS + 1):
            rows = [Row((0, 1 + at // 254, 1 + at % 254), 1) for at in range(row_total)]
            source = table_words((4, 8, 8), rows, fields.table_length(3, row_total, form=form), form)
            needed = fields.table_length(3, row_total, form=other)
            made += [convert(source, [9] * length) for length in (needed - 1, needed, needed + 20)]
    return made
