"""Valid tables of either form from real runs, damaged: bits flipped, rows swapped, doubled and made heavy, slices cut and
lengthened."""

import random

import reference
from chosen import GROWING, NONE_LEFT, chain, long_chain, scattered
from lists import EMPTY_FIELDS, SMALL_FIELDS
from records import ROWS, stepped
from reference import fields, words
from reference.forms import FIVE, SIX
from reference.limits import FIVE_MAX_WEIGHT, FORBIDDEN_WEIGHT, ROW_WORDS, SIGN_WORDS
from reference.tables import read_table, rows_start, table_words

RANDOM_FLIPS = 250
RANDOM_WORDS = 120


def on_the_way(field, spare):
    """The tables of a field after the encoding, in the middle and at the end, with room for no, one and two rows more."""
    start = reference.encode(fields.instance(*field), [0] * fields.table_length(len(field[0]), ROWS)).table
    _, tables = stepped(start)
    chosen = [start, tables[len(tables) // 2], tables[-1]]
    return [shortened(table, spare + ROW_WORDS * more) for more, table in enumerate(chosen)]


def shortened(table, spare):
    """The table with so many words past its last row."""
    sizes, rows = read_table(table)
    return table[:fields.table_length(len(sizes), len(rows), spare)]


def in_five_words(tables):
    """Those of the tables whose weights have one word each, in five-word rows with as many words past the last."""
    read = [(table, *read_table(table)) for table in tables]
    return [table_words(sizes, rows, len(table) - len(rows), FIVE) for table, sizes, rows in read
            if all(row.weight <= FIVE_MAX_WEIGHT for row in rows)]


def row_places(table, form):
    """Where each row starts."""
    sizes, rows = read_table(table, form)
    return [rows_start(len(sizes)) + form.row_words * index for index in range(len(rows))]


def with_word(table, at, word):
    return table[:at] + [word] + table[at + 1:]


def with_row(table, at, row):
    return table[:at] + row + table[at + len(row):]


def with_weight(table, at, weight_words):
    """The table with other words for the weight of the row at this place."""
    return with_row(table, at + SIGN_WORDS, weight_words)


def all_bits(table):
    for at in range(len(table)):
        for bit in range(32):
            yield with_word(table, at, table[at] ^ 1 << bit)


def random_bits(chance, table):
    """One to three bits anywhere."""
    for _ in range(RANDOM_FLIPS):
        spoiled = list(table)
        for _ in range(chance.choice([1, 1, 2, 3])):
            spoiled[chance.randrange(len(table))] ^= 1 << chance.randrange(32)
        yield spoiled


def random_words(chance, table):
    """A word replaced by another of the table, or by one with another kind, index or payload."""
    for _ in range(RANDOM_WORDS):
        at, other = chance.randrange(len(table)), chance.choice(table)
        payload = words.payload_of(table[at])
        word = chance.choice([other, words.word(chance.randrange(16), payload), words.signs(chance.randrange(4), [1, 0, 0]),
                              words.weight(0), words.weight(words.PAYLOAD_MASK), words.high_weight(0),
                              words.high_weight(words.PAYLOAD_MASK), words.forbidden(), words.row_count(payload + 1)])
        yield with_word(table, at, word)


def swapped_rows(table, form):
    """A table stays valid when rows change places; its next pair may be another."""
    places = row_places(table, form)
    for first, second in zip(places, places[1:] + places[:1]):
        one, other = table[first:first + form.row_words], table[second:second + form.row_words]
        yield with_row(with_row(table, first, other), second, one)


def doubled_rows(table, form):
    """Two rows with equal signs: one over another, with the same weight and with another one; and one behind the last."""
    places = row_places(table, form)
    for first, second in zip(places, places[1:] + places[:1]):
        row = table[first:first + form.row_words]
        yield with_row(table, second, row)
        yield with_row(table, second, row[:SIGN_WORDS])
    if places:
        count_at, end = places[0] - 1, places[-1] + form.row_words
        more = with_word(table, count_at, table[count_at] + 1)
        yield more[:end] + table[places[0]:places[0] + form.row_words] + table[end:]


def heavy_rows(table, form):
    """Weights at the greatest one, in all rows, in one, in all but one: a step would pass it (11)."""
    places, most = row_places(table, form), form.weight_words(form.max_weight)
    heavy = table
    for at in places:
        heavy = with_weight(heavy, at, most)
    yield heavy
    for at in places:
        yield with_weight(table, at, most)
        yield with_weight(heavy, at, table[at + SIGN_WORDS:at + form.row_words])


def other_weights(table, form):
    """In every row weights around the limit of the low word and that of a forbidden entry; words that are no weight: 0, in the
    other order, of one kind."""
    for at in row_places(table, form):
        for weight in (FIVE_MAX_WEIGHT, FIVE_MAX_WEIGHT + 1, FORBIDDEN_WEIGHT - 1, FORBIDDEN_WEIGHT):
            yield with_weight(table, at, form.weight_words(weight))
        taken = table[at + SIGN_WORDS:at + form.row_words]
        for wrong in (form.weight_words(0), taken[::-1], taken[:1] * len(taken), taken[-1:] * len(taken),
                      [words.high_weight(1)] * len(taken)):
            yield with_weight(table, at, wrong)


def other_widths(table, form):
    """Rows with their last word left out and with a high word more, in a slice as long where they fit and in one that ends with
    them: valid at most in the other form, unless there is no row."""
    start, places = rows_start(words.payload_of(table[0])), row_places(table, form)
    rows = [table[at:at + form.row_words] for at in places]
    for changed in ([row[:-1] for row in rows], [row + [words.high_weight(0)] for row in rows]):
        front = table[:start] + [word for row in changed for word in row]
        yield front
        yield front + [0] * (len(table) - len(front))


def other_lengths(table, _):
    """Every shorter slice; longer ones with zeros, which stay valid, and with something else."""
    for length in range(len(table)):
        yield table[:length]
    for more in range(1, 12):
        yield table + [0] * more
        yield table + [0] * (more - 1) + [1]
        yield table + table[-more:]


def other_counts(table, form):
    """Row counts beside the right one, with and without the words that they leave behind or take in."""
    at = rows_start(words.payload_of(table[0])) - 1
    for count in (0, 1, words.payload_of(table[at]) - 1, words.payload_of(table[at]) + 1, 4_096, 4_097):
        if count >= 0:
            counted = with_word(table, at, words.row_count(count))
            yield counted
            yield counted[:at + 1 + form.row_words * count]


def changed(chance, table, form):
    """The damage that every table gets."""
    yield table
    for damage in (swapped_rows, doubled_rows, heavy_rows, other_weights, other_widths, other_lengths, other_counts):
        yield from damage(table, form)
    yield from random_bits(chance, table)
    yield from random_words(chance, table)


def widened(both, table):
    """The first conversion, in a target with room for every row."""
    both.to_six(table, [9] * (len(table) + len(table) // 5))


def on_five_words(both, table):
    """Both conversions, and the step call for all others, which refuse such rows alike."""
    widened(both, table)
    both.to_five(table, [9] * len(table))
    both.step(table)


def compare(both):
    chance = random.Random(6)
    for index, field in enumerate(SMALL_FIELDS + [GROWING, chain(chance, [3, 2])]):
        tables = on_the_way(field, index % ROW_WORDS)
        for spoiled in (spoiled for table in tables for spoiled in all_bits(table)):
            both.on_table(spoiled)
        for spoiled in (spoiled for table in in_five_words(tables) for spoiled in all_bits(table)):
            widened(both, spoiled)
    larger = [chain(chance, [3, 2, 3]), long_chain(), scattered(chance, [3] * 4, 12), scattered(chance, [8, 5, 2], 14)]
    for index, field in enumerate(SMALL_FIELDS[:4] + EMPTY_FIELDS + [GROWING, NONE_LEFT] + larger):
        tables = on_the_way(field, index % ROW_WORDS)
        for spoiled in (spoiled for table in tables for spoiled in changed(chance, table, SIX)):
            both.on_table(spoiled)
        for spoiled in (spoiled for table in in_five_words(tables) for spoiled in changed(chance, table, FIVE)):
            on_five_words(both, spoiled)
