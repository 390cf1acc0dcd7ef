"""Every fault of a table in words, with its word and its reason; and damaged tables of either form against the reference."""

import random

from checks import TABLE, called
from reference import fields, words
from reference.answers import Refused
from reference.forms import FIVE, SIX
from reference.tables import read_table, table_words
from table_shapes import NAMES, random_rows, text_of

DAMAGED = 2_000
SIGNS = [words.signs(index, [0, 0, 0]) for index in range(4)]
FRONT = [words.head(2), words.size(3), words.size(2)]
WEIGHTS = {FIVE: [words.weight(5)], SIX: [words.weight(5), words.high_weight(0)]}


def front_cases():
    yield [], 0, "the table ends where the number of stations is due"
    yield [words.size(2)], 0, "a word of kind 2 where the number of stations is due, a word of kind 1"
    yield [0, 0], 0, "a word of kind 0 where the number of stations is due, a word of kind 1"
    yield [words.head(13)], 0, "13 stations; a field has at most 12"
    yield FRONT[:2], 2, "the table ends where the number of spots of station 1 is due"
    yield FRONT[:2] + [words.size(9)], 2, "station 1 with 9 spots; a station has 1 to 8"
    yield FRONT, 3, "the table ends where the number of rows is due"
    yield FRONT + [words.weight(1)], 3, "a word of kind 6 where the number of rows is due, a word of kind 10"
    yield FRONT + [words.row_count(0), 0, 1], 5, "a word other than 0 behind the last row"
    counted = "a row count of {}; {} words have room for {} words"
    yield FRONT + [words.row_count(1)], 3, counted.format(1, 4, "0 rows of five")
    yield FRONT + [words.row_count(4_097)] + [0] * 30_000, 3, counted.format("4,097", "30,004", "4,096 rows of five")
    yield FRONT + [words.row_count(2), *SIGNS, *WEIGHTS[SIX], 0, 0], 3, counted.format(2, 12, "1 row of six")


def no_station_cases(form):
    """A head of 0: no sign stands in a row, and so there is one row at most."""
    head, row, width = [words.head(0)], [*SIGNS, *WEIGHTS[form]], form.row_words
    yield head, 1, "the table ends where the number of rows is due"
    yield head + [words.size(1), words.row_count(0)], 1, "a word of kind 2 where the number of rows is due, a word of kind 10"
    yield head + [words.row_count(0), 0, 1], 3, "a word other than 0 behind the last row"
    yield head + [words.row_count(1), *row, 1], 2 + width, "a word other than 0 behind the last row"
    yield head + [words.row_count(2), *row], 1, f"a row count of 2; {2 + width} words have room for 1 row of {NAMES[form]} words"
    yield head + [words.row_count(2), *row, *row], 5 + width, "row 1 has the signs of row 0"
    yield head + [words.row_count(1), *SIGNS, *form.weight_words(0)], 1 + width, "row 0 has a weight of 0"
    for index, place in ((0, 0), (0, 2), (3, 2)):
        signs = [words.signs(index, [place == at for at in range(3)]) if word == SIGNS[index] else word for word in row]
        yield head + [words.row_count(1), *signs], 2 + index, (
            f"row 0: there is no station {3 * index + place}; the field has none")


def sign_cases(form):
    """Faults of the second row's signs; the first row tells the form."""
    named = f"of row 1 ({NAMES[form]} words to a row)"

    def with_signs(*signs):
        return FRONT + [words.row_count(2), words.signs(0, [1, 0, 0]), *SIGNS[1:], *WEIGHTS[form], *signs, *WEIGHTS[form]]
    start = 4 + form.row_words
    yield with_signs(words.cost(1), *SIGNS[1:]), start, (
        f"a word of kind 4 where sign word 0 {named} is due, a word of kind 5")
    yield with_signs(SIGNS[0], SIGNS[2], *SIGNS[2:]), start + 1, (
        f"sign word 2 where sign word 1 {named} is due")
    yield with_signs(words.signs(0, [8, 0, 0]), *SIGNS[1:]), start, "row 1: station 0 has no spot 3; its last one is 2"
    yield with_signs(words.signs(0, [2, 3, 0]), *SIGNS[1:]), start, (
        "row 1: a sign with every spot of station 1; no plan would cost what the row weighs")
    yield with_signs(words.signs(0, [2, 0, 1]), *SIGNS[1:]), start, "row 1: there is no station 2; the last one is 1"
    yield with_signs(*SIGNS[:3], words.signs(3, [0, 0, 128])), start + 3, "row 1: there is no station 11; the last one is 1"
    yield with_signs(words.signs(0, [1, 0, 0]), *SIGNS[1:]), start + 3, "row 1 has the signs of row 0"


def weight_cases(form):
    """Faults of the second row's weight, and of what is behind it."""
    named = f"weight word 0 of row 1 ({NAMES[form]} words to a row)"
    rows = FRONT + [words.row_count(2), words.signs(0, [1, 0, 0]), *SIGNS[1:], *WEIGHTS[form], *SIGNS]
    yield rows + [words.cost(5)] * len(WEIGHTS[form]), len(rows), f"a word of kind 4 where {named} is due, a word of kind 6"
    yield rows + form.weight_words(0), len(rows) + len(WEIGHTS[form]) - 1, "row 1 has a weight of 0"
    yield rows + WEIGHTS[form] + [0, words.high_weight(0)], len(rows) + len(WEIGHTS[form]) + 1, (
        "a word other than 0 behind the last row")


def mixed_cases():
    """Rows of the other form behind the first, and a first row whose weight breaks off."""
    six, five = [*SIGNS, *WEIGHTS[SIX]], [*SIGNS, *WEIGHTS[FIVE]]
    other = words.signs(0, [1, 0, 0])
    yield FRONT + [words.row_count(2), *six, other, *five[1:], 0], 15, (
        "a word of kind 0 where weight word 1 of row 1 (six words to a row) is due, a word of kind 12")
    yield FRONT + [words.row_count(2), *five, other, *six[1:]], 14, "a word other than 0 behind the last row"
    yield FRONT + [words.row_count(1), *five, words.weight(0)], 9, "a word other than 0 behind the last row"
    yield FRONT + [words.row_count(2), *five, words.weight(0), *six], 9, (
        "a word of kind 6 where sign word 0 of row 1 (five words to a row) is due, a word of kind 5")


def check_lengths(checks):
    """Faults of the length come before all others."""
    for rest in (1, 2, 3):
        checks.refuses("show", bytes(8 + rest), f"word 2: only {rest} of its 4 bytes", TABLE)
    most = fields.as_bytes(FRONT + [words.row_count(0)]) + bytes(4 * 999_996)
    checks.same("the most words", called(["show", "-"], most, TABLE)[::2], (0, ""))
    for more in (bytes(1), bytes(4)):
        checks.refuses("show", most + more, "word 1000000: a table here has 1,000,000 words at most", TABLE)


def valid_forms(source):
    """Each form in which the reference takes the table, with what it read."""
    found = {}
    for form in (FIVE, SIX):
        try:
            found[form] = read_table(source, form)
        except Refused:
            pass
    return found


def damaged(rng):
    """A table with a bit turned, a word left out, doubled or of another kind, cut off, or with rows of the other width."""
    form = rng.choice([FIVE, SIX])
    sizes, rows = random_rows(rng, form)
    source = table_words(sizes, rows, fields.table_length(len(sizes), len(rows), rng.choice([0, 0, 2, 6]), form), form)
    at = rng.randrange(len(source))
    before, taken, after = source[:at], source[at], source[at + 1:]
    return rng.choice([before + [taken ^ 1 << rng.randrange(32)] + after, before + after, before + [taken, taken] + after,
                       before + [words.word(rng.randrange(16), words.payload_of(taken))] + after, before + [0] + after, before,
                       source[:-1], source + [0], source + [words.high_weight(0)]])


def check_damaged(checks):
    """What the reference takes in a form is shown in that form, what it takes in none is refused with 9."""
    rng, taken = random.Random("damaged tables"), 0
    for _ in range(DAMAGED):
        source = damaged(rng)
        status, text, said = called(["show", "-"], fields.as_bytes(source), TABLE)
        forms = valid_forms(source)
        checks.same(f"whether {source} is shown", (status, said.endswith("(refusal 9)\n")), (0, False) if forms else (1, True))
        for form, (sizes, rows) in forms.items():
            if rows:
                checks.same(f"the text of {source}", text, text_of(sizes, rows, len(source), form))
                taken += 1
    checks.same("damaged tables that are valid all the same", taken > DAMAGED // 20, True)


def run(checks):
    of_both = (cases(form) for cases in (no_station_cases, sign_cases, weight_cases) for form in (FIVE, SIX))
    for cases in (front_cases(), *of_both, mixed_cases()):
        for source, at, reason in cases:
            checks.refuses("show", fields.as_bytes(source), f"word {at}: {reason} (refusal 9)", TABLE)
            checks.same(f"the forms of {source[:30]}", valid_forms(source), {})
    check_lengths(checks)
    check_damaged(checks)
