"""Answers in slices of every length: the fields are written as far as the slice goes, and what lies behind is kept."""

import driver
from chosen import GROWING, NONE_LEFT
from lists import SMALL_FIELDS
from reference import fields, words
from reference.forms import FIVE
from reference.limits import MAX_WEIGHT
from small_fields import through_all_calls

SHEET = fields.sheet([[(0, 0)], [(300, 400), (600, 800)]], [([(1, 0)], 9)])
FIVE_WORDS, SIX_WORDS = fields.table([3], "6:2 1:5", 13, FIVE), fields.table([3], "6:2 1:5", 15)
LONGEST = 5


def good_calls(both):
    for sizes, entries in SMALL_FIELDS + [GROWING, NONE_LEFT]:
        through_all_calls(both, sizes, entries, 0)
    both.make(SHEET, [9] * 20)
    both.make([], [])
    both.cost(fields.instance(*GROWING), [0, 0, 0])
    both.cost([], [])
    both.readout(SHEET, [0, 1], 1, words.easting(0), words.northing(0))
    both.drive(fields.instance(*GROWING), [9] * 60, [driver.step_word()] * 3, [9] * 3, [9] * 3)
    both.drive([], [9] * 2, [driver.step_word()], [], [])
    both.to_six(FIVE_WORDS, [9] * 15)
    both.to_five(SIX_WORDS, [9] * 13)


def refused_calls(both):
    """Every call refused, some with fields that are not 0."""
    instance = fields.instance(*GROWING)
    tight = both.encode(instance, [9] * fields.table_length(3, 4)).table
    both.run(tight, 9, [9] * 9)
    both.check(instance, [words.step(0, 0, 1), 0], [0, 0, 0], 1, [9] * 60)
    both.encode(instance, [9] * 6)
    both.check(instance, [], [0], 1, [9] * 6)
    both.drive(instance, [9] * 6, [driver.step_word()], [9] * 3, [9] * 3)
    both.complete(tight, 1, [0, 0], [9] * 3)
    both.complete(tight, 4, [], [9] * 3)
    both.complete(tight, 1, [0, 0], [9] * 2)
    both.complete(tight[:-1], 1, [0, 0], [9] * 3)
    both.complete(fields.table([2], f"2:{MAX_WEIGHT} empty:1", 20), 0, [0], [9])
    both.step(tight[:-1])
    both.run(tight[:-1], 9, [9] * 9)
    for length in (2, 12, 15):
        both.to_six(SIX_WORDS, [9] * length)
        both.to_five(FIVE_WORDS, [9] * length)
        both.to_six(FIVE_WORDS, [9] * (length - 1))
        both.to_five(SIX_WORDS, [9] * length)
        both.to_five(fields.table([3], f"6:{MAX_WEIGHT}", 15), [9] * length)
    both.make(SHEET, [9] * 3)
    both.cost(instance, [])
    both.readout(SHEET, [0, 1], 2, words.easting(0), words.northing(0))
    both.readout([], [], 0, words.easting(0), words.northing(0))


def compare(both):
    for length in range(LONGEST + 1):
        both.answer_length = length
        good_calls(both)
        refused_calls(both)
