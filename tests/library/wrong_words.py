"""The comparisons themselves: one wrong bit in what the library answers, or past a lent slice, must end each of them, and so must
a metre more or less of a root."""

from unittest import mock

import inputs
import lists
import proved
import readouts
import roots
from different import Different, require
from reference import fields, words
from reference.forms import FIVE

SHEET = fields.sheet([[(0, 0)], [(300, 400), (600, 800)]], [([(1, 0)], 9)])
SIZES, ENTRIES = [2], [([(0, 0)], 3), ([(0, 1)], 1)]
INSTANCE = fields.instance(SIZES, ENTRIES)
TABLE = fields.table(SIZES, "2:3 1:1", fields.table_length(1, 3))
SETTLED = fields.table(SIZES, "2:2 0:1", fields.table_length(1, 3))
FIVE_WORDS = fields.table(SIZES, "2:3 1:1", fields.table_length(1, 3, form=FIVE), FIVE)

# For each call a good comparison, and which of its arguments are slices that it compares.
COMPARISONS = {
    "make": (lambda: inputs.same_instance(SHEET, [3] * 40), [1, 2]),
    "cost": (lambda: inputs.same_cost(INSTANCE, [0]), [2]),
    "readout": (lambda: readouts.same_answer(SHEET, [0, 1], 1, words.easting(0), words.northing(0), [77]), [5]),
    "encode": (lambda: lists.encode(INSTANCE, [4] * 18, [77]), [1, 2]),
    "step": (lambda: lists.step(TABLE, [77, 77]), [0, 1]),
    "run": (lambda: lists.run_steps(TABLE, 5, [9] * 4, [77] * 3), [0, 2, 3]),
    "plan": (lambda: lists.plan(SETTLED, [9]), [0, 1]),
    "complete": (lambda: lists.complete(SETTLED, 0, [0], [9], [77]), [0, 2, 3, 4]),
    "to_six": (lambda: lists.to_six(FIVE_WORDS, [4] * len(TABLE), [77]), [0, 1, 2]),
    "to_five": (lambda: lists.to_five(TABLE, [4] * len(FIVE_WORDS), [77]), [0, 1, 2]),
}


def ended(comparison):
    try:
        comparison()
    except Different:
        return True
    return False


def noticed(comparison, spoil):
    """Whether a comparison ends where each call's number and arguments are spoiled after it was made."""
    made = proved.call
    with mock.patch.object(proved, "call", lambda name, arguments: spoil(made(name, arguments), arguments)):
        return ended(comparison)


def root_noticed(wrong):
    """Whether the comparison of roots ends where each is off by this."""
    made = roots.root
    with mock.patch.object(roots, "root", lambda square: made(square) + wrong):
        return ended(lambda: roots.same_metres(2_500))


def wrong_bit(place, past):
    """Turns a bit of a slice's last element, or of the one past it."""
    def spoil(number, arguments):
        lent = arguments[place]
        lent.memory[lent.length - 1 + past] ^= 1
        return number
    return spoil


def run():
    spoiled = [(name, comparison, "number", lambda number, arguments: number ^ 1)
               for name, (comparison, _) in COMPARISONS.items()]
    spoiled += [(name, comparison, f"slice {place} at {past}", wrong_bit(place, past))
                for name, (comparison, places) in COMPARISONS.items() for place in places for past in (0, 1)]
    for name, comparison, _, _ in spoiled:
        require(not noticed(comparison, lambda number, arguments: number), f"{name} differs with nothing spoiled")
    for name, comparison, what, spoil in spoiled:
        require(noticed(comparison, spoil), f"{name} does not notice a wrong {what}")
    require(not root_noticed(0), "roots differ with nothing spoiled")
    require(root_noticed(1) and root_noticed(-1), "roots do not notice a metre more or less")
    return len(spoiled) + 2
