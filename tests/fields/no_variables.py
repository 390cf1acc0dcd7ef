"""Fields without variables: no words at all, and a head of 0 with constant costs, through every call, with the answers that are due;
slices of up to nine words as their tables; and lists of calls through the driver."""

from itertools import product

import driver
import empty_fields
import empty_tables
from different import require
from reference import words
from reference.forms import SIX

# The words of the fields with no cost and with one, and that cost.
SOURCES = [(source, sum(costs)) for source, costs in empty_fields.sources() if len(costs) < 2]
CALL_WORDS = [driver.step_word(), driver.run_word(0, 0), driver.run_word(5, 5), driver.plan_word(0), driver.plan_word(2),
              words.word(15, 0)]


def every_call(both):
    for name, arguments, due in empty_fields.every_call():
        getattr(both, name)(*arguments)
        answered = both.answered[:len(due)]
        require(answered == due, f"{name} {arguments} answers {answered}, due {due}")


def call_lists(both):
    """Every list of up to two calls: none makes a step or writes a byte."""
    lists = [list(calls) for count in range(3) for calls in product(CALL_WORDS, repeat=count)]
    for (source, total), calls, length, room in product(SOURCES, lists, (1, 2, 7, 8), (0, 2)):
        driven = both.drive(source, [9] * length, calls, [8] * room, [200] * room)
        got, number = (driven.number, driven.steps, driven.out, driven.target), empty_tables.room_number(length, SIX, total)
        require(got == (number, 0, [8] * room, [200] * room), f"{got} for the calls {calls} on {source}, due {number}")


def compare(both):
    every_call(both)
    call_lists(both)
