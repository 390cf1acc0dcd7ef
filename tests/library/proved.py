"""The proved library, called through its C functions; every answer has the final content of each lent slice."""

import ctypes
from pathlib import Path
from typing import NamedTuple

from different import require

ROOT = Path(__file__).resolve().parents[2]
SHARED = ROOT / "target" / "library" / "libgotalhim.so"
WORD, BYTE, FIELD, SIZE = ctypes.c_uint32, ctypes.c_uint8, ctypes.c_uint64, ctypes.c_size_t

_library = ctypes.CDLL(str(SHARED))


class Made(NamedTuple):
    number: int
    written: int
    target: list


class Priced(NamedTuple):
    number: int
    cost: int


class Slice:
    """A lent slice: it passes as a pointer and a length, and has guards behind it that no call may change."""

    GUARDS = [91, 92, 93]

    def __init__(self, element, content):
        self.memory = (element * (len(content) + len(self.GUARDS)))(*content, *self.GUARDS)
        self.length = len(content)

    def passed(self):
        return [ctypes.byref(self.memory), SIZE(self.length)]

    def content(self):
        require(list(self.memory[self.length:]) == self.GUARDS, "a call wrote past a lent slice")
        return list(self.memory[:self.length])


def call(name, arguments):
    """The number that a call returns; slices among the arguments are changed in place."""
    function = getattr(_library, name)
    function.restype = WORD
    passed = []
    for argument in arguments:
        passed += argument.passed() if isinstance(argument, Slice) else [argument]
    return function(*passed)


def make_instance(sheet, target):
    lent, answer = Slice(WORD, target), Slice(FIELD, [77])
    number = call("gotalhim_make", [Slice(WORD, sheet), lent, answer])
    return Made(number, answer.content()[0], lent.content())


def cost(instance, plan):
    number, fields = answered_cost(instance, plan, 1)
    return Priced(number, *fields)


def answered_cost(instance, plan, length):
    """The cost call with an answer slice of some length; what it holds afterwards."""
    answer = Slice(FIELD, [77] * length)
    number = call("gotalhim_cost", [Slice(WORD, instance), Slice(BYTE, plan), answer])
    return number, answer.content()


class Encoded(NamedTuple):
    number: int
    answer: list        # the rows
    table: list


class Stepped(NamedTuple):
    number: int
    answer: list        # 1 if no pair is left, else 0; the step word
    table: list


class Ran(NamedTuple):
    number: int
    answer: list        # 0 done, 1 paused, 2 stopped by 11 or 12; the steps; the bound; all 0 for 9
    table: list
    derivation: list


class Planned(NamedTuple):
    number: int
    target: list


class Completed(NamedTuple):
    number: int
    answer: list        # the cost
    target: list


class Converted(NamedTuple):
    number: int
    answer: list        # the rows
    target: list


class Readout(NamedTuple):
    number: int
    answer: list        # the metres


def encode(instance, table, answer):
    lent, fields = Slice(WORD, table), Slice(FIELD, answer)
    number = call("gotalhim_encode", [Slice(WORD, instance), lent, fields])
    return Encoded(number, fields.content(), lent.content())


def step_call(table, answer):
    lent, fields = Slice(WORD, table), Slice(FIELD, answer)
    number = call("gotalhim_step", [lent, fields])
    return Stepped(number, fields.content(), lent.content())


def run_call(table, limit, derivation, answer):
    lent, words, fields = Slice(WORD, table), Slice(WORD, derivation), Slice(FIELD, answer)
    number = call("gotalhim_run", [lent, SIZE(limit), words, fields])
    return Ran(number, fields.content(), lent.content(), words.content())


def plan_call(table, target):
    source, lent = Slice(WORD, table), Slice(BYTE, target)
    number = call("gotalhim_plan", [source, lent])
    require(source.content() == list(table), "a plan call wrote to the table")
    return Planned(number, lent.content())


def complete_call(table, k, fixed, target, answer):
    source, values, lent, cost = Slice(WORD, table), Slice(BYTE, fixed), Slice(BYTE, target), Slice(FIELD, answer)
    number = call("gotalhim_complete", [source, SIZE(k), values, lent, cost])
    require(source.content() == list(table), "a completion wrote to the table")
    require(values.content() == list(fixed), "a completion wrote to the fixed values")
    return Completed(number, cost.content(), lent.content())


def to_six(source, target, answer):
    return converted("gotalhim_to_six", source, target, answer)


def to_five(source, target, answer):
    return converted("gotalhim_to_five", source, target, answer)


def converted(name, table, target, answer):
    source, lent, fields = Slice(WORD, table), Slice(WORD, target), Slice(FIELD, answer)
    number = call(name, [source, lent, fields])
    require(source.content() == list(table), "a conversion wrote to its source")
    return Converted(number, fields.content(), lent.content())


def readout_call(sheet, plan, variable, easting, northing, answer):
    fields = Slice(FIELD, answer)
    number = call("gotalhim_readout", [Slice(WORD, sheet), Slice(BYTE, plan), WORD(variable), WORD(easting),
                                       WORD(northing), fields])
    return Readout(number, fields.content())
