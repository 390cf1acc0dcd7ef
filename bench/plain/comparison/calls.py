"""Each call as the line of numbers that the plain program reads, with the answer of the reference."""

from typing import NamedTuple

import reference
from reference.answers import BAD_CLAIM, BAD_TABLE, GOOD, TABLE_FULL, Refused
from reference.certificates import request
from reference.inputs import cost_of, in_range, read_instance
from reference.planning import words_of
from reference.tables import read_table

ALL_NUMBERS = list(range(17))
OUTCOMES = {"done": 0, "paused": 1, "refused": 2}


class Call(NamedTuple):
    name: str
    line: str
    expected: list


def sliced(elements):
    return [len(elements)] + list(elements)


def call(name, taken, expected):
    """The numbers taken and expected are lists; a slice stands in them behind its length."""
    return Call(name, " ".join(map(str, [name] + taken)), expected)


def make(sheet, target):
    made = reference.make_instance(sheet, target)
    return call("make", sliced(sheet) + sliced(target), [made.number, made.written] + sliced(made.target))


def encode(instance, table):
    encoded = reference.encode(instance, table)
    rows = len(read_table(encoded.table).rows) if encoded.number == GOOD else 0
    return call("encode", sliced(instance) + sliced(table), [encoded.number, rows] + sliced(encoded.table))


def step(table):
    stepped = reference.step_call(table)
    done = int(stepped.outcome == "done")
    return call("step", sliced(table), [stepped.number, done, stepped.word] + sliced(stepped.table))


def run(table, limit, derivation):
    ran = reference.run_call(table, limit, derivation)
    outcome = 0 if ran.number == BAD_TABLE else OUTCOMES[ran.outcome]
    fields = [ran.number, outcome, ran.steps, ran.bound]
    return call("run", sliced(table) + [limit] + sliced(derivation),
                fields + sliced(ran.table) + sliced(ran.derivation))


def plan(table, target):
    planned = reference.plan_call(table, target)
    return call("plan", sliced(table) + sliced(target), [planned.number, 0] + sliced(planned.target))


def complete(table, k, fixed, target):
    completed = reference.complete_call(table, k, fixed, target)
    return call("complete", sliced(table) + [k] + sliced(fixed) + sliced(target),
                [completed.number, completed.cost] + sliced(completed.target))


def to_six(source, target):
    return conversion("to_six", source, target, reference.to_six(source, target))


def to_five(source, target):
    return conversion("to_five", source, target, reference.to_five(source, target))


def conversion(name, source, target, converted):
    return call(name, sliced(source) + sliced(target), [converted.number, converted.rows] + sliced(converted.target))


def check(instance, derivation, assignment, claimed, table):
    checked = reference.check_call(instance, derivation, assignment, claimed, table)
    taken = sliced(instance) + sliced(derivation) + sliced(assignment) + [claimed] + sliced(table)
    return call("check", taken, [checked.number, checked.steps] + sliced(checked.table))


def readout(sheet, assignment, variable, easting, northing):
    answer = reference.readout_call(sheet, assignment, variable, easting, northing)
    taken = sliced(sheet) + sliced(assignment) + [variable, easting, northing]
    return call("readout", taken, [answer.number, answer.metres])


def cost(instance, assignment):
    return call("cost", sliced(instance) + sliced(assignment), cost_answer(instance, assignment))


def cost_answer(instance, assignment):
    """The cost of an assignment: 1 to 5, then 7."""
    try:
        read = read_instance(instance)
    except Refused as refusal:
        return [refusal.number, 0]
    if not in_range(read.sizes, assignment):
        return [BAD_CLAIM, 0]
    return [GOOD, cost_of(read.entries, assignment)]


def certify(sheet):
    """The sheet is bytes; the reference has a text with the certificate."""
    text, certificate = reference.certified(sheet)
    return call("certify", sliced(sheet), certified_fields(*text.decode().split()) + sliced(words_of(certificate)))


def certified_fields(first, *others):
    """Number, outcome, steps and bound, by the words of the text."""
    if first == "REFUSED":
        return [int(others[0]), 0, 0, 0]
    if first == "PLAN":
        return [GOOD, OUTCOMES["done"], int(others[3]), int(others[1])]
    number, outcome = {"PAUSED": (GOOD, "paused"), "FULL": (TABLE_FULL, "refused")}[first]
    return [number, OUTCOMES[outcome], int(others[0]), int(others[2])]


def verify(sheet, certificate):
    """Both are bytes; the reference answers with a text."""
    text = reference.verified(request(sheet, certificate))
    return call("verify", sliced(sheet) + sliced(certificate), verified_fields(*text.decode().split()))


def verified_fields(first, *others):
    """Number, cost, steps and assignment, by the words of the text."""
    if first == "REFUSED":
        return [int(others[0]), 0, 0] + sliced([])
    return [GOOD, int(others[1]), int(others[3])] + sliced([int(value) for value in others[5::3]])
