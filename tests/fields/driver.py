"""The driver by the reference's calls: an instance is encoded, then the calls are made that a list of words asks for.

A call word has its kind in the top four bits: 0 a step; 1 a run, its limit in bits 14-27 and the length of its slice in
bits 0-13; 2 a plan, the length of its target in bits 0-27. Words of other kinds are passed over. The step words of all
calls fill one slice from the front; a step is passed over where it has no place left.
"""

from typing import NamedTuple

import reference
from reference import words
from reference.answers import GOOD
from reference.steps import STEPPED

STEP, RUN, PLAN = 0, 1, 2
SLICE_BITS = 14
SLICE_MASK = (1 << SLICE_BITS) - 1


class Driven(NamedTuple):
    number: int         # of the encoding
    steps: int
    table: list
    out: list           # the step words of all calls, then the former content
    target: list


def step_word():
    return words.word(STEP, 0)


def run_word(limit, slice_length):
    return words.word(RUN, limit << SLICE_BITS | slice_length)


def plan_word(target_length):
    return words.word(PLAN, target_length)


class Driving:
    """The lent slices while the calls are made."""

    def __init__(self, table, out, target):
        self.table = table
        self.out = list(out)
        self.target = list(target)
        self.steps = 0

    def make(self, asked):
        kind, payload = words.kind_of(asked), words.payload_of(asked)
        if kind == STEP:
            self.step()
        elif kind == RUN:
            self.run(payload >> SLICE_BITS, payload & SLICE_MASK)
        elif kind == PLAN:
            self.plan(payload)

    def step(self):
        if self.steps == len(self.out):
            return
        answer = reference.step_call(self.table)
        if answer.outcome == STEPPED:
            self.out[self.steps] = answer.word
            self.steps += 1
        self.table = answer.table

    def run(self, limit, slice_length):
        end = min(self.steps + slice_length, len(self.out))
        answer = reference.run_call(self.table, limit, self.out[self.steps:end])
        self.out[self.steps:end] = answer.derivation
        self.steps += answer.steps
        self.table = answer.table

    def plan(self, target_length):
        end = min(target_length, len(self.target))
        self.target[:end] = reference.plan_call(self.table, self.target[:end]).target


def drive(instance, table, calls, out, target):
    encoding = reference.encode(instance, table)
    if encoding.number != GOOD:
        return Driven(encoding.number, 0, list(table), list(out), list(target))
    driving = Driving(encoding.table, out, target)
    for asked in calls:
        driving.make(asked)
    return Driven(GOOD, driving.steps, driving.table, driving.out, driving.target)
