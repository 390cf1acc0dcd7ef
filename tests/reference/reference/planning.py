"""A sheet planned in the program's buffers: from its bytes to what planning it came to."""

from typing import NamedTuple

from .answers import BAD_HEAD, GOOD, TABLE_FULL, TARGET_TOO_SHORT, Refused, require
from .inputs import make_instance
from .limits import MAX_VARIABLES
from .plans import plan_call
from .steps import DONE, PAUSED, REFUSED, run_call
from .tables import encode

WORD_BYTES = 4
PLANNED = "planned"
FULL = "full"


class Buffers(NamedTuple):
    """Lengths in words of the program's buffers, and the step limit of its run."""
    sheet: int = 16_000
    instance: int = 16_000
    steps: int = 16_000
    table: int = 15_998
    limit: int = 16_000


class Solved(NamedTuple):
    """What planning a sheet came to."""
    ending: str         # PLANNED, REFUSED, PAUSED or FULL
    number: int         # of the refusal, else 0
    steps: int
    bound: int          # the plan's cost, where there is a plan
    assignment: list    # the plan with zeros behind it, where there is one
    derivation: list    # the words of the steps, where there is a plan


def solved(source, buffers=Buffers()):
    """What planning the sheet in these bytes came to."""
    try:
        encoding = encode(instance_from(source, buffers), [0] * buffers.table)
        require(encoding.number == GOOD, encoding.number)
    except Refused as refusal:
        return refused(refusal.number)
    return ended(run_call(encoding.table, buffers.limit, [0] * buffers.steps))


def instance_from(source, buffers):
    """The words of the instance made from a sheet's bytes, or its refusal. The length is judged before a word is read."""
    require(len(source) <= WORD_BYTES * buffers.sheet, TARGET_TOO_SHORT)
    require(len(source) % WORD_BYTES == 0, BAD_HEAD)
    made = make_instance(words_of(source), [0] * buffers.instance)
    require(made.number == GOOD, made.number)
    return made.target[:made.written]


def words_of(source):
    return [int.from_bytes(source[at:at + WORD_BYTES], "little") for at in range(0, len(source), WORD_BYTES)]


def refused(number):
    return Solved(REFUSED, number, 0, 0, [], [])


def ended(ran):
    """What a run came to: one that is stopped by 12 is no refusal of the sheet."""
    if ran.outcome == DONE:
        return planned(ran, plan_call(ran.table, [0] * MAX_VARIABLES))
    if ran.outcome == PAUSED:
        return Solved(PAUSED, GOOD, ran.steps, ran.bound, [], [])
    if ran.number == TABLE_FULL:
        return Solved(FULL, GOOD, ran.steps, ran.bound, [], [])
    return refused(ran.number)


def planned(ran, plan):
    """What a run to the end and the plan call behind it came to."""
    if plan.number != GOOD:
        return refused(plan.number)
    return Solved(PLANNED, GOOD, ran.steps, ran.bound, plan.target, ran.derivation[:ran.steps])
