"""Records of whole runs by the reference: what the planner hands to a laboratory, and how long a table it takes."""

from typing import NamedTuple

import reference
from reference import fields
from reference.steps import STEPPED

# Room for every step and row of the fields that are recorded.
STEPS = 400
ROWS = 400


class Record(NamedTuple):
    instance: list
    derivation: list
    plan: list
    cost: int
    length: int         # of the work table


def stepped(table):
    """The step words from a table to the end, and the tables on the way, the first and the last included."""
    derivation, tables = [], [table]
    answer = reference.step_call(table)
    while answer.outcome == STEPPED:
        derivation.append(answer.word)
        tables.append(answer.table)
        answer = reference.step_call(answer.table)
    return derivation, tables


def recorded(field, spare=0):
    """The record of a run to the end, in the shortest table that has room for it, with so many words more."""
    instance, variables = fields.instance(*field), len(field[0])
    start = reference.encode(instance, [0] * fields.table_length(variables, ROWS)).table
    ran = reference.run_call(start, STEPS, [0] * STEPS)
    derivation = ran.derivation[:ran.steps]
    # As the plan, also where all are forbidden.
    plan = reference.complete_call(ran.table, variables, [], [0] * variables).target
    length = fields.table_length(variables, reference.most_rows(instance, derivation), spare)
    return Record(instance, derivation, plan, ran.bound, length)
