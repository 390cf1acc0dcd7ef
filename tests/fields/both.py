"""Every call made twice, by the proved library and by the reference; the first difference ends the comparison.

An answer is the number, the answer's fields and the final content of every slice, those included that the call may only
read.
"""

from typing import NamedTuple

import driver
import reference
from different import Different
from inputs import named_variables
from proved import BYTE, FIELD, SIZE, WORD, Slice, call
from reference import inputs, words
from reference.answers import BAD_TABLE, FORBIDDEN, GOOD
from reference.steps import DONE, PAUSED, REFUSED

OUTCOMES = {DONE: 0, PAUSED: 1, REFUSED: 2}
# What the fields of an answer hold before the call.
UNANSWERED = 77
# How many steps a run makes on a table that need not come from a field.
RUN_LIMIT = 5
# How many elements of a slice are shown where a call differs.
SHOWN = 60
SIZE_MAX = SIZE(-1).value


class Answer(NamedTuple):
    number: int
    fields: list
    slices: list        # the content of each, in the order of the arguments


def passed(kind, value):
    """An argument: a list is lent as a slice, a number goes by value."""
    return Slice(kind, value) if isinstance(value, list) else kind(value)


def shown(value):
    """An argument, shortly."""
    if not isinstance(value, list):
        return f"{value:x}"
    text = " ".join(f"{element:x}" for element in value[:SHOWN])
    return f"[{len(value)}] {text}{' ..' if len(value) > SHOWN else ''}"


def first_difference(got, expected):
    """Where two contents of a slice differ first."""
    at = next(at for at, (one, other) in enumerate(zip(got, expected)) if one != other)
    return f"at {at} library {got[at]:x}, reference {expected[at]:x}"


def told(name, arguments, fault):
    """The text of a difference: the call, what it was given, and the lines of the fault."""
    given = [f"given {at}: {shown(value)}" for at, (_, value) in enumerate(arguments)]
    return "\n  ".join([f"{name} differs"] + given + fault)


def fault_of(got, expected):
    """Both answers, and each slice that differs."""
    return ([f"library:   number {got.number}, answer {got.fields}",
             f"reference: number {expected.number}, answer {expected.fields}"]
            + [f"slice {at}: {first_difference(one, other)}"
               for at, (one, other) in enumerate(zip(got.slices, expected.slices)) if one != other])


def row_total(table):
    """The row count of a table that has just been written."""
    return words.payload_of(table[words.payload_of(table[0]) + 1])


class Both:
    """Makes the calls, counts them, and hands back the reference's answers."""

    def __init__(self):
        self.cases = 0
        self.numbers = set()
        # Number and fields of the last call.
        self.answered = []
        # Steps that were found to be on the lowest unsettled variable.
        self.climbed = 0
        # The length of the slice that is lent for the answer's fields; None for as many as there are.
        self.answer_length = None

    def lent_answer(self, fields):
        """The slice for the answer and what it holds after the call: the fields as far as it goes, the rest kept."""
        length = len(fields) if self.answer_length is None else self.answer_length
        return Slice(FIELD, [UNANSWERED] * length), fields[:length] + [UNANSWERED] * (length - len(fields))

    def counted(self, number):
        """Counts a call with the number that it answers."""
        self.cases += 1
        self.numbers.add(number)

    def agree(self, name, arguments, expected):
        """Makes the call by the proved library and compares. A plan call alone has no slice for its answer."""
        answer, fields = self.lent_answer(expected.fields)
        self.answered = [expected.number] + expected.fields
        expected = expected._replace(fields=fields)
        lent = [passed(kind, value) for kind, value in arguments]
        number = call("gotalhim_" + name, lent + [answer] * (name != "plan"))
        self.counted(expected.number)
        try:
            got = Answer(number, answer.content(), [each.content() for each in lent if isinstance(each, Slice)])
        except Different as overrun:
            raise Different(told(name, arguments, [str(overrun)])) from overrun
        if got != expected:
            raise Different(told(name, arguments, fault_of(got, expected)))

    def make(self, sheet, target):
        made = reference.make_instance(sheet, target)
        self.agree("make", [(WORD, sheet), (WORD, target)], Answer(made.number, [made.written], [sheet, made.target]))
        return made

    def cost(self, instance, plan):
        number, paid = inputs.cost_call(instance, plan)
        self.agree("cost", [(WORD, instance), (BYTE, plan)], Answer(number, [paid], [instance, plan]))
        return number, paid

    def readout(self, sheet, plan, variable, easting, northing):
        answered = reference.readout_call(sheet, plan, variable, easting, northing)
        self.agree("readout", [(WORD, sheet), (BYTE, plan), (WORD, variable), (WORD, easting), (WORD, northing)],
                   Answer(answered.number, [answered.metres], [sheet, plan]))
        return answered

    def encode(self, instance, table):
        encoded = reference.encode(instance, table)
        rows = row_total(encoded.table) if encoded.number == GOOD else 0
        self.agree("encode", [(WORD, instance), (WORD, table)], Answer(encoded.number, [rows], [instance, encoded.table]))
        return encoded

    def step(self, table):
        stepped = reference.step_call(table)
        fields = [int(stepped.outcome == DONE), stepped.word]
        self.agree("step", [(WORD, table)], Answer(stepped.number, fields, [stepped.table]))
        return stepped

    def run(self, table, limit, derivation):
        ran = reference.run_call(table, limit, derivation)
        outcome = 0 if ran.number == BAD_TABLE else OUTCOMES[ran.outcome]
        fields = [outcome, ran.steps, ran.bound]
        self.agree("run", [(WORD, table), (SIZE, limit), (WORD, derivation)],
                   Answer(ran.number, fields, [ran.table, ran.derivation]))
        return ran

    def plan(self, table, target):
        planned = reference.plan_call(table, target)
        self.agree("plan", [(WORD, table), (BYTE, target)], Answer(planned.number, [], [table, planned.target]))
        return planned

    def complete(self, table, k, fixed, target):
        completed = reference.complete_call(table, k, fixed, target)
        self.agree("complete", [(WORD, table), (SIZE, k), (BYTE, fixed), (BYTE, target)],
                   Answer(completed.number, [completed.cost], [table, fixed, completed.target]))
        return completed

    def to_six(self, source, target):
        return self.convert("to_six", source, target, reference.to_six(source, target))

    def to_five(self, source, target):
        return self.convert("to_five", source, target, reference.to_five(source, target))

    def convert(self, name, source, target, due):
        """A conversion of which it is known what it comes to."""
        self.agree(name, [(WORD, source), (WORD, target)], Answer(due.number, [due.rows], [source, due.target]))
        return due

    def on_table(self, table):
        """A step, runs, plans, completions and conversions, each on the same table; where it is not valid, 9 comes before the
        short target's 10 and the 14 of what is fixed. Where all is forbidden, every value is rebuilt by a completion alone."""
        variables = named_variables(table)
        self.step(table)
        self.run(table, RUN_LIMIT, [9] * (RUN_LIMIT + 1))
        self.run(table, RUN_LIMIT, [9] * 2)
        if self.plan(table, [200] * 13).number == FORBIDDEN:
            self.complete(table, variables, [], [200] * 13)
        self.plan(table, [])
        k = min(1, variables)
        self.complete(table, k, [0] * (variables - k), [200] * 13)
        self.complete(table, SIZE_MAX, [], [])
        # With room for every row in either form.
        self.to_six(table, [9] * (len(table) + len(table) // 5))
        self.to_five(table, [9] * len(table))

    def check(self, instance, derivation, plan, claimed, table):
        checked = reference.check_call(instance, derivation, plan, claimed, table)
        self.agree("check", [(WORD, instance), (WORD, derivation), (BYTE, plan), (FIELD, claimed), (WORD, table)],
                   Answer(checked.number, [checked.steps], [instance, derivation, plan, checked.table]))
        return checked

    def drive(self, instance, table, calls, out, target):
        driven = driver.drive(instance, table, calls, out, target)
        self.agree("drive", [(WORD, instance), (WORD, table), (WORD, calls), (WORD, out), (BYTE, target)],
                   Answer(driven.number, [driven.steps], [instance, driven.table, calls, driven.out, driven.target]))
        return driven
