"""The program: reads a sheet as bytes and prints its plan, or one line that says why there is none."""

from .distance import distance
from .inputs import read_sheet
from .planning import PLANNED, Buffers, solved, words_of
from .steps import PAUSED, REFUSED


def printed_plan(source, buffers=Buffers()):
    """The bytes that the program writes for the bytes that it reads."""
    return text_of(printed_lines(source, solved(source, buffers)))


def text_of(lines):
    return "".join(line + "\n" for line in lines).encode("ascii")


def printed_lines(source, answer):
    if answer.ending == PLANNED:
        return plan_lines("PLAN", source, answer.bound, answer.steps, answer.assignment)
    if answer.ending == REFUSED:
        return [f"REFUSED {answer.number}"]
    return [f"{'PAUSED' if answer.ending == PAUSED else 'FULL'} {answer.steps} BOUND {answer.bound}"]


def plan_lines(first, source, cost, steps, assignment):
    """The lines behind a first one of a plan for the sheet in these bytes."""
    # The zeros behind the last variable have no place and fall away.
    chosen = [spots[value] for spots, value in zip(read_sheet(words_of(source)).places, assignment)]
    lines = [first, f"COST {cost}", f"STEPS {steps}"]
    for variable, place in enumerate(chosen):
        metres = distance(chosen[variable - 1], place) if variable else 0
        lines.append(f"{variable} {assignment[variable]} {metres}")
    return lines
