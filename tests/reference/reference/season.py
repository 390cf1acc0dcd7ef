"""The season program of document 02: the sheets of one file planned one by one, and the line of numbers that they come to."""

from typing import NamedTuple

from .answers import BAD_HEAD, TARGET_TOO_SHORT
from .planning import FULL, PLANNED, WORD_BYTES, refused, solved
from .steps import PAUSED, REFUSED

MOST_SHEETS = 10_000
MOST_WORDS = 16_000
# The refusals that a sheet can meet, each with a count of its own.
REFUSALS = (1, 2, 3, 4, 5, 10, 12, 15)


class Figures(NamedTuple):
    """The numbers in the order in which they are printed."""
    planned: int
    refused: list       # how many under each of REFUSALS
    paused: int
    full: int
    total: int          # the sum of the least costs
    largest: int        # the largest least cost; 0 if no sheet was planned
    sheet: int          # the first that has it, counted from 1; 0 if no sheet was planned


def season_line(source, solve=solved):
    """The bytes that the program writes for a season's bytes; `solve` plans one sheet."""
    figures = figures_of(list(outcomes(source, solve)))
    numbers = [figures.planned, *figures.refused, *figures[2:]]
    return (" ".join(str(number) for number in numbers) + "\n").encode("ascii")


def outcomes(source, solve):
    """What each sheet of a season came to, in order."""
    at = 0
    for _ in range(MOST_SHEETS):
        if at == len(source):
            return
        start = at + WORD_BYTES
        length = int.from_bytes(source[at:start], "little")
        at = start + WORD_BYTES * length
        # So it is too where the length itself is cut off, since it would end behind the file.
        if at > len(source):
            yield refused(BAD_HEAD)
            return
        yield solve(source[start:at]) if length <= MOST_WORDS else refused(TARGET_TOO_SHORT)


def figures_of(answers):
    """The figures of what the sheets came to, one answer for each sheet."""
    endings = [answer.ending for answer in answers]
    numbers = [answer.number for answer in answers if answer.ending == REFUSED]
    costs = [(sheet, answer.bound) for sheet, answer in enumerate(answers, 1) if answer.ending == PLANNED]
    # Of several largest ones max takes the first.
    first, largest = max(costs, key=lambda planned: planned[1], default=(0, 0))
    return Figures(len(costs), [numbers.count(number) for number in REFUSALS], endings.count(PAUSED),
                   endings.count(FULL), sum(cost for _, cost in costs), largest, first)
