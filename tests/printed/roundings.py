"""A distance rounded otherwise than to the nearest metre, a half going up: in each of these ways one sheet has another best plan."""

from math import isqrt
from unittest import mock

from reference import distance, printed_plan
from reference.distance import whole_metres
from reference.fields import as_bytes
from sheets import ROUNDED


def halves_to(choose):
    """The nearest metre, where a half goes to what is chosen for the metres that it goes up to."""
    def rounded(square):
        metres = whole_metres(square)
        return choose(metres) if square == (100 * metres - 50) ** 2 else metres
    return rounded


# Metres of a distance in centimetres, given by its square.
ROUNDINGS = {
    "rounded down": lambda square: isqrt(square) // 100,
    "rounded up": lambda square: isqrt(square - 1) // 100 + 1 if square else 0,
    "with a half going down": halves_to(lambda metres: metres - 1),
    "with a half going to the even metre": halves_to(lambda metres: metres - metres % 2),
    "by the rounded square": lambda square: isqrt((square + 5_000) // 10_000),
}


def planned_spots():
    """The spots of the sheet's plan by the reference."""
    lines = printed_plan(as_bytes(ROUNDED)).decode().splitlines()
    return [line.split()[1] for line in lines[3:]]


def unnoticed():
    """The ways that leave the plan as it is, as lines."""
    expected = planned_spots()
    for name, rounding in ROUNDINGS.items():
        with mock.patch.object(distance, "whole_metres", rounding):
            if planned_spots() == expected:
                yield f"printed: distances {name} give the same plan of the sheet that is to show the rounding"
