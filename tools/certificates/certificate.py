"""What a certificate holds, and its limit."""

from typing import NamedTuple

from common.field import MAX_VARIABLES

# The head, the plan and the two words of the cost stand before the derivation.
MAX_WORDS = 1 + MAX_VARIABLES + 2 + 200_000


class Step(NamedTuple):
    """Two rows resolved on a station."""
    station: int
    first: int
    second: int


class Other(NamedTuple):
    """A word of the derivation that is no step, which the checker of today refuses."""
    place: int      # among the words of the file, from 0
    kind: int
    payload: int


class Certificate(NamedTuple):
    spots: tuple        # the plan: the spot of each station
    cost: int
    derivation: tuple   # of steps and other words
