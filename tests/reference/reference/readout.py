"""The readout: whole metres from a position to the place of an assignment's value (document 01: panel number)."""

from typing import NamedTuple

from . import words
from .answers import BAD_READOUT, GOOD, Refused, require
from .distance import distance
from .inputs import in_range, is_coordinate, read_sheet, sizes_of


class Readout(NamedTuple):
    number: int
    metres: int


def readout_call(sheet, assignment, variable, easting, northing):
    """The position is an easting word and a northing word."""
    try:
        places = read_sheet(sheet).places
        require(variable < len(places), BAD_READOUT)
        require(is_coordinate(easting, words.EASTING), BAD_READOUT)
        require(is_coordinate(northing, words.NORTHING), BAD_READOUT)
        require(in_range(sizes_of(places), assignment), BAD_READOUT)
    except Refused as refusal:
        return Readout(refusal.number, 0)
    here = words.coordinate_of(easting), words.coordinate_of(northing)
    return Readout(GOOD, distance(here, places[variable][assignment[variable]]))
