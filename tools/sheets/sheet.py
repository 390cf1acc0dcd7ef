"""What a sheet holds, its limits, and the faults that both forms can have."""

from typing import NamedTuple

from common.field import spot_fault

MAX_COORDINATE = 1_000_000      # centimetres
MAX_COST = 65_535
MAX_ENTRIES = 4_096             # the legs counted first
MAX_WORDS = 16_000              # the program's buffers, one for the sheet and one for the instance made from it

# Words of a sheet: the head, each station, each spot. An entry has one for each binding and one that closes it, as a leg
# has in the instance, where spots have none.
HEAD_WORDS = STATION_WORDS = CLOSING_WORDS = 1
SPOT_WORDS = 2
LEG_WORDS = 3

# In place of the cost of a combination that no plan may have. It is no number: the highest cost is an ordinary one.
FORBIDDEN = None


class Entry(NamedTuple):
    """What a combination of spots costs, or that it is forbidden; an entry without bindings is so for every plan."""
    bindings: tuple     # of (variable, value), variables rising
    cost: int           # or FORBIDDEN


class Sheet(NamedTuple):
    places: tuple       # for each variable, the (easting, northing) in centimetres of each of its values
    entries: tuple      # in the order written, repeats kept
    headed: bool        # False for a sheet of no words, which is a field without variables as one with a head of 0 is


def sizes_of(places):
    return [len(values) for values in places]


def binding_fault(sizes, before, variable, value):
    """Why an entry with the bindings `before` cannot go on with this one, or None where it can."""
    reason = spot_fault(sizes, variable, value)
    if not reason and before and variable <= before[-1][0]:
        reason = f"station {variable} comes after station {before[-1][0]}; the stations of a combination must rise"
    return reason


def leg_count(sizes):
    return sum(size * following for size, following in zip(sizes, sizes[1:]))


def instance_surplus(sizes):
    """How many words more than the sheet the instance made from it has; fewer, where this is below 0."""
    return LEG_WORDS * leg_count(sizes) - SPOT_WORDS * sum(sizes)


def instance_fault(sizes, words):
    """Why the instance of a sheet of so many words is too long, or None where it is not."""
    if words + instance_surplus(sizes) > MAX_WORDS:
        return (f"here the instance made from the sheet passes {MAX_WORDS:,} words, the most that the planner takes; "
                f"the {leg_count(sizes)} legs between neighbouring stations come first, with {LEG_WORDS} words each")
    return None


def entry_fault(sizes, counted):
    """Why a sheet that has so many entries cannot take another one, or None where it can."""
    legs = leg_count(sizes)
    if legs + counted >= MAX_ENTRIES:
        return f"more than {MAX_ENTRIES:,} entries; the {legs} legs between neighbouring stations count first"
    return None
