"""Sheets as text: one line for each station, spot, cost and forbidden combination, with coordinates in metres.

    station 0 gate          # numbered from 0 in order; a name may follow
      spot 0 at 0.00 0.00   # easting and northing
    station 1
      spot 0 at 3.00 4.00
      spot 1 at 6.00 8.00
    cost 9 at 1/0           # station/spot
    cost 12 at 0/0 1/1      # a combination of spots, stations rising
    cost 5                  # whatever the plan
    forbidden 1/1           # a spot that must not be cored
    forbidden 0/0 1/0       # a combination of spots that no plan may have

Stations come first. A field without any has the line `stations 0` in their place, and costs without spots may follow. A text
with none of these lines is a sheet of no words, which is such a field too. Names, comments, blank lines and indentation have no
words.
"""

import re

from common.fault import Fault
from common.field import MAX_SIZE
from common.stations import NO_STATIONS, FieldLines

from .sheet import (CLOSING_WORDS, FORBIDDEN, HEAD_WORDS, MAX_COORDINATE, MAX_COST, MAX_WORDS, SPOT_WORDS, STATION_WORDS, Entry,
                    Sheet, binding_fault, entry_fault, instance_fault, sizes_of)

# Nine digits are above every limit.
METRES = re.compile(r"(-?)([0-9]{1,9})(?:\.([0-9]{1,2}))?")
BINDING = re.compile("([0-9]{1,9})/([0-9]{1,9})")
# The text of a sheet of no words is a comment, so that its file is not taken for one that was lost.
NO_WORDS = "# no words: a field with no stations"


def write_text(sheet):
    lines = [] if sheet.places else [NO_STATIONS if sheet.headed else NO_WORDS]
    for variable, values in enumerate(sheet.places):
        lines.append(f"station {variable}")
        for value, (east, north) in enumerate(values):
            lines.append(f"  spot {value} at {metres_text(east)} {metres_text(north)}")
    lines += [entry_text(entry) for entry in sheet.entries]
    return "".join(line + "\n" for line in lines)


def metres_text(centimetres):
    sign = "-" if centimetres < 0 else ""
    metres, rest = divmod(abs(centimetres), 100)
    return f"{sign}{metres}.{rest:02}"


def entry_text(entry):
    spots = [f"{variable}/{value}" for variable, value in entry.bindings]
    if entry.cost is FORBIDDEN:
        return " ".join(["forbidden"] + spots)
    return " ".join([f"cost {entry.cost}"] + (["at"] + spots if spots else []))


def read_text(text):
    return Draft.read(text)


class Draft(FieldLines):
    """The sheet as far as its lines were read."""

    def __init__(self):
        super().__init__()
        self.station_line = 0   # of the last station
        self.places = []
        self.entries = []
        self.words = HEAD_WORDS

    def takers(self):
        return {"station": self.take_station, "spot": self.take_spot, "stations": self.take_stations,
                "cost": self.take_cost, "forbidden": self.take_forbidden}

    def take_station(self, parts):
        if len(parts) not in (1, 2):
            self.refuse("a station is written as 'station NUMBER', or 'station NUMBER NAME' with a name of one word")
        self.require_no_entries("station")
        self.close_station()
        self.take_station_number(parts[0])
        self.station_line = self.line
        self.places.append([])
        self.take_words(STATION_WORDS)

    def take_spot(self, parts):
        if len(parts) != 4 or parts[1] != "at":
            self.refuse("a spot is written as 'spot NUMBER at EASTING NORTHING'")
        self.require_no_entries("spot")
        if not self.places:
            self.refuse("a spot before the first station")
        self.take_number("spot", parts[0], len(self.places[-1]), MAX_SIZE)
        self.places[-1].append((self.centimetres("easting", parts[2]), self.centimetres("northing", parts[3])))
        self.take_words(SPOT_WORDS)

    def take_cost(self, parts):
        if len(parts) == 1:
            spots = []
        elif len(parts) > 2 and parts[1] == "at":
            spots = parts[2:]
        else:
            self.refuse("a cost is written as 'cost AMOUNT', or 'cost AMOUNT at STATION/SPOT STATION/SPOT ..'")
        self.take_entry(spots, self.whole_number("cost", parts[0], MAX_COST))

    def take_forbidden(self, parts):
        """Without a spot every plan is forbidden, as a cost without one is the cost of every plan."""
        if parts[:1] == ["at"]:
            self.refuse("a forbidden combination is written as 'forbidden STATION/SPOT STATION/SPOT ..'")
        self.take_entry(parts, FORBIDDEN)

    def take_entry(self, spots, cost):
        self.require_stations("a cost or a forbidden combination before the first station")
        self.close_station()
        sizes = sizes_of(self.places)
        bindings = []
        for spot in spots:
            bindings.append(self.binding(spot, sizes, bindings))
        reason = entry_fault(sizes, len(self.entries))
        if reason:
            self.refuse(reason)
        self.entries.append(Entry(tuple(bindings), cost))
        self.take_words(len(bindings) + CLOSING_WORDS)
        # The stations alone never make an instance too long.
        reason = instance_fault(sizes, self.words)
        if reason:
            self.refuse(reason)

    def finished(self):
        self.close_station()
        return Sheet(tuple(tuple(values) for values in self.places), tuple(self.entries), self.stations is not None)

    def require_no_entries(self, what):
        """Stations have to be known before a cost names them, and their words stand in front."""
        if self.entries:
            self.refuse(f"a {what} after the first cost or forbidden combination; all stations and spots come first")

    def close_station(self):
        if self.places and not self.places[-1]:
            raise Fault(f"line {self.station_line}", f"station {len(self.places) - 1} has no spot")

    def take_words(self, count):
        self.words += count
        if self.words > MAX_WORDS:
            self.refuse(f"more than {MAX_WORDS:,} words, the most that the planner takes")

    def centimetres(self, what, text):
        parts = METRES.fullmatch(text)
        if parts:
            sign, metres, rest = parts.groups(default="")
            size = 100 * int(metres) + int(rest.ljust(2, "0"))
            if size <= MAX_COORDINATE:
                return -size if sign else size
        most = metres_text(MAX_COORDINATE)
        self.refuse(f"{what} {text!r} is not a number of metres from -{most} to {most} with at most two decimal places")

    def binding(self, text, sizes, before):
        parts = BINDING.fullmatch(text)
        if not parts:
            self.refuse(f"{text!r} is not a spot, which is written as STATION/SPOT, as 1/0")
        variable, value = map(int, parts.groups())
        reason = binding_fault(sizes, before, variable, value)
        if reason:
            self.refuse(reason)
        return variable, value
