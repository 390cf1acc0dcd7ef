"""Text that tells of a field's stations: a line for each, numbered from 0 in order, or one that says that there are none."""

from .field import MAX_VARIABLES
from .lines import Lines

NO_STATIONS = "stations 0"
HINT = f"{NO_STATIONS!r} is for a field without any"


class FieldLines(Lines):
    """Lines that tell of a field, as far as they were read."""

    def __init__(self):
        super().__init__()
        # How many so far; 0 where the text says that there are none. One that says nothing may have lost them.
        self.stations = None

    def take_stations(self, parts):
        if " ".join(["stations", *parts]) != NO_STATIONS:
            self.refuse(f"each station has a line of its own; {HINT}")
        if self.stations is not None:
            self.refuse(f"{NO_STATIONS!r} {'after a station' if self.stations else 'a second time'}")
        self.stations = 0

    def take_station_number(self, text):
        if self.stations == 0:
            self.refuse(f"a station after {NO_STATIONS!r}")
        due = self.stations or 0
        self.take_number("station", text, due, MAX_VARIABLES)
        self.stations = due + 1

    def require_stations(self, otherwise):
        """The text has told of its stations before this."""
        if self.stations is None:
            self.refuse(f"{otherwise}; {HINT}")
