"""Tables as text: the form of the rows, the words of the table, a line for each station and one for each row.

    form six                            # words to a row: five, six, or five or six where there is no row
    words 32                            # zeros behind the rows included; without this line as many as the rows take
    station 0 spots 3                   # numbered from 0 in order
    station 1 spots 2
    row 0 weight 5 unless 0/1,2 1/0     # a plan costs 5 unless it has spot 1 or 2 of station 0 or spot 0 of station 1
    row 1 weight 7                      # every plan costs 7

They come in this order; a table without stations has the line `stations 0` in their place. Comments, blank lines and indentation
have no words.
"""

import re

from common.field import MAX_SIZE
from common.stations import NO_STATIONS, FieldLines

from .table import EITHER, MAX_ROWS, MAX_WORDS, Row, Table, repeated_fault, rows_start, sign_fault, spots_in

SIGN = re.compile("([0-9]{1,9})/([0-9]{1,9}(?:,[0-9]{1,9})*)")


def write_text(table):
    lines = [f"form {form_text(table.forms)}", f"words {table.words}  # {room_text(table)}"]
    lines += [f"station {station} spots {size}" for station, size in enumerate(table.sizes)] or [NO_STATIONS]
    lines += [row_text(number, row) for number, row in enumerate(table.rows)]
    return "".join(line + "\n" for line in lines)


def form_text(forms):
    return " or ".join(form.name for form in forms)


def room_text(table):
    rooms = [form.room_text(len(table.sizes), table.words) for form in table.forms]
    return f"room for {' or '.join(rooms)}; {len(table.rows):,} used"


def row_text(number, row):
    signs = [f"{station}/{','.join(map(str, spots_in(sign)))}" for station, sign in enumerate(row.signs) if sign]
    return " ".join([f"row {number} weight {row.weight}"] + (["unless"] + signs if signs else []))


def read_text(text):
    return Draft.read(text)


class Draft(FieldLines):
    """The table as far as its lines were read."""

    digits = 17     # the greatest weight has as many

    def __init__(self):
        super().__init__()
        self.forms = None
        self.words = None
        self.sizes = []
        self.rows = []
        self.places = {}    # of the rows, by their signs

    def takers(self):
        return {"form": self.take_form, "words": self.take_words, "station": self.take_station, "stations": self.take_stations,
                "row": self.take_row}

    def take_form(self, parts):
        if self.forms:
            self.refuse("a second form")
        self.require_none("form", self.words is not None)
        named = {form_text(forms): forms for forms in [(form,) for form in EITHER] + [EITHER]}
        if " ".join(parts) not in named:
            self.refuse("a form is written as 'form five', 'form six' or, for a table without rows, 'form five or six'")
        self.forms = named[" ".join(parts)]

    def take_words(self, parts):
        if len(parts) != 1:
            self.refuse("the words of a table are written as 'words NUMBER'")
        if self.words is not None:
            self.refuse("words a second time")
        self.require_none("words", self.stations is not None)
        self.words = self.whole_number("words", parts[0], MAX_WORDS)

    def take_stations(self, parts):
        self.require_form()
        super().take_stations(parts)

    def take_station(self, parts):
        if len(parts) != 3 or parts[1] != "spots":
            self.refuse("a station is written as 'station NUMBER spots NUMBER'")
        self.require_form()
        self.require_none("station", self.rows)
        self.take_station_number(parts[0])
        self.sizes.append(self.whole_number("spots", parts[2], MAX_SIZE, lowest=1))

    def take_row(self, parts):
        if parts[1:2] != ["weight"] or parts[3:4] not in ([], ["unless"]) or len(parts) in (2, 4):
            self.refuse("a row is written as 'row NUMBER weight NUMBER', or with 'unless STATION/SPOT,SPOT.. ..' behind it")
        self.require_stations("a row before the first station")
        if len(self.forms) > 1:
            self.refuse(f"a row in a table whose form is {form_text(EITHER)}; with rows it is one of the two")
        self.take_number("row", parts[0], len(self.rows), MAX_ROWS)
        weight = self.whole_number("weight", parts[2], self.forms[0].max_weight, lowest=1)
        signs = self.signs(parts[4:])
        reason = repeated_fault(self.places, signs)
        if reason:
            self.refuse(reason)
        self.places[signs] = len(self.rows)
        self.rows.append(Row(signs, weight))
        self.require_room()

    def signs(self, texts):
        """The signs of all stations, 0 for those that the texts do not name."""
        signs, last = [0] * len(self.sizes), -1
        for text in texts:
            station, sign = self.sign(text)
            if station <= last:
                self.refuse(f"station {station} comes after station {last}; the stations of a row must rise")
            signs[station], last = sign, station
        return tuple(signs)

    def sign(self, text):
        parts = SIGN.fullmatch(text)
        if not parts:
            self.refuse(f"{text!r} is not a sign, which is written as STATION/SPOT,SPOT.., as 1/0,2")
        station, spots = int(parts[1]), [int(spot) for spot in parts[2].split(",")]
        if spots != sorted(set(spots)):
            self.refuse(f"the spots of {text!r} do not rise")
        reason = sign_fault(self.sizes, station, spots)
        if reason:
            self.refuse(reason)
        return station, sum(1 << spot for spot in spots)

    def finished(self):
        self.require_form()
        self.require_stations("the text ends without a station")
        self.require_room()
        words = rows_start(len(self.sizes)) + self.forms[0].row_words * len(self.rows) if self.words is None else self.words
        return Table(self.forms if self.rows else EITHER, tuple(self.sizes), tuple(self.rows), words)

    def require_form(self):
        if not self.forms:
            self.refuse("the form has to be told first, as 'form six'")

    def require_none(self, what, taken):
        if taken:
            self.refuse(f"{what} too late: form, words, stations and rows come in this order")

    def require_room(self):
        """The words that were told have room for what has come so far."""
        if self.words is None:
            return
        if self.words < rows_start(len(self.sizes)):
            self.refuse(f"{self.words} words are too few for {len(self.sizes)} stations")
        form = self.forms[0]
        if len(self.rows) > form.room(len(self.sizes), self.words):
            self.refuse(f"{self.words:,} words have room for {form.room_text(len(self.sizes), self.words)}")
