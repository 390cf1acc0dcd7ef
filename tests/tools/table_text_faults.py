"""Every fault of a table in text, with its line and its reason; and what is no fault has words that the reference takes."""

import random

from checks import TABLE, called
from reference import fields
from reference.forms import FIVE, SIX
from reference.planning import words_of
from spoiling import spoiled
from table_faults import valid_forms
from table_shapes import random_rows, text_of

SPOILED = 1_500
UNKNOWN = "a line begins with form, words, station, stations, row or #"
FORM = "a form is written as 'form five', 'form six' or, for a table without rows, 'form five or six'"
STATION = "a station is written as 'station NUMBER spots NUMBER'"
ROW = "a row is written as 'row NUMBER weight NUMBER', or with 'unless STATION/SPOT,SPOT.. ..' behind it"
NO_STATIONS = "'stations 0' is for a field without any"
NO_FORM = "the form has to be told first, as 'form six'"
ORDER = "{} too late: form, words, stations and rows come in this order"
SIX_FORM = "form six\n"
# Three lines, on which the rows below rest.
TWO = SIX_FORM + "station 0 spots 3\nstation 1 spots 2\n"


def line_cases():
    yield "rows 0\n", 1, f"unknown word 'rows'; {UNKNOWN}"
    for wrong in ["form", "form seven", "form 6", "form six five", "form six or five"]:
        yield f"# a comment\n{wrong}\n", 2, FORM
    yield "words\n", 1, "the words of a table are written as 'words NUMBER'"
    yield "words 3 4\n", 1, "the words of a table are written as 'words NUMBER'"
    for wrong in ["station", "station 0", "station 0 3", "station 0 with 3", "station 0 spots 3 2"]:
        yield SIX_FORM + wrong, 2, STATION
    for wrong in ["row", "row 0", "row 0 weight", "row 0 of 5", "row 0 weight 5 unless", "row 0 weight 5 0/1",
                  "row 0 weight 5 at 0/1"]:
        yield TWO + wrong, 4, ROW


def order_cases():
    yield "", 1, NO_FORM
    yield "station 0 spots 3\n", 1, NO_FORM
    yield "stations 0\n", 1, NO_FORM
    yield SIX_FORM, 2, f"the text ends without a station; {NO_STATIONS}"
    yield SIX_FORM + "form six\n", 2, "a second form"
    yield "words 9\nform six\n", 2, ORDER.format("form")
    yield TWO + "words 9\n", 4, ORDER.format("words")
    yield SIX_FORM + "words 9\nwords 9\n", 3, "words a second time"
    yield TWO + "row 0 weight 1\nstation 2 spots 1\n", 5, ORDER.format("station")
    yield SIX_FORM + "row 0 weight 1\n", 2, f"a row before the first station; {NO_STATIONS}"
    yield "form five or six\nstation 0 spots 3\nrow 0 weight 1\n", 3, (
        "a row in a table whose form is five or six; with rows it is one of the two")
    for what, text in [("station", "station 1 spots 2"), ("row", "station 0 spots 2\nrow 1 weight 1")]:
        line = 1 + len(text.split("\n"))
        yield SIX_FORM + text, line, f"{what} 1 where {what} 0 is due; they are numbered from 0 in order"


def no_station_cases():
    none = SIX_FORM + "stations 0\n"
    for wrong in ["stations", "stations 1", "stations 0 spots 3"]:
        yield SIX_FORM + wrong, 2, f"each station has a line of its own; {NO_STATIONS}"
    yield none + "stations 0\n", 3, "'stations 0' a second time"
    yield TWO + "stations 0\n", 4, "'stations 0' after a station"
    yield TWO + "row 0 weight 1\nstations 0\n", 5, "'stations 0' after a station"
    yield none + "station 0 spots 3\n", 3, "a station after 'stations 0'"
    yield none + "form six\n", 3, "a second form"
    yield none + "words 9\n", 3, ORDER.format("words")
    yield "words 0\nform six\n", 2, ORDER.format("form")
    for station in (0, 11):
        yield none + f"row 0 weight 1 unless {station}/0", 3, f"there is no station {station}; the field has none"
    yield none + "row 0 weight 1\nrow 1 weight 2\n", 4, "row 1 has the signs of row 0"
    for words in (0, 1):
        yield f"form five\nwords {words}\nstations 0\n", 4, f"{words} words are too few for 0 stations"
    for form, words in [("five", 6), ("six", 7)]:
        yield f"form {form}\nwords {words}\nstations 0\nrow 0 weight 1", 4, f"{words} words have room for 0 rows of {form} words"


def number_cases():
    for wrong in ["0", "9", "-1", "x"]:
        yield SIX_FORM + f"station 0 spots {wrong}", 2, f"spots {wrong!r} is not a whole number from 1 to 8"
    stations = "".join(f"station {at} spots 1\n" for at in range(13))
    yield SIX_FORM + stations, 14, "station '12' is not a whole number from 0 to 11"
    yield "words 1000001", 1, "words '1000001' is not a whole number from 0 to 1000000"
    for form, most in [("five", 268_435_455), ("six", 72_057_594_037_927_935)]:
        for wrong in ["0", str(most + 1), "1.5", "-1", "9" * 18, "9" * 5_000]:
            yield f"form {form}\nstation 0 spots 3\nrow 0 weight {wrong}", 3, (
                f"weight {wrong!r} is not a whole number from 1 to {most}")
    yield TWO + "row 4096 weight 1", 4, "row '4096' is not a whole number from 0 to 4095"


def sign_cases():
    for wrong in ["0", "0/", "/1", "0/1,", "0/,1", "0-1", "0/1/2", "a/b", "0/1;2", "9999999999/0"]:
        yield TWO + f"row 0 weight 1 unless {wrong}", 4, (
            f"{wrong!r} is not a sign, which is written as STATION/SPOT,SPOT.., as 1/0,2")
    for wrong in ["0/1,1", "0/2,1", "1/1,0"]:
        yield TWO + f"row 0 weight 1 unless {wrong}", 4, f"the spots of {wrong!r} do not rise"
    for wrong, spot in [("0/3", 3), ("0/0,3", 3), ("0/999999999", 999_999_999)]:
        yield TWO + f"row 0 weight 1 unless {wrong}", 4, f"station 0 has no spot {spot}; its last one is 2"
    yield TWO + "row 0 weight 1 unless 2/0", 4, "there is no station 2; the last one is 1"
    for wrong, station in [("0/0,1,2", 0), ("1/0,1", 1)]:
        yield TWO + f"row 0 weight 1 unless {wrong}", 4, (
            f"a sign with every spot of station {station}; no plan would cost what the row weighs")
    for first in (0, 1):
        yield TWO + f"row 0 weight 1 unless {first}/1 0/2", 4, (
            f"station 0 comes after station {first}; the stations of a row must rise")
    yield TWO + "row 0 weight 1 unless 1/1\nrow 1 weight 2\nrow 2 weight 9 unless 1/1\n", 6, "row 2 has the signs of row 0"
    yield TWO + "row 0 weight 1\nrow 1 weight 2\n", 5, "row 1 has the signs of row 0"


def room_cases():
    stations, rows = "station 0 spots 3\nstation 1 spots 2\n", "row 0 weight 1 unless 0/1\nrow 1 weight 1 unless 0/2\n"
    for form, words in [("five", 13), ("six", 15)]:
        yield f"form {form}\nwords {words}\n{stations}{rows}", 6, f"{words} words have room for 1 row of {form} words"
    for words in range(4):
        yield f"form six\nwords {words}\n{stations}", 5, f"{words} words are too few for 2 stations"
        yield f"form six\nwords {words}\n{stations}row 0 weight 1", 5, f"{words} words are too few for 2 stations"


def check_spoiled(checks):
    """What is taken of spoiled texts is a table by the reference; the other texts have a fault with a line."""
    rng, taken = random.Random("spoiled tables"), 0
    for _ in range(SPOILED):
        form = rng.choice([FIVE, SIX])
        sizes, rows = random_rows(rng, form)
        text = text_of(sizes, rows, fields.table_length(len(sizes), len(rows), rng.choice([0, 3, 9]), form), form).decode()
        source = "\n".join(spoiled(rng, text.split("\n"), ["0", "1", "0/0", "268435456", "five", "six"]))
        status, data, said = called(["make", "-"], source.encode(), TABLE)
        checks.same(f"the words of {source}", (bool(valid_forms(words_of(data))), said.startswith("standard input, line ")),
                    (status == 0, status == 1))
        taken += status == 0
    checks.same("spoiled texts taken", SPOILED // 20 < taken < SPOILED - SPOILED // 20, True)


def run(checks):
    for cases in (line_cases, order_cases, no_station_cases, number_cases, sign_cases, room_cases):
        for text, line, reason in cases():
            checks.refuses("make", text.encode(), f"line {line}: {reason}", TABLE)
    check_spoiled(checks)
