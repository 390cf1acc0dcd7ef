"""Every fault of a text, with its line and its reason; and what is no fault has words that the planner takes."""

import random

from checks import ROOT
from reference import inputs
from reference.answers import Refused
from reference.planning import words_of
from common.fault import Fault
from sheets.forms import text_to_words
from spoiling import spoiled

SPOILED = 1_000
UNKNOWN = "a line begins with station, spot, stations, cost, forbidden or #"
METRES = "is not a number of metres from -10000.00 to 10000.00 with at most two decimal places"
STATION_FORM = "a station is written as 'station NUMBER', or 'station NUMBER NAME' with a name of one word"
SPOT_FORM = "a spot is written as 'spot NUMBER at EASTING NORTHING'"
COST_FORM = "a cost is written as 'cost AMOUNT', or 'cost AMOUNT at STATION/SPOT STATION/SPOT ..'"
FORBIDDEN_FORM = "a forbidden combination is written as 'forbidden STATION/SPOT STATION/SPOT ..'"
NO_STATIONS = "'stations 0' is for a field without any"
EARLY = f"a cost or a forbidden combination before the first station; {NO_STATIONS}"
LATE = "a {} after the first cost or forbidden combination; all stations and spots come first"

LONG_INSTANCE = ("here the instance made from the sheet passes 16,000 words, the most that the planner takes; "
                 "the 704 legs between neighbouring stations come first, with 3 words each")
BREAK = "a line ends with a line feed, or with a carriage return and a line feed; here another sign of a new line stands in it"

# Six lines, on which the entries below rest.
TWO = "station 0 gate\n spot 0 at 0 0\n\nstation 1\n spot 0 at 3.00 4.00\n spot 1 at 6.00 8.00\n"
ONE = "station 0\nspot 0 at 0 0\n"


def stations(count, spots=1):
    return "".join(f"station {variable}\n" + "".join(f"spot {value} at 0 0\n" for value in range(spots))
                   for variable in range(count))


def order(what, text, due):
    return f"{what} {text} where {what} {due} is due; they are numbered from 0 in order"


def not_whole(what, text, highest):
    return f"{what} {text!r} is not a whole number from 0 to {highest}"


def line_cases():
    """Faults in the words of a line."""
    yield "# a comment\n\nsation 0\n", 3, f"unknown word 'sation'; {UNKNOWN}"
    yield "Station 0\n", 1, f"unknown word 'Station'; {UNKNOWN}"
    yield "\x10\x00\x00", 1, f"unknown word '\\x10\\x00\\x00'; {UNKNOWN}"
    yield "station\n", 1, STATION_FORM
    yield "station 0 old gate\n", 1, STATION_FORM
    yield ONE + "spot 1 at 0\n", 3, SPOT_FORM
    yield ONE + "spot 1 on 0 0\n", 3, SPOT_FORM
    yield ONE + "spot 1 at 0 0 0\n", 3, SPOT_FORM
    for wrong in ["cost", "cost 9 at", "cost 9 1/0", "cost 9 on 1/0"]:
        yield TWO + wrong, 7, COST_FORM
    for wrong in ["forbidden at", "forbidden at 1/0", "forbidden at 0/0 1/1"]:
        yield TWO + wrong, 7, FORBIDDEN_FORM


def break_cases():
    """Signs of a new line within a line, in a comment and before it."""
    for sign in "\r\v\f\x1c\x85\u2028\u2029":
        yield TWO + f"cost 1 at 1/1 # wheel track{sign}cost 9 at 1/0\n", 7, BREAK
        yield TWO + f"cost 1 at 1/1{sign}cost 9 at 1/0\n", 7, BREAK


def number_cases():
    """Numbers that are none or are out of range."""
    yield stations(12) + "station 12", 25, not_whole("station", "12", 11)
    yield "station one", 1, not_whole("station", "one", 11)
    yield "station -1", 1, not_whole("station", "-1", 11)
    yield stations(1, 8) + "spot 8 at 0 0", 10, not_whole("spot", "8", 7)
    # A digit, but not one of 0 to 9.
    yield ONE + "spot \u0661 at 0 0", 3, not_whole("spot", "\u0661", 7)
    for wrong in ["10000.01", "-10000.01", "99999999999", "1.234", "1.", ".5", "+1", "1,5", "1e3", "x", "--1"]:
        yield f"station 0\nspot 0 at {wrong} 0", 2, f"easting {wrong!r} {METRES}"
        yield f"station 0\nspot 0 at 0 {wrong}", 2, f"northing {wrong!r} {METRES}"
    for wrong in ["65536", "-1", "1.5", "many", "9" * 5_000]:
        yield TWO + f"cost {wrong}", 7, not_whole("cost", wrong, 65_535)
        yield TWO + f"cost {wrong} at 1/0", 7, not_whole("cost", wrong, 65_535)


def order_cases():
    """Stations, spots and costs that are missing or stand at the wrong place."""
    yield "station 1\n", 1, order("station", 1, 0)
    yield ONE + "station 0\n", 3, order("station", 0, 1)
    yield ONE + "station 2\n", 3, order("station", 2, 1)
    yield "station 0\nspot 1 at 0 0\n", 2, order("spot", 1, 0)
    yield ONE + "spot 0 at 1 1\n", 3, order("spot", 0, 1)
    yield "spot 0 at 0 0\n", 1, "a spot before the first station"
    for entry in ["cost 5", "cost 5 at 0/0", "forbidden 0/0", "forbidden"]:
        yield f"# under water\n{entry}\n", 2, EARLY
        yield f"{entry}\n" + ONE, 1, EARLY
        yield f"{entry}\nstations 0\n", 1, EARLY
        yield ONE + f"{entry}\nstation 1\n", 4, LATE.format("station")
        yield ONE + f"{entry}\nspot 1 at 0 0\n", 4, LATE.format("spot")
    yield ONE + "station 1 # empty\n\n# end\n", 3, "station 1 has no spot"
    yield "\nstation 0\nstation 1\nspot 0 at 0 0\n", 2, "station 0 has no spot"
    yield "station 0\n\ncost 5 at 0/0\n", 1, "station 0 has no spot"


def no_station_cases():
    """What does not go with a field that has no stations."""
    for wrong in ["stations", "stations 1", "stations 12", "stations 00", "stations -1", "stations none", "stations 0 gate"]:
        yield f"# under water\n{wrong}\n", 2, f"each station has a line of its own; {NO_STATIONS}"
    yield "stations 0\nstations 0\n", 2, "'stations 0' a second time"
    yield "stations 0\ncost 5\nstations 0\n", 3, "'stations 0' a second time"
    yield ONE + "stations 0\n", 3, "'stations 0' after a station"
    yield ONE + "cost 5\nstations 0\n", 4, "'stations 0' after a station"
    yield "stations 0\n\nstation 0\n", 3, "a station after 'stations 0'"
    yield "stations 0\nspot 0 at 0 0\n", 2, "a spot before the first station"
    for entry in ["cost 9 at", "forbidden"]:
        yield f"stations 0\n{entry} 0/0", 2, "there is no station 0; the field has none"
        yield f"stations 0\nforbidden\n{entry} 11/7", 3, "there is no station 11; the field has none"


def entry_cases():
    """Costs and forbidden combinations that name no combination of spots."""
    for entry in ["cost 9 at", "forbidden"]:
        for wrong in ["1", "1/", "/0", "1/0/0", "1-0", "a/b", "-1/0", "1/0,", "9999999999/0"]:
            yield TWO + f"{entry} {wrong}", 7, f"{wrong!r} is not a spot, which is written as STATION/SPOT, as 1/0"
        yield TWO + f"{entry} 2/0", 7, "there is no station 2; the last one is 1"
        yield TWO + f"{entry} 0/0 1/2", 7, "station 1 has no spot 2; its last one is 1"
        yield TWO + f"{entry} 0/1", 7, "station 0 has no spot 1; its last one is 0"
        yield TWO + f"{entry} 1/0 0/0", 7, "station 0 comes after station 1; the stations of a combination must rise"
        yield TWO + f"{entry} 1/0 1/1", 7, "station 1 comes after station 1; the stations of a combination must rise"


def room_cases():
    """Entries and words that are too many."""
    many = "more than 4,096 entries; the {} legs between neighbouring stations count first"
    for entry in ["cost 0\n", "forbidden\n"]:
        yield "stations 0\n" + entry * 4_097, 4_098, many.format(0)
        yield ONE + entry * 4_097, 4_099, many.format(0)
        yield TWO + entry * 4_095, 6 + 4_095, many.format(2)
        yield stations(2, 8) + entry * (4_097 - 64), 18 + 4_097 - 64, many.format(64)
    yield ONE + "cost 0\nforbidden\n" * 2_048 + "cost 0\n", 4_099, many.format(0)
    # 10 words of stations and spots; 3,997 entries of four words and one of two: 16,000.
    most = stations(3) + "cost 1 at 0/0 1/0 2/0\n" * 3_997 + "cost 1 at 0/0\n"
    for entry in ["cost 1\n", "forbidden\n"]:
        yield most + entry, 6 + 3_999, "more than 16,000 words, the most that the planner takes"
    # 13 words of stations and 3 for each of 704 legs; 2,775 entries of five words: an instance of 16,000.
    longest = stations(12, 8) + "cost 1 at 0/0 1/0 2/0 3/0\n" * 2_775
    yield longest + "cost 1\n", 12 * 9 + 2_776, LONG_INSTANCE


def run(checks):
    for cases in (line_cases, break_cases, number_cases, order_cases, no_station_cases, entry_cases, room_cases):
        for text, line, reason in cases():
            checks.refuses("words", text.encode(), f"line {line}: {reason}")
    checks.same("spoiled texts that the planner refuses", refused_after_all(random.Random("spoiled texts")), [])


def refused_after_all(rng):
    """Spoiled texts that the tool takes although the reference refuses their words."""
    wrong = []
    sources = [(ROOT / "examples" / f"{name}.txt").read_text().split("\n") for name in ("headland", "flooded")]
    for _ in range(SPOILED):
        text = "\n".join(spoiled(rng, rng.choice(sources), ["0", "1/1", "5/2", "65536", "station", "stations"]))
        try:
            inputs.read_sheet(words_of(text_to_words(text.encode())))
        except Fault:
            pass
        except Refused:
            wrong.append(text)
    return wrong
