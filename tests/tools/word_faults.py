"""Every fault of a sheet in words, with its word and its reason; and damaged sheets against the reference."""

import random

import round_trips
from reference import fields, inputs, make_instance, words
from reference.answers import GOOD, Refused
from reference.planning import words_of
from common.fault import Fault
from sheets.words import read_words
from text_faults import LONG_INSTANCE

DAMAGED = 2_000
PLACE = [words.easting(0), words.northing(0)]
# Station 0 with one spot, station 1 with two: nine words.
TWO = [words.head(2), words.size(1), *PLACE, words.size(2), *PLACE, *PLACE]


def head_cases():
    yield [words.size(1)], 0, "a word of kind 2 where the number of stations is due, a word of kind 1 (refusal 1)"
    for first in [words.forbidden(), words.high_weight(1)]:
        yield [first], 0, (f"a word of kind {words.kind_of(first)} where the number of stations is due, "
                           "a word of kind 1 (refusal 1)")
    for stations in [13, 1 << 4, 1 << 27, 1 << 27 | 1]:
        yield [words.head(stations)], 0, f"{stations} stations; a field has at most 12 (refusal 1)"


def station_cases():
    yield [words.head(1)], 1, "the sheet ends where the number of spots of station 0 is due (refusal 2)"
    yield TWO[:4], 4, "the sheet ends where the number of spots of station 1 is due (refusal 2)"
    yield TWO[:4] + [words.cost(1)], 4, ("a word of kind 4 where the number of spots of station 1 is due, "
                                         "a word of kind 2 (refusal 2)")
    for taken in [words.forbidden(), words.high_weight(1)]:
        kind = words.kind_of(taken)
        yield TWO[:4] + [taken], 4, (f"a word of kind {kind} where the number of spots of station 1 is due, "
                                     "a word of kind 2 (refusal 2)")
        yield TWO[:3] + [taken], 3, (f"a word of kind {kind} where the northing of spot 0/0 is due, "
                                     "a word of kind 9 (refusal 2)")
    for spots in [0, 9, 1 << 8 | 1]:
        yield [words.head(1), words.size(spots)], 1, f"station 0 with {spots} spots; a station has 1 to 8 (refusal 2)"
    yield TWO[:2], 2, "the sheet ends where the easting of spot 0/0 is due (refusal 2)"
    yield TWO[:8], 8, "the sheet ends where the northing of spot 1/1 is due (refusal 2)"
    yield TWO[:7] + [words.northing(0)], 7, ("a word of kind 9 where the easting of spot 1/1 is due, "
                                             "a word of kind 8 (refusal 2)")
    yield TWO[:3] + [words.easting(0)], 3, ("a word of kind 8 where the northing of spot 0/0 is due, "
                                            "a word of kind 9 (refusal 2)")
    far = "is {} centimetres; at most 1,000,000 either way (refusal 2)"
    yield TWO[:2] + [words.easting(1_000_001)], 2, "the easting of spot 0/0 " + far.format("1,000,001")
    yield TWO[:3] + [words.northing(-1_000_001)], 3, "the northing of spot 0/0 " + far.format("-1,000,001")


def entry_cases():
    for taken in [words.weight(1), words.high_weight(0), words.high_weight(1)]:
        yield TWO + [words.binding(0, 0), taken], 10, (
            f"a word of kind {words.kind_of(taken)} among the entries, which have pairs (3) and then "
            "a cost (4) or a forbidden word (11) (refusal 3)")
    yield TWO + [words.binding(1, 0)], 10, "the sheet ends where a cost or a forbidden word is due (refusal 3)"
    for bit in [3, 7, 12, 27]:
        yield (TWO + [words.binding(1, 0) | 1 << bit, words.cost(1)], 9,
               "a pair with a set bit outside its station and spot (refusal 3)")
    yield TWO + [words.binding(2, 0), words.cost(1)], 9, "there is no station 2; the last one is 1 (refusal 3)"
    yield TWO + [words.binding(0, 1), words.cost(1)], 9, "station 0 has no spot 1; its last one is 0 (refusal 3)"
    yield (TWO + [words.binding(1, 0), words.binding(0, 0), words.cost(1)], 10,
           "station 0 comes after station 1; the stations of a combination must rise (refusal 3)")


def no_station_cases():
    """A head of 0, behind which no word has a station."""
    constant, others = words.cost(1), [words.head(0), words.size(1), words.easting(0), words.high_weight(1)]
    for station in (0, 11):
        reason = f"there is no station {station}; the field has none (refusal 3)"
        yield [words.head(0), words.binding(station, 0), constant], 1, reason
        yield [words.head(0), constant, words.forbidden(), words.binding(station, 7)], 3, reason
    for taken in others:
        yield [words.head(0), constant, taken], 2, (
            f"a word of kind {words.kind_of(taken)} among the entries, which have pairs (3) and then "
            "a cost (4) or a forbidden word (11) (refusal 3)")
    yield [words.head(0), constant, words.cost(65_536)], 2, "a cost of 65,536; at most 65,535 (refusal 4)"
    yield [words.head(0)] + [constant] * 4_097, 4_097, (
        "more than 4,096 entries; the 0 legs between neighbouring stations count first (refusal 5)")


def forbidden_cases():
    """Forbidden words with a set bit, wherever an entry ends, also where they would be the 4,097th."""
    for unnamed, shown in [(1, "1"), (65_535, "65,535"), (1 << 27, "134,217,728"), ((1 << 28) - 1, "268,435,455")]:
        reason = f"a forbidden word with payload {shown}, which has to be 0 (refusal 3)"
        for before in ([], [words.binding(1, 0)], [words.binding(0, 0), words.binding(1, 1)], [words.forbidden()] * 4_094):
            yield TWO + before + [words.forbidden(unnamed)], 9 + len(before), reason


def count_cases():
    """Costs that are too high, and entries that are too many, forbidden ones counted as the others."""
    dear = "a cost of 65,536; at most 65,535 (refusal 4)"
    many = "more than 4,096 entries; the 2 legs between neighbouring stations count first (refusal 5)"
    yield TWO + [words.cost(1), words.cost(65_536)], 10, dear
    for entry in [words.cost(1), words.forbidden()]:
        for last in [words.cost(1), words.forbidden()]:
            yield TWO + [entry] * 4_094 + [last], 9 + 4_094, many
        yield TWO + [entry] * 4_094 + [words.cost(65_536)], 9 + 4_094, dear


def instance_cases():
    """An instance that is too long, after every fault of the sheet's own words."""
    longest = fields.sheet(*round_trips.LONGEST_INSTANCE)
    yield longest + [words.cost(1)], 14_080, f"{LONG_INSTANCE} (refusal 10)"
    yield longest + [words.cost(1)] * 2, 14_080, f"{LONG_INSTANCE} (refusal 10)"
    yield longest + [words.forbidden()], 14_080, f"{LONG_INSTANCE} (refusal 10)"
    yield longest + [words.cost(1), words.cost(65_536)], 14_081, "a cost of 65,536; at most 65,535 (refusal 4)"


def length_cases():
    """Faults of the length come before all others."""
    yield bytes(64_001), 16_000, "the planner takes 16,000 words at most (refusal 10)"
    yield bytes(64_004), 16_000, "the planner takes 16,000 words at most (refusal 10)"
    for rest in [1, 2, 3]:
        yield bytes(8 + rest), 2, f"only {rest} of its 4 bytes (refusal 1)"


def run(checks):
    for data, at, reason in length_cases():
        checks.refuses("text", data, f"word {at}: {reason}")
    for cases in (head_cases, station_cases, entry_cases, no_station_cases, forbidden_cases, count_cases, instance_cases):
        for source, at, reason in cases():
            data = fields.as_bytes(source)
            checks.refuses("text", data, f"word {at}: {reason}")
            checks.same(f"the number of {reason}", fault_of(data)[1], make_instance(source, [0] * 16_000).number)
    rng = random.Random("damaged sheets")
    for _ in range(DAMAGED):
        data = fields.as_bytes(damaged(rng, fields.sheet(*round_trips.random_sheet(rng))))
        checks.same(f"the fault of {data.hex()}", fault_of(data), reference_fault(data))


def fault_of(data):
    """The faulty word and the refusal's number, which the reason ends with."""
    try:
        read_words(data)
    except Fault as fault:
        return int(fault.place.removeprefix("word ")), int(fault.reason.rsplit(" ", 1)[1].removesuffix(")"))
    return None, GOOD


class Watched(inputs.Reader):
    """The reference's reader, which remembers the word asked for last."""
    asked = None

    def take(self, missing):
        self.asked = self.at
        return super().take(missing)


def reference_fault(data):
    reader = Watched(words_of(data))
    try:
        places = [inputs.read_places(reader) for _ in range(inputs.read_head(reader))]
        inputs.read_entries(reader, inputs.sizes_of(places), len(inputs.travel_entries(places)))
    except Refused as refusal:
        return reader.asked, refusal.number
    return None, GOOD


def damaged(rng, source):
    """The words with a bit turned, a word left out, doubled, of another kind, or cut off."""
    at = rng.randrange(len(source))
    before, taken, after = source[:at], source[at], source[at + 1:]
    return rng.choice([before + [taken ^ 1 << rng.randrange(32)] + after,
                       before + after,
                       before + [taken, taken] + after,
                       before + [words.word(rng.randrange(16), words.payload_of(taken))] + after,
                       before])
