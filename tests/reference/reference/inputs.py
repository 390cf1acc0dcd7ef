"""Reading instances and sheets, with faults 1 to 5, and the instance that is made from a sheet."""

from typing import NamedTuple

from . import words
from .answers import (BAD_CLAIM, BAD_ENTRY, BAD_HEAD, BAD_VARIABLE, COST_TOO_HIGH, GOOD,
                      TARGET_TOO_SHORT, TOO_MANY_ENTRIES, Refused, require)
from .distance import distance
from .limits import FORBIDDEN_WEIGHT, MAX_COORDINATE, MAX_COST, MAX_ENTRIES, MAX_SIZE, MAX_VARIABLES


class Entry(NamedTuple):
    """One entry of a cost function: what an assignment with all these bindings pays."""
    bindings: tuple     # of (variable, value), variables rising
    cost: int           # FORBIDDEN_WEIGHT where they are forbidden


class Instance(NamedTuple):
    sizes: tuple        # number of values of each variable
    entries: tuple


class Sheet(NamedTuple):
    places: tuple       # for each variable, the (easting, northing) of each of its values
    entries: tuple


class Made(NamedTuple):
    number: int
    written: int
    target: list


class Reader:
    """The caller's words and how far they have been read.

    Reading goes strictly forward and stops at the first fault, so the faulty word nearest the front decides.
    """

    def __init__(self, source):
        self.source = source
        self.at = 0

    def ended(self):
        return self.at == len(self.source)

    def take(self, missing):
        """The next word; where there is none, the refusal of the word that is missing."""
        require(not self.ended(), missing)
        self.at += 1
        return self.source[self.at - 1]

    def take_payload(self, kind, lowest, highest, number):
        taken = self.take(number)
        require(words.kind_of(taken) == kind, number)
        payload = words.payload_of(taken)
        require(lowest <= payload <= highest, number)
        return payload


def read_head(reader):
    """The number of variables, of which there are none where there are no words at all (document 02, wish 7)."""
    return 0 if reader.ended() else reader.take_payload(words.HEAD, 0, MAX_VARIABLES, BAD_HEAD)


def read_size(reader):
    return reader.take_payload(words.SIZE, 1, MAX_SIZE, BAD_VARIABLE)


def read_coordinate(reader, kind):
    taken = reader.take(BAD_VARIABLE)
    require(is_coordinate(taken, kind), BAD_VARIABLE)
    return words.coordinate_of(taken)


def is_coordinate(w, kind):
    return words.kind_of(w) == kind and abs(words.coordinate_of(w)) <= MAX_COORDINATE


def read_places(reader):
    """A size word and as many places."""
    return tuple((read_coordinate(reader, words.EASTING), read_coordinate(reader, words.NORTHING))
                 for _ in range(read_size(reader)))


def read_entries(reader, sizes, counted):
    """The entries up to the last word; `counted` entries count before them."""
    entries = []
    while not reader.ended():
        entries.append(read_entry(reader, sizes, counted + len(entries)))
    return tuple(entries)


def read_entry(reader, sizes, counted):
    bindings = []
    while True:
        taken = reader.take(BAD_ENTRY)
        if words.kind_of(taken) in (words.COST, words.FORBIDDEN):
            break
        lowest = bindings[-1][0] + 1 if bindings else 0
        bindings.append(read_binding(taken, sizes, lowest))
    amount = closing_cost(taken)
    require(counted < MAX_ENTRIES, TOO_MANY_ENTRIES)
    return Entry(tuple(bindings), amount)


def closing_cost(taken):
    """What an entry costs that a cost word or a word for forbidden closes."""
    payload = words.payload_of(taken)
    if words.kind_of(taken) == words.FORBIDDEN:
        require(payload == 0, BAD_ENTRY)
        return FORBIDDEN_WEIGHT
    require(payload <= MAX_COST, COST_TOO_HIGH)
    return payload


def read_binding(taken, sizes, lowest):
    bound = words.binding_of(taken)
    require(bound is not None, BAD_ENTRY)
    variable, value = bound
    require(lowest <= variable < len(sizes) and value < sizes[variable], BAD_ENTRY)
    return bound


def read_instance(source):
    reader = Reader(source)
    count = read_head(reader)
    sizes = tuple(read_size(reader) for _ in range(count))
    return Instance(sizes, read_entries(reader, sizes, 0))


def read_sheet(source):
    reader = Reader(source)
    count = read_head(reader)
    places = tuple(read_places(reader) for _ in range(count))
    sizes = sizes_of(places)
    return Sheet(places, read_entries(reader, sizes, len(travel_entries(places))))


def sizes_of(places):
    return tuple(len(spots) for spots in places)


def travel_entries(places):
    """The cost of going on from each value of a variable to each of the next (document 01: legs)."""
    return tuple(Entry(((variable, here), (variable + 1, there)),
                       distance(places[variable][here], places[variable + 1][there]))
                 for variable in range(len(places) - 1)
                 for here in range(len(places[variable]))
                 for there in range(len(places[variable + 1])))


def instance_of(sheet):
    return Instance(sizes_of(sheet.places), travel_entries(sheet.places) + sheet.entries)


def cost_of(entries, assignment):
    """What an assignment (document 01: plan) pays: the entries all of whose bindings it has."""
    return sum(entry.cost for entry in entries
               if all(assignment[variable] == value for variable, value in entry.bindings))


def in_range(sizes, assignment):
    return (len(assignment) == len(sizes)
            and all(value < size for value, size in zip(assignment, sizes)))


def cost_call(source, assignment):
    """The number and the cost: 1 to 5 for the instance, then 7 for what is no assignment of it."""
    try:
        sizes, entries = read_instance(source)
    except Refused as refusal:
        return refusal.number, 0
    if not in_range(sizes, assignment):
        return BAD_CLAIM, 0
    return GOOD, cost_of(entries, assignment)


def entry_words(entries):
    written = []
    for entry in entries:
        written += [words.binding(variable, value) for variable, value in entry.bindings]
        written.append(closing_word(entry.cost))
    return written


def closing_word(cost):
    return words.forbidden() if cost == FORBIDDEN_WEIGHT else words.cost(cost)


def instance_words(instance):
    sizes = [words.size(size) for size in instance.sizes]
    return [words.head(len(sizes))] + sizes + entry_words(instance.entries)


def made_words(sheet):
    """The words of the instance made from a sheet; a sheet of no words makes an instance of none."""
    return instance_words(instance_of(read_sheet(sheet))) if sheet else []


def make_instance(sheet, target):
    """The instance made from a sheet, written to the front of the target."""
    try:
        written = made_words(sheet)
        require(len(written) <= len(target), TARGET_TOO_SHORT)
    except Refused as refusal:
        return Made(refusal.number, 0, list(target))
    return Made(GOOD, len(written), written + list(target[len(written):]))
