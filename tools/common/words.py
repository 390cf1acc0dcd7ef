"""Words in a file: 32 bits, the top four the word's kind, the rest its payload; little-endian."""

import struct

from .fault import Fault
from .field import MAX_SIZE, MAX_VARIABLES

WORD_BYTES = 4
PAYLOADS = 1 << 28

HEAD = 1
SIZE = 2        # document 01: station word


def word(kind, payload):
    """A payload below zero is stored as two's complement."""
    return kind * PAYLOADS + payload % PAYLOADS


def packed(words):
    """The bytes of a file."""
    return struct.pack(f"<{len(words)}I", *words)


def unpacked(data):
    """The words in a file's bytes, which are whole ones."""
    return struct.unpack(f"<{len(data) // WORD_BYTES}I", data)


def whole_words(size, refusal=""):
    """How many words so many bytes are; a fault, which may end with the planner's number, where the last one is cut off."""
    whole, rest = divmod(size, WORD_BYTES)
    if rest:
        raise Fault(f"word {whole}", f"only {rest} of its {WORD_BYTES} bytes{refusal}")
    return whole


class Reader:
    """The words and how many were taken; a fault names the word taken last, also where that one is missing."""

    def __init__(self, words, holder):
        self.words = words
        self.holder = holder    # what the words make up: a sheet, a table, a certificate
        self.taken = 0

    def ended(self):
        return self.taken == len(self.words)

    def refuse(self, number, reason):
        raise Fault(f"word {self.taken - 1}", f"{reason} (refusal {number})")

    def take(self, number, due):
        """Kind and payload of the next word."""
        self.taken += 1
        if self.taken > len(self.words):
            self.refuse(number, f"the {self.holder} ends where {due} is due")
        return divmod(self.words[self.taken - 1], PAYLOADS)

    def take_kind(self, kind, number, due):
        found, payload = self.take(number, due)
        if found != kind:
            self.refuse(number, f"a word of kind {found} where {due} is due, a word of kind {kind}")
        return payload

    def take_stations(self, number):
        """How many stations the head names."""
        stations = self.take_kind(HEAD, number, "the number of stations")
        if stations > MAX_VARIABLES:
            self.refuse(number, f"{stations} stations; a field has at most {MAX_VARIABLES}")
        return stations

    def take_spots(self, station, number):
        """How many spots a station has."""
        spots = self.take_kind(SIZE, number, f"the number of spots of station {station}")
        if not 1 <= spots <= MAX_SIZE:
            self.refuse(number, f"station {station} with {spots} spots; a station has 1 to {MAX_SIZE}")
        return spots
