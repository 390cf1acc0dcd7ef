"""A season: sheets in words, one behind the other, each with its length in words before it, one plain word of 32 bits."""

import itertools
import struct

from common.fault import Fault
from common.words import WORD_BYTES

LENGTH = struct.Struct("<I")
MOST_WORDS = (1 << 32) - 1      # the highest length
PLANNED_SHEETS = 10_000         # the planner reads none behind these
PIECE = 1 << 16                 # bytes that are held at a time

# What is said of a season of more sheets.
ONLY_FIRST = "only the first {:,} sheets of a season are planned"


class Packed:
    """A sheet of a season that is being read: its number, counted from 1, its length in words, and its bytes."""

    def __init__(self, number, words, source):
        self.number = number
        self.words = words
        self.source = source
        self.left = WORD_BYTES * words

    def pieces(self):
        """Its bytes from where they were left; a fault where the season ends before them."""
        while self.left:
            piece = self.source.read(min(self.left, PIECE))
            if not piece:
                behind = WORD_BYTES * self.words - self.left
                raise Fault(f"sheet {self.number}", f"its length is {self.words:,} words, but only {behind:,} bytes are behind it")
            self.left -= len(piece)
            yield piece

    def whole(self):
        return b"".join(self.pieces())

    def pass_over(self):
        for _ in self.pieces():
            pass


def packed_sheets(source):
    """The sheets of a season, each to be read to its end before the next."""
    for number in itertools.count(1):
        length = source.read(LENGTH.size)
        if not length:
            return
        if len(length) < LENGTH.size:
            raise Fault(f"sheet {number}", f"only {len(length)} of the {LENGTH.size} bytes of its length")
        yield Packed(number, *LENGTH.unpack(length), source)
