"""Sheets, in words or text, packed into a season."""

import os
import tempfile

from common.fault import Failure, Fault
from common.streams import name_of, naming, opened, say, write_out
from common.words import WORD_BYTES, whole_words

from .forms import TELLING, is_text, text_to_words
from .season import LENGTH, MOST_WORDS, ONLY_FIRST, PIECE, PLANNED_SHEETS
from .words import CUT_WORD

# A season of up to so many bytes is held in memory, a larger one in a temporary file.
HELD = 1 << 24


def pack(paths):
    """Packs the sheets in these files to the standard output; nothing is written before the last is known to be good."""
    if paths.count("-") > 1:
        raise Failure(f"{name_of('-')}: it can be one sheet only")
    with tempfile.SpooledTemporaryFile(HELD) as season:
        for number, path in enumerate(paths, 1):
            with naming(f"sheet {number}, {name_of(path)}"), opened(path) as source:
                add_sheet(season, source)
        if len(paths) > PLANNED_SHEETS:
            say(f"{ONLY_FIRST.format(PLANNED_SHEETS)}; this one has {len(paths):,}")
        season.seek(0)
        write_out(pieces_of(season))


def add_sheet(season, source):
    """Adds a sheet behind its length: text as its words, words as they are, whether or not the planner refuses them."""
    start = season.tell()
    season.write(bytes(LENGTH.size))
    size = 0
    for piece in sheet_pieces(source):
        season.write(piece)
        size += len(piece)
        if size > WORD_BYTES * MOST_WORDS:
            raise Fault(f"word {MOST_WORDS}", f"a sheet of a season has at most {MOST_WORDS:,} words")
    season.seek(start)
    season.write(LENGTH.pack(whole_words(size, CUT_WORD)))
    season.seek(0, os.SEEK_END)


def sheet_pieces(source):
    """The bytes of a sheet's words."""
    beginning = source.read(TELLING)
    if is_text(beginning):
        yield text_to_words(beginning + source.read())
    else:
        yield beginning
        yield from pieces_of(source)


def pieces_of(source):
    return iter(lambda: source.read(PIECE), b"")
