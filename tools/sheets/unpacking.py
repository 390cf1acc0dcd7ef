"""A season taken apart into a folder of sheets, as words or as text."""

from pathlib import Path

from common.fault import Failure, Fault
from common.streams import name_of, naming, opened, say, write_all

from .forms import TELLING, is_text, words_to_text
from .season import ONLY_FIRST, PLANNED_SHEETS, packed_sheets
from .sheet import MAX_WORDS
from .words import too_long

WORDS, TEXT = "sheet", "txt"


def unpack(path, folder, as_text):
    """Writes each sheet to a file of its own, named by its number."""
    folder = Path(folder)
    with naming(name_of(path)), opened(path) as source:
        make_empty(folder)
        for packed in packed_sheets(source):
            named = f"{name_of(path)}, sheet {packed.number}"
            if packed.number == PLANNED_SHEETS + 1:
                say(f"{named}: {ONLY_FIRST.format(PLANNED_SHEETS)}")
            ending, pieces, fault = text_or_words(packed) if as_text else (WORDS, packed.pieces(), None)
            file = folder / f"{packed.number:05}.{ending}"
            save(file, pieces)
            if fault:
                say(f"{named}, {fault.place}: {fault.reason}; it has no text and is in {file} as words")
            if ending == WORDS and reads_as_text(file):
                say(f"{named}: its bytes read as text, so pack would take {file} for text")


def make_empty(folder):
    """Makes the folder, or takes one in which nothing can be lost or mixed up."""
    with naming(folder):
        folder.mkdir(parents=True, exist_ok=True)
        if any(folder.iterdir()):
            raise Failure(f"{folder}: the folder is not empty")


def text_or_words(packed):
    """The ending and the bytes of a sheet's file: its text, or its words and the fault that leaves it without text."""
    if packed.words > MAX_WORDS:
        return WORDS, packed.pieces(), too_long()
    words = packed.whole()
    try:
        return TEXT, [words_to_text(words)], None
    except Fault as fault:
        return WORDS, [words], fault


def save(path, pieces):
    """Writes a file, or none where a piece cannot be had or written."""
    with naming(path):
        file = open(path, "xb", buffering=0)
    with file:
        try:
            for piece in pieces:
                with naming(path):
                    write_all(file, piece)
        except BaseException:
            path.unlink()
            raise


def reads_as_text(path):
    """Whether a file of words would be packed as text."""
    with naming(path), open(path, "rb") as file:
        return is_text(file.read(TELLING))
