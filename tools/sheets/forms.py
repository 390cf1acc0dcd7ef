"""The two forms of a sheet as a file's bytes: which of them it is, each made from the other, and why words are refused."""

import re

from common.fault import Fault
from common.words import WORD_BYTES

from .room import room_fault
from .sheet import MAX_WORDS
from .text import read_text, write_text
from .words import read_words, write_words

# So much of a file tells its form: one byte more than a sheet's words may have.
TELLING = WORD_BYTES * MAX_WORDS + 1
# No words begin so: a head has a control byte at place 3, and words of nearly every kind have zero bytes.
TEXT = re.compile(rb"[\t\n\r\x20-\xff]{4}[^\0]*")


def is_text(data):
    """Whether a file that begins with these bytes is text. tools/commands/input.sh has the same rule for where there is no Python."""
    return TEXT.fullmatch(data[:TELLING]) is not None


def text_to_words(data):
    # Bytes that are no UTF-8 may stand in names and comments, which have no words.
    return write_words(read_text(data.decode("utf-8-sig", errors="replace")))


def words_to_text(data):
    return write_text(read_words(data)).encode("ascii")


def refusal_of_words(data):
    """Why the planner refuses words, as a line; nothing where it does not, or only once it has planned them (15)."""
    try:
        reason = room_fault(read_words(data))
    except Fault as fault:
        reason = str(fault)
    return f"{reason}\n".encode("ascii") if reason else b""
