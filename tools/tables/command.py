"""The command: reads one file and writes the other shape of its table, or one line that says what is wrong."""

from common.command import status
from common.fault import Failure
from common.streams import name_of, naming, opened, write_out

from .text import read_text, write_text
from .usage import USAGE
from .words import read_words, write_words


def shown(data):
    return write_text(read_words(data)).encode("ascii")


def made(data):
    # Bytes that are no UTF-8 may stand in comments, which have no words.
    return write_words(read_text(data.decode("utf-8-sig", errors="replace")))


COMMANDS = {"show": shown, "make": made}


def main(arguments):
    return status(run, arguments)


def run(arguments):
    if len(arguments) != 2 or arguments[0] not in COMMANDS:
        raise Failure(USAGE)
    command, path = arguments
    with naming(name_of(path)), opened(path) as source:
        result = COMMANDS[command](source.read())
    write_out([result])
