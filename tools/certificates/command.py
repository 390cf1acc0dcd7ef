"""The command: reads a certificate and writes its text, or one line that says what is wrong with it."""

from common.command import status
from common.fault import Failure
from common.streams import name_of, naming, opened, write_out

from .text import write_text
from .usage import USAGE
from .words import read_words


def main(arguments):
    return status(run, arguments)


def run(arguments):
    if len(arguments) != 1 or arguments[0] in ("-h", "--help"):
        raise Failure(USAGE)
    path = arguments[0]
    with naming(name_of(path)), opened(path) as source:
        result = write_text(read_words(source.read())).encode("ascii")
    write_out([result])
