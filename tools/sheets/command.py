"""The command: reads one file, writes the other form of its sheet, or one line that says what is wrong. Seasons have their own."""

from common.command import status
from common.fault import Failure
from common.streams import name_of, naming, opened, write_out

from .forms import refusal_of_words, text_to_words, words_to_text
from .season_command import season_command
from .usage import USAGE

COMMANDS = {"words": text_to_words, "text": words_to_text, "why": refusal_of_words}


def main(arguments):
    return status(run, arguments)


def run(arguments):
    if arguments[:1] == ["season"]:
        season_command(arguments[1:])
    elif len(arguments) == 2 and arguments[0] in COMMANDS:
        command, path = arguments
        with naming(name_of(path)), opened(path) as source:
            result = COMMANDS[command](source.read())
        write_out([result])
    else:
        raise Failure(USAGE)
