"""The files that a command reads and writes, by the names that it was given, and what it says of those that fail."""

import contextlib
import os
import sys

from .fault import Failure, Fault


def say(message):
    print(message, file=sys.stderr)


def name_of(path):
    return "standard input" if path == "-" else path


@contextlib.contextmanager
def naming(name):
    """What fails here is told with this name before it."""
    try:
        yield
    except OSError as error:
        raise Failure(f"{name}: {error.strerror}") from error
    except Fault as fault:
        raise Failure(f"{name}, {fault.place}: {fault.reason}") from fault


def opened(path):
    """The named file to be read, as a context."""
    if path != "-":
        return open(path, "rb")
    if sys.stdin is None:
        raise Failure(f"{name_of(path)}: closed")
    return contextlib.nullcontext(sys.stdin.buffer)


def write_out(pieces):
    """Writes the pieces to the standard output as they come."""
    if sys.stdout is None:
        raise Failure("standard output: closed")
    for piece in pieces:
        with standard_output() as output:
            write_all(output.buffer, piece)
    with standard_output() as output:
        output.flush()


@contextlib.contextmanager
def standard_output():
    with naming("standard output"):
        try:
            yield sys.stdout
        except OSError:
            # What is left in the buffer is not to be tried once more when Python ends.
            os.dup2(os.open(os.devnull, os.O_WRONLY), sys.stdout.fileno())
            raise


def write_all(file, piece):
    """A file without a buffer may take a part at a time."""
    while piece:
        piece = piece[file.write(piece):]
