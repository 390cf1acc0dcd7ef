"""A tool as a command: its one line where it fails, and its status."""

import signal
import sys

from .fault import Failure
from .streams import say


def start(main):
    """Ends the process with the status of a tool's main function."""
    # A reader that closes early, as head does, ends the command in silence.
    signal.signal(signal.SIGPIPE, signal.SIG_DFL)
    sys.exit(main(sys.argv[1:]))


def status(run, arguments):
    """Runs a tool with these arguments; 1 where it fails, which is said."""
    try:
        run(arguments)
    except Failure as failure:
        say(failure)
        return 1
    return 0
