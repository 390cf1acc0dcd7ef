"""The commands for seasons: sheets packed, a season taken apart, and why its sheets are refused."""

import itertools

from common.fault import Failure, Fault
from common.streams import name_of, naming, opened, write_out

from .forms import refusal_of_words
from .packing import pack
from .season import PLANNED_SHEETS, packed_sheets
from .sheet import MAX_WORDS
from .unpacking import unpack
from .usage import USAGE
from .words import BAD_HEAD, too_long


def season_command(arguments):
    command, names = arguments[:1], arguments[1:]
    as_text = command == ["unpack"] and names[:1] == ["--text"]
    if command == ["pack"] and names:
        pack(names)
    elif command == ["unpack"] and len(names) == 2 + as_text:
        unpack(*names[as_text:], as_text)
    elif command == ["why"] and len(names) == 1:
        why(*names)
    else:
        raise Failure(USAGE)


def why(path):
    with naming(name_of(path)), opened(path) as source:
        write_out(refusals(source))


def refusals(source):
    """A line for each sheet that the planner reads and refuses unplanned. A season that is cut off ends with a refusal too."""
    try:
        for packed in itertools.islice(packed_sheets(source), PLANNED_SHEETS):
            reason = refusal_of(packed)
            if reason:
                yield f"sheet {packed.number}: ".encode("ascii") + reason
    except Fault as fault:
        yield f"{fault} (refusal {BAD_HEAD})\n".encode("ascii")


def refusal_of(packed):
    """The line of a sheet that is refused. One that is too long is not held, and refused so only where it is not cut off."""
    if packed.words > MAX_WORDS:
        packed.pass_over()
        return f"{too_long()}\n".encode("ascii")
    return refusal_of_words(packed.whole())
