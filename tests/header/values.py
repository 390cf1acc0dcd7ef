"""What the header defines, against the reference: numbers, outcomes, limits, and the capacity of a table of either form."""

import re

from reference import answers, limits
from reference.forms import FIVE, SIX
from reference.tables import capacity

# The outcomes of a run have no numbers in the reference, but the comparisons with it have these.
OUTCOMES = {"DONE": 0, "PAUSED": 1, "STOPPED": 2}
LIMITS = ["MAX_VARIABLES", "MAX_ROWS", "ROW_WORDS", "FIVE_ROW_WORDS", "FORBIDDEN_WEIGHT", "MAX_WEIGHT", "FIVE_MAX_WEIGHT"]
VERSION = ["VERSION_MAJOR", "VERSION_MINOR", "VERSION_PATCH"]
# Names with a value of their own, not those of macros with arguments.
DEFINED = re.compile(r"^(?:#define|   ) GOTALHIM_(\w+) ", re.MULTILINE)
PRINTED = re.compile(r"^GOTALHIM_(\w+) (\S+)$", re.MULTILINE)
# Of six words each and then of five, over each of these numbers of variables.
CAPACITY = re.compile(r"^rows of (\d+) words:((?: \d+)+)$", re.MULTILINE)
VARIABLES = (0, 1, 12)
LENGTHS = 300


def due():
    """The value of every name but those of the version and the stack."""
    numbers = {name: value for name, value in vars(answers).items() if name.isupper()}
    return {**OUTCOMES, **numbers, **{name: getattr(limits, name) for name in LIMITS}}


def run(checks, header, printed):
    """Checks what the program printed; the bytes of stack that the header speaks of."""
    values = dict(PRINTED.findall(printed))
    checks.same("the names printed", sorted(values), sorted(DEFINED.findall(header)))
    checks.same("the version", values.pop("VERSION"), ".".join(values.pop(part) for part in VERSION))
    stack = int(values.pop("STACK_BYTES"))
    checks.same("names and values", {name: int(value) for name, value in values.items()}, due())
    rows = CAPACITY.findall(printed)
    checks.same("lengths tried", len(rows), LENGTHS)
    for words, room in rows:
        checks.same(f"the rows of {words} words", [int(count) for count in room.split()],
                    [max(capacity(variables, int(words), form), 0) for form in (SIX, FIVE) for variables in VARIABLES])
    return stack
