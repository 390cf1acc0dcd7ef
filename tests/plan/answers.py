"""Sheets of every outcome: the program's bytes as they are, the status, and the line that says why there is no plan."""

import re
import tempfile
from pathlib import Path

from building import repository
from commands import planned
from reference import words
from reference.fields import as_bytes
from reference.limits import FORBIDDEN_WEIGHT, MAX_WEIGHT
from sheets import EXAMPLE, all_sheets
from stored import stored

ALL_FORBIDDEN = "every plan has a forbidden combination of spots"
# How the names of sheets begin that are not planned and have an empty row as it is.
NOT_PLANNED = ("paused-", "full-in-the-run-")
# What no program prints, the last without its line end.
NO_ANSWERS = ["PAUSED 9 BOUND\\n", "FULL 9 BOUND x\\n", "FULL\\n", "PAUSED x BOUND 5\\n", "PAUSED 9 LIMIT 5\\n", "REFUSED\\n", "PLANNED\\n",
              "FULL 9 BOUND 99999999999999999999\\n", "FULL 9 BOUND 5"]
STATUS = {"PLAN": 0, "REFUSED": 2, "PAUSED": 3, "FULL": 3}
PAUSED = "plan: standard input: not planned within {} steps, the most that the program makes; {}\n"
FULL = "plan: standard input: not planned: after {} steps the next one has no room in the program's table; {}\n"


def due(text):
    """The status of an answer, and a pattern for what is said of it."""
    outcome, *fields = text.decode().split("\n")[0].split()
    if outcome == "REFUSED":
        said = rf"plan: standard input: [^\n]+ \(refusal {fields[0]}\)\n"
    elif outcome == "PLAN":
        said = ""
    else:
        steps, _, bound = fields
        said = re.escape((PAUSED if outcome == "PAUSED" else FULL).format(steps, said_by(int(bound))))
    return STATUS[outcome], said


def said_by(bound):
    """A bound of so much is reached only where every plan has a forbidden combination."""
    return ALL_FORBIDDEN if bound >= FORBIDDEN_WEIGHT else f"no plan costs less than {bound}"


def check_sheet(checks, name, source, text):
    status, said = due(text)
    got, printed, told = planned(["-"], source)
    checks.same(f"status and answer for {name}", (got, printed), (status, text))
    checks.same(f"what is said of {name}: {told}", bool(re.fullmatch(said, told)), True)


def check_bounds(checks, sheets, expected):
    """A sheet that is not planned, with an entry that forbids every plan: this adds to the bound and changes no step."""
    outcomes = set()
    for name in filter(lambda name: name.startswith(NOT_PLANNED), sheets):
        outcome, steps, _, bound = expected[name].decode().split()
        text = f"{outcome} {steps} BOUND {int(bound) + FORBIDDEN_WEIGHT}\n".encode()
        check_sheet(checks, f"{name}, forbidden", sheets[name] + as_bytes([words.forbidden()]), text)
        outcomes.add(outcome)
    checks.same("outcomes with a forbidden constant", outcomes, {"PAUSED", "FULL"})


def check_program(checks, folder, text, due):
    """The status and what is said last, with a program that prints this text in place of the true one."""
    made, path = repository(folder, f"#!/bin/sh\nprintf '{text}'\n")
    status, printed, told = planned(["-"], as_bytes(EXAMPLE), command=made / "plan", path=path)
    checks.same(f"what is said of {text}", (status, printed, told.splitlines(keepends=True)[-1]),
                (due[0], text.replace("\\n", "\n").encode(), due[1]))


def check_edge(checks, folder):
    """The highest bound that is told and the lowest that is not, and the greatest of all; what is no answer tells nothing."""
    for bound in (FORBIDDEN_WEIGHT - 1, FORBIDDEN_WEIGHT, MAX_WEIGHT):
        check_program(checks, folder / str(bound), f"PAUSED 9 BOUND {bound}\\n", (STATUS["PAUSED"], PAUSED.format(9, said_by(bound))))
    for at, text in enumerate(NO_ANSWERS):
        check_program(checks, folder / str(at), text, (1, "plan: the program's answer is unknown\n"))


def run(checks):
    expected, sheets = stored(), dict(all_sheets())
    for name, source in sheets.items():
        check_sheet(checks, name, source, expected[name])
    check_bounds(checks, sheets, expected)
    with tempfile.TemporaryDirectory() as made:
        check_edge(checks, Path(made))
    checks.same("a refusal in full", planned(["-"], as_bytes(EXAMPLE + [words.binding(2, 0), words.cost(1)])),
                (2, b"REFUSED 3\n",
                 "plan: standard input: word 11: there is no station 2; the last one is 1 (refusal 3)\n"))
