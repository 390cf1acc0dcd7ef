"""Why the planner refuses sheets of a season: each by its number, those that are too long or cut off too, up to the 10,000th."""

import functools
import random
import resource
import tempfile

import round_trips
from checks import called, ran
from examples import CULVERT, content
from packing import REFUSED
from reference import fields
from reference.answers import GOOD
from reference.fields import NO_HEAD, NO_WORDS, length, season
from refusals import ROOM, crowded
from sheets.forms import refusal_of_words
from unpacking import NO_TEXT, cut_cases
from word_faults import damaged, reference_fault

SHEETS = 300
GIGABYTE = 1 << 30
TOO_LONG = "word 16000: the planner takes 16,000 words at most (refusal 10)"


def reasons(source):
    """What the command prints, line by line, where it succeeds and says nothing else."""
    status, printed, said = called(["season", "why", "-"], source)
    return printed.decode().splitlines() if (status, said) == (0, "") else (status, printed, said)


def check_each(checks):
    good, no_room = content("corner.sheet"), fields.as_bytes(crowded(ROOM + 1))
    # Of the forbidden one nothing is said, since it is refused only once it is planned.
    sheets = [good, *REFUSED.values(), content(f"{CULVERT}.sheet"), no_room]
    lines = [f"sheet {number}: {reason}" for number, reason in enumerate(NO_TEXT.values(), 2)]
    checks.same("refused sheets", reasons(season(sheets)), lines + [f"sheet 7: {refusal_of_words(no_room).decode().strip()}"])
    checks.answers(["season", "why", "examples/three.season"], b"", b"")
    checks.same("no sheets", reasons(b""), [])
    limits = [fields.as_bytes(fields.sheet(*limit)) for limit in round_trips.limits().values()]
    checks.same("sheets at the limits", reasons(season(limits)), [])
    checks.same("sheets of no words", reasons(season([NO_WORDS, NO_HEAD, NO_WORDS])), [f"sheet 2: {NO_TEXT['zeros']}"])


def check_cut(checks):
    """A cut season is not refused as too long, however long the sheet should have been."""
    good = content("corner.sheet")
    for behind, said in cut_cases():
        checks.same(f"a season cut so that {said}", reasons(season([good, NO_HEAD]) + behind),
                    [f"sheet 2: {NO_TEXT['zeros']}", f"sheet 3: {said} (refusal 1)"])
    checks.answers(["season", "why", "examples/corner.sheet"], b"",
                   b"sheet 1: its length is 268,435,458 words, but only 40 bytes are behind it (refusal 1)\n")


def check_last(checks):
    """Nothing is said of what is behind the 10,000th sheet."""
    for behind in (b"", b"\1", season([NO_HEAD, NO_HEAD])):
        lines = reasons(season([NO_HEAD] * 10_000) + behind)
        checks.same(f"10,000 sheets and {behind}", (len(lines), lines[-1]), (10_000, f"sheet 10000: {NO_TEXT['zeros']}"))


def check_damaged(checks):
    """The refusals of damaged sheets are the reference's."""
    rng = random.Random("damaged seasons")
    sheets = [fields.as_bytes(damaged(rng, fields.sheet(*round_trips.random_sheet(rng)))) for _ in range(SHEETS)]
    faults = [(number, *reference_fault(sheet)) for number, sheet in enumerate(sheets, 1)]
    found = [line.split(": ")[:2] + [line.rsplit(" ", 1)[1]] for line in reasons(season(sheets))]
    checks.same("refusals of damaged sheets", found, [[f"sheet {number}", f"word {word}", f"{refusal})"]
                                                      for number, word, refusal in faults if refusal != GOOD])


def check_held(checks):
    """A sheet of a gigabyte is passed over in little memory, and the sheet behind it is read."""
    with tempfile.NamedTemporaryFile() as file:
        file.write(length(GIGABYTE // 4))
        file.seek(GIGABYTE, 1)
        file.write(season([NO_HEAD]))
        file.flush()
        limited = functools.partial(resource.setrlimit, resource.RLIMIT_AS, (GIGABYTE // 2, GIGABYTE // 2))
        checks.same("a sheet of a gigabyte", ran(["season", "why", file.name], b"", preexec_fn=limited),
                    (0, f"sheet 1: {TOO_LONG}\nsheet 2: {NO_TEXT['zeros']}\n".encode(), ""))


def run(checks):
    for check in (check_each, check_cut, check_last, check_damaged, check_held):
        check(checks)
    checks.fails(["season", "why", "nowhere"], b"", "nowhere: No such file or directory")
