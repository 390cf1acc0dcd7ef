"""A single sheet in place of a season: its line is printed as it is, and a hint is said where the file can be looked at again."""

import os
import pty
import tempfile
from pathlib import Path

from commands import EXAMPLES
from figured import ONE_REFUSED, PATIENCE, figured, figured_from, season_with
from reference import fields, words
from reference.fields import NO_HEAD, season

NAMES = ["corner", "flooded", "headland", "terraces"]
HINT = "season: {} looks like a single sheet; tools/sheet season pack makes a season from sheets\n"


def read_on(path, passed=0):
    """What season - answers where so many bytes of the file have been read before."""
    with path.open("rb", buffering=0) as file:
        file.seek(passed)
        return figured_from(file)


def single_sheets():
    for name in NAMES:
        for ending in ("txt", "sheet"):
            yield f"{name}.{ending}", (EXAMPLES / f"{name}.{ending}").read_bytes()
    yield "a text after empty lines", b"\n\n\n\n\t" + (EXAMPLES / "corner.txt").read_bytes()
    yield "a text of comments alone", b"# under water\n"
    for stations in (0, 1, 12):
        yield f"a head of {stations}", fields.as_bytes([words.head(stations)])


def no_sheets():
    """Seasons that have the same line, and of which nothing is said."""
    yield "a sheet of zeros", season([bytes(40)])
    yield "a length past the file", fields.as_bytes([3, words.head(1)])
    yield "a length cut off", b"abc"
    for first in (words.head(0) - 1, words.head(13), words.size(1)):
        yield f"a length of {first}", fields.as_bytes([first, 0])


def check_sheet(checks, path, name, source):
    path.write_bytes(source)
    checks.same(f"season of {name}", figured([path]), (0, ONE_REFUSED, HINT.format(path)))
    checks.same(f"season - of {name}", read_on(path), (0, ONE_REFUSED, HINT.format("standard input")))
    checks.same(f"{name} in a pipe", figured(["-"], source), (0, ONE_REFUSED, ""))
    path.write_bytes(season([NO_HEAD]) + source)
    checks.same(f"a sheet without a head and {name}", figured([path]), (0, b"0 2" + ONE_REFUSED[3:], ""))


def check_no_sheet(checks, path, name, source):
    path.write_bytes(source)
    checks.same(f"no sheet, but {name}", figured([path]), (0, ONE_REFUSED, ""))


def check_typed(checks, folder):
    """A sheet typed on a terminal: to look at it again would be to wait for more."""
    command, _ = season_with(folder / "typed", f"#!/bin/sh\ncat >/dev/null\necho {ONE_REFUSED.decode()}")
    ours, theirs = pty.openpty()
    os.write(ours, b"station 0\n\x04")
    checks.same("a sheet typed on a terminal", figured_from(theirs, command, timeout=PATIENCE), (0, ONE_REFUSED, ""))
    os.close(ours)
    os.close(theirs)


def run(checks):
    with tempfile.TemporaryDirectory() as made:
        check_typed(checks, Path(made))
        path = Path(made) / "field"
        for name, source in single_sheets():
            check_sheet(checks, path, name, source)
        for name, source in no_sheets():
            check_no_sheet(checks, path, name, source)
        # Text that somebody else has read says nothing of what is behind it.
        path.write_bytes(b"text" + b"abc")
        checks.same("a length cut off behind a text", read_on(path, 4), (0, ONE_REFUSED, ""))
