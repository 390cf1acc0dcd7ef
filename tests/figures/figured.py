"""The command ./season, run as a user runs it, with the true program or one in its place."""

import subprocess
from functools import partial

import building
from commands import SEASON, planned, planned_to_full

figured = partial(planned, command=SEASON)
figured_to_full = partial(planned_to_full, command=SEASON)

# Seconds, more than anything here takes; only a failing check waits so long.
PATIENCE = 60

NONE = b"0 0 0 0 0 0 0 0 0 0 0 0 0 0\n"
ONE_REFUSED = b"0 1 0 0 0 0 0 0 0 0 0 0 0 0\n"
THREE = b"3 0 0 0 0 0 0 0 0 0 0 606 312 3\n"


def figured_from(stdin, command=SEASON, **options):
    """Exit status, standard output and standard error of season -, where that is this file."""
    done = subprocess.run([command, "-"], stdin=stdin, capture_output=True, **options)
    return done.returncode, done.stdout, done.stderr.decode()


def season_with(folder, program):
    """A command that has this program, as if it had built it, and its search path."""
    made, path = building.repository(folder, program)
    (made / "target" / "bin").mkdir(parents=True)
    (made / "program").rename(made / "target" / "bin" / "season")
    (made / "target" / "season.built").touch()
    return made / "season", path
