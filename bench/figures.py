"""Builds the benchmark's driver and takes its figures: steps, rows, instructions and times of one sheet."""

import os
import re
import shutil
import subprocess
from pathlib import Path
from typing import NamedTuple

BENCH = Path(__file__).resolve().parent
ROOT = BENCH.parent
BUILT = ROOT / "target" / "bench"
# Code lies at multiples of 16 bytes. A short loop that lies across a boundary of 64 bytes can take twice the time with the
# same instructions, so times are taken with the code moved to each of these places, and the least is kept.
PLACES = [0, 16, 32, 48]
DRIVERS = [BUILT / f"driver-{place}" for place in PLACES]
OUTCOMES = ["done", "paused", "refused"]


class Shape(NamedTuple):
    """The form of a run: how it ended, its steps, and the most rows seen."""
    ended: str
    steps: int
    rows: int
    bound: int
    cost: int           # of the assignment found, where the run is done


class Figures(NamedTuple):
    instructions: int
    nanoseconds: int


def proved_library():
    """The archive with the proved library, which `tools/build gotalhim` builds; None where there is none."""
    archive = Path(os.environ.get("GOTALHIM_LIBRARY", ROOT / "target" / "staticlib" / "libgotalhim.a")).resolve()
    return archive if archive.exists() else None


def build_plain():
    """Builds the plain implementation; the options with which a program takes it."""
    subprocess.run([BENCH / "plain" / "build"], check=True)
    return ["--extern", f"plain={ROOT / 'target' / 'plain' / 'libplain.rlib'}"]


def build_driver(library):
    options = build_plain() + (["--cfg", "proved", *linked(library)] if library else [])
    for place, driver in zip(PLACES, DRIVERS):
        build("driver.rs", driver, options, PLACE=str(place))


def linked(library):
    return ["-C", f"link-arg={library}"]


def build(source, program, options, **environment):
    BUILT.mkdir(parents=True, exist_ok=True)
    subprocess.run(["rustc", "-O", "--edition", "2021", BENCH / source, *options, "-o", program], check=True,
                   env=dict(os.environ, **environment))


def driven(driver, what, sheet):
    done = subprocess.run([driver, what, sheet], check=True, capture_output=True, text=True)
    return [int(part) for part in done.stdout.split()]


def shape_of(sheet):
    number, outcome, steps, bound, cost, _first, most, _last = driven(DRIVERS[0], "shape", sheet)
    ended = "full" if number == 12 else OUTCOMES[outcome]
    return Shape(ended, steps, most, bound, cost)


def instructions(implementation, sheet, *more):
    """Instructions from the sheet's words to the plan, as valgrind counts them; 0 where it is not installed.

    For `run_plain` and `run_proved`, of a run of so many steps alone."""
    return counted([DRIVERS[0], implementation, sheet, *more], f"--toggle-collect=bench_{implementation}")


def counted(command, *options, stdin=None, before=()):
    """Instructions of a command, as valgrind counts them; 0 where it is not installed. What stands before is not counted."""
    if not shutil.which("valgrind"):
        return 0
    done = subprocess.run([*before, "valgrind", "--tool=callgrind", "--callgrind-out-file=/dev/null", *options, *command],
                          stdin=stdin, check=True, capture_output=True, text=True)
    return int(re.search(r"Collected : (\d+)", done.stderr).group(1))


def figures_of(implementations, sheet):
    """Instructions and least time of each implementation; the times of a place are taken in one process."""
    times = [min(taken) for taken in zip(*(driven(driver, "times", sheet) for driver in DRIVERS))]
    return [Figures(instructions(implementation, sheet), nanoseconds)
            for implementation, nanoseconds in zip(implementations, times)]
