"""The least cost of a sheet by toulbar2, a solver of weighted constraint problems (Debian package toulbar2)."""

import re
import shutil
import subprocess
from typing import NamedTuple

from wcsp import write_wcsp


class Solved(NamedTuple):
    cost: int
    seconds: str        # as the solver prints them


def is_there():
    return shutil.which("toulbar2") is not None


def solved(sheet):
    """Writes the instance beside the sheet and solves it."""
    instance = sheet.with_suffix(".wcsp")
    write_wcsp(sheet, instance)
    done = subprocess.run(["toulbar2", instance], capture_output=True, text=True)
    found = re.search(r"Optimum: (\d+) .* and ([0-9.]+) seconds", done.stdout)
    if not found:
        raise RuntimeError(f"toulbar2 finds no optimum of {sheet.name}:\n{done.stdout}{done.stderr}")
    return Solved(int(found.group(1)), found.group(2))
