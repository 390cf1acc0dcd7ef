"""What the tools answer, run as commands or called in this process."""

import io
import subprocess
import sys
from pathlib import Path
from unittest import mock

from certificates.command import main as certificate_main
from counted import Counted
from sheets.command import main as sheet_main
from tables.command import main as table_main

ROOT = Path(__file__).resolve().parents[2]
SHEET, TABLE, CERTIFICATE = "sheet", "table", "certificate"
MAINS = {SHEET: sheet_main, TABLE: table_main, CERTIFICATE: certificate_main}


class Checks(Counted):
    def answers(self, arguments, source, result, tool=SHEET):
        """The command succeeds with this result and says nothing else."""
        self.same(shown(arguments, tool), ran(arguments, source, tool), (0, result, ""))

    def fails(self, arguments, source, message, tool=SHEET):
        """The command fails with this message and has no result."""
        self.same(shown(arguments, tool), ran(arguments, source, tool), (1, b"", message + "\n"))

    def refuses(self, command, source, fault, tool=SHEET):
        """The same for a fault of what is on standard input, in this process: there are too many for one each. A tool that does one
        thing alone has no word for it."""
        arguments = [command, "-"] if command else ["-"]
        expected = 1, b"", f"standard input, {fault}\n"
        self.same(f"{shown(arguments, tool)}: {fault}", called(arguments, source, tool), expected)


def shown(arguments, tool):
    return " ".join([tool, *arguments])


def path_of(tool):
    return ROOT / "tools" / tool


def ran(arguments, source, tool=SHEET, **options):
    """Exit status, standard output and standard error of the command."""
    done = subprocess.run([path_of(tool), *arguments], input=source, capture_output=True, cwd=ROOT, **options)
    return done.returncode, done.stdout, done.stderr.decode()


def called(arguments, source, tool=SHEET):
    """The same of the command's main function."""
    taken, result, said = io.TextIOWrapper(io.BytesIO(source)), io.TextIOWrapper(io.BytesIO()), io.StringIO()
    with mock.patch.multiple(sys, stdin=taken, stdout=result, stderr=said):
        status = MAINS[tool](arguments)
    return status, result.buffer.getvalue(), said.getvalue()
