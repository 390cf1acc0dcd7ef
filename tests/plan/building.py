"""What a command says while it proves and builds its program, with a toolchain that only prints what the true one prints."""

import os
import pty
import shutil
import subprocess
import tempfile
from pathlib import Path
from typing import NamedTuple

from commands import EXAMPLES, ROOT, linked, planned, tools_without

CRATES = """# two that the programs take, and one that they do not
words:           # the first
table: words
beside: words
planner: table   # a program
season: table    # another
"""
# The programs that a command is given in place of the true ones.
PROGRAMS = ["planner", "season", "converter", "verify", "certify"]
# It is called in a crate's folder. It reads all that it is given, which must not be the file that is to be planned, and what the program that it
# has built writes is no answer.
TOOLCHAIN = """#!/bin/sh
[ "$*" = run ] || exit 9
[ "$(cat)" = "the crate's own input" ] || exit 8
crate=${PWD##*/}
{
    for proved in words table "$crate"; do
        echo "fn $proved::read: proved"
        echo 'logic=proved functions=1 sum=0'
    done
    echo "rt: running out/$crate"
} >&2
mkdir -p out
cp ../../program "out/$crate"
echo 'PLAN of the crate'
"""
FAILING = "#!/bin/sh\n{ echo 'logic=proved functions=1 sum=0'; echo 'logic=not-proved functions=1'; } >&2\nexit 1\n"


class Command(NamedTuple):
    """A command of the README, a file for it, and the answer of a program in place of the true one."""
    name: str
    file: Path
    answer: str

    def program(self):
        """It answers where it gets the whole file."""
        return f'#!/bin/sh\n[ "$(wc -c)" -eq {self.file.stat().st_size} ] && echo {self.answer}\n'

    def first(self):
        return f"{self.name}: proving and building the program; the first time takes some minutes\n"

    def counted(self):
        """What is said of a build where the standard error is no terminal."""
        return self.first() + "".join(f"{self.name}: {count} of 3 crates proved\n" for count in (1, 2, 3))

    def rewritten(self):
        """The same on a terminal."""
        return self.first() + "".join(f"\r{self.name}: {count} of 3 crates proved" for count in (1, 2, 3)) + "\n"

    def answered(self, said):
        return 0, f"{self.answer}\n".encode(), said

    def ran(self, folder, path):
        """What the command of a repository does with the file."""
        return planned([self.file], command=folder / self.name, path=path)


PLAN = Command("plan", EXAMPLES / "corner.sheet", "PLAN")
SEASON = Command("season", EXAMPLES / "three.season", "14 13 12 11 10 9 8 7 6 5 4 3 2 1")


def repository(folder, program, toolchain=TOOLCHAIN):
    """A repository of three crates and two programs, which are built as this one, and a search path with this toolchain."""
    folder.mkdir()
    for crate in PROGRAMS:
        (folder / "crates" / crate).mkdir(parents=True)
        (folder / "crates" / crate / "stdin").write_text("the crate's own input")
    (folder / "crates.txt").write_text(CRATES)
    for command in ("plan", "season"):
        shutil.copy(ROOT / command, folder)
    shutil.copytree(ROOT / "tools", folder / "tools")
    path = linked(folder / "path", tools_without("rt"))
    for file, text in (folder / "program", program), (folder / "path" / "rt", toolchain):
        if text:
            file.write_text(text)
            file.chmod(0o755)
    return folder, path


def on_a_terminal(command, file, path):
    """What the command writes to a standard error that is a terminal."""
    ours, theirs = pty.openpty()
    subprocess.run([command, file], stdout=subprocess.DEVNULL, stderr=theirs, env=dict(os.environ, PATH=path), check=True)
    os.close(theirs)
    said = os.read(ours, 10_000).decode()
    os.close(ours)
    return said.replace("\r\n", "\n")


def check_building(checks, made, command):
    """A build, none where nothing has changed, and another where something has."""
    folder, path = repository(made / "plain", command.program())
    checks.same("the first run", command.ran(folder, path), command.answered(command.counted()))
    checks.same("the second run", command.ran(folder, path), command.answered(""))
    (folder / "crates" / "changed").write_text("")
    checks.same("a run after a change", command.ran(folder, path), command.answered(command.counted()))
    folder, path = repository(made / "terminal", command.program())
    checks.same("the first run on a terminal", on_a_terminal(folder / command.name, command.file, path), command.rewritten())


def check_failures(checks, made, command):
    folder, path = repository(made / "failing", command.program(), FAILING)
    checks.same("a failing toolchain", command.ran(folder, path),
                (1, b"", f"{command.first()}{command.name}: 1 of 3 crates proved\n"
                 f"{command.name}: the program could not be proved and built; see target/{command.name}.log\n"))
    checks.same("the log of a failing toolchain", (folder / "target" / f"{command.name}.log").read_text(),
                "logic=proved functions=1 sum=0\nlogic=not-proved functions=1\n")
    folder, path = repository(made / "without", command.program(), None)
    checks.same("no toolchain", command.ran(folder, path),
                (1, b"", f"{command.name}: the Rattle toolchain's command rt is not installed\n"))


def check_standard_input(checks, made, command):
    """What is built first leaves the standard input to the program."""
    folder, path = repository(made / "input", command.program())
    checks.same("the first run on the standard input",
                planned(["-"], command.file.read_bytes(), command=folder / command.name, path=path),
                command.answered(command.counted()))


def check_command(checks, command):
    with tempfile.TemporaryDirectory() as made:
        for check in (check_building, check_failures, check_standard_input):
            check(checks, Path(made), command)


def run(checks):
    check_command(checks, PLAN)
