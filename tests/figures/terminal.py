"""How far a long season is, on a terminal alone; and that the program ends with the command.

The program in place of the true one reads a part of its input, as the true one does before it plans a sheet, and waits.
"""

import os
import pty
import re
import select
import signal
import subprocess
import tempfile
import time
from pathlib import Path

from figured import PATIENCE, season_with

SIZE, READ = 2_000, 700
LINE = "3 0 0 0 0 0 0 0 0 0 0 606 312 3"
SHOWN = f"season: 35 % of the file read, {READ} of {SIZE} bytes"
# Until somebody writes to the pipe.
WAITING = f"""#!/bin/sh
head -c {READ} >/dev/null
read -r word <"$PIPE"
echo {LINE}
"""
# Longer than the command waits before it shows something.
SLOW = f"#!/bin/sh\nhead -c {READ} >/dev/null\nsleep 4\necho {LINE}\n"
# Until it is ended.
ENDLESS = f"#!/bin/sh\necho started >\"$PIPE\"\nexec sleep {10 * PATIENCE}\n"


class Terminal:
    """A command with a terminal as its standard output and standard error."""

    def __init__(self, arguments, **options):
        self.ours, theirs = pty.openpty()
        self.command = subprocess.Popen(arguments, stdout=theirs, stderr=theirs, **options)
        os.close(theirs)
        self.said = ""

    def read(self):
        """Takes what has been written; nothing at the end, or where nothing comes for a long time."""
        try:
            ready, _, _ = select.select([self.ours], [], [], PATIENCE)
            piece = os.read(self.ours, 1_000).decode() if ready else ""
        except OSError:
            piece = ""
        self.said += piece
        return piece

    def read_until(self, text):
        last = time.monotonic() + PATIENCE
        while text not in self.said and time.monotonic() < last and self.read():
            pass

    def ended(self):
        """The status, and all that was written."""
        while self.read():
            pass
        os.close(self.ours)
        return self.command.wait(PATIENCE), self.said.replace("\r\n", "\n")


def made_command(folder, program):
    """A command with this program, a file for it, a named pipe, and the environment that both need."""
    command, path = season_with(folder, program)
    file, pipe = folder / "field.season", folder / "pipe"
    file.write_bytes(bytes(SIZE))
    os.mkfifo(pipe)
    return command, file, pipe, dict(os.environ, PATH=path, PIPE=str(pipe))


def check_progress(checks, folder):
    """The line is rewritten, and erased before the figures; a file may be the standard input."""
    command, file, pipe, environment = made_command(folder / "progress", WAITING)
    due = re.compile(rf"(\r{re.escape(SHOWN)}){{2,}}\r {{{len(SHOWN)}}}\r{LINE}\n")
    for argument, source in (file, os.devnull), ("-", file):
        with open(source, "rb") as stdin:
            terminal = Terminal([command, argument], stdin=stdin, env=environment)
        # Twice, so that it was rewritten.
        terminal.read_until(2 * f"\r{SHOWN}")
        pipe.write_text("\n")
        status, said = terminal.ended()
        checks.same(f"the terminal of season {argument}: {said!r}", (status, bool(due.fullmatch(said))), (0, True))


def check_nothing(checks, folder):
    """A season that is planned at once shows nothing, nor does one in a pipe, of which nobody knows how much is read."""
    command, file, _, environment = made_command(folder / "soon", f"#!/bin/sh\necho {LINE}\n")
    checks.same("a short season", Terminal([command, file], env=environment).ended(), (0, f"{LINE}\n"))
    command, file, _, environment = made_command(folder / "slow", SLOW)
    terminal = Terminal(["sh", "-c", 'cat "$1" | "$0" -', command, file], env=environment)
    done = subprocess.run([command, file], capture_output=True, env=environment)
    checks.same("a season in a pipe", terminal.ended(), (0, f"{LINE}\n"))
    checks.same("no terminal", (done.returncode, done.stdout, done.stderr), (0, f"{LINE}\n".encode(), b""))


def check_ended(checks, folder):
    """A command that is interrupted or ended takes its program with it, wherever it is told to end, and leaves no file behind."""
    for number in (signal.SIGINT, signal.SIGTERM, signal.SIGHUP):
        command, file, pipe, environment = made_command(folder / number.name, ENDLESS)
        room = folder / f"room-{number.name}"
        room.mkdir()
        environment["TMPDIR"] = str(room)
        # The other end is held until the last of them has ended.
        ours, theirs = os.pipe()
        running = subprocess.Popen([command, file], env=environment, pass_fds=[theirs], preexec_fn=lambda: reset(number))
        os.close(theirs)
        pipe.read_text()
        running.send_signal(number)
        ready, _, _ = select.select([ours], [], [], PATIENCE)
        checks.same(f"whether all have ended after {number.name}", bool(ready), True)
        checks.same(f"the command after {number.name}", running.wait(PATIENCE) in (-number, 128 + number), True)
        checks.same(f"files left after {number.name}", list(room.iterdir()), [])
        os.close(ours)


def reset(number):
    """A test that runs in the background may have it ignored."""
    signal.signal(number, signal.SIG_DFL)


def run(checks):
    with tempfile.TemporaryDirectory() as made:
        for check in (check_progress, check_nothing, check_ended):
            check(checks, Path(made))
