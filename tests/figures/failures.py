"""Where there is no answer: one line that says why, nothing on the standard output, and status 1; and the command's help."""

import os
import socket
import tempfile
from pathlib import Path

from commands import EXAMPLES, check_arguments
from figured import THREE, figured, figured_from, figured_to_full, season_with

UNREADABLE = "season: the season cannot be read\n"
LINE = THREE.decode().strip()
# Programs in place of the true one, and what is said of each.
PROGRAMS = {
    "silent": ("exit 0", "season: the program gave no answer\n"),
    "failing": (f"echo {LINE}; exit 3", "season: the program ended with status 3\n"),
    "killed": ("kill -9 $$", "season: the program ended with status 137\n"),
    "complaining": ("echo 'season: the season cannot be read' >&2", UNREADABLE),
    "cut": (f"printf '{LINE}'", f"season: the program's answer is unknown: {LINE}\n"),
    "talking": (f"echo {LINE}; head -c 200000 /dev/zero", "season: the program ended with status 141\n"),
    "short": ("echo 1 2 3", "season: the program's answer is unknown: 1 2 3\n"),
    "astray": ("echo PLAN", "season: the program's answer is unknown: PLAN\n"),
}


def check_season_arguments(checks):
    parts = (b"usage: season FILE", b"A length of 0 is a\n", b"one line of 14 numbers",
             b"2 to 6    how many were refused under 1, 2, 3, 4 and 5", b"9         refused under 15", b"14        the first sheet",
             b"tools/sheet season pack", b"The exit status is 0")
    check_arguments(checks, "season", figured, figured_to_full, "examples/three.season", "the figures cannot be written", parts)


def check_unreadable(checks, folder):
    """Files that cannot be opened, files whose reads fail, and a standard input that is closed."""
    path = folder / "socket"
    with socket.socket(socket.AF_UNIX) as made:
        made.bind(str(path))
        checks.same("season of a socket", figured([path]), (1, b"", f"season: cannot read {path}\n"))
    checks.same("season of a file whose read fails", figured(["/proc/self/mem"]), (1, b"", UNREADABLE))
    directory = os.open(EXAMPLES, os.O_RDONLY)
    checks.same("season - of a directory", figured_from(directory), (1, b"", UNREADABLE))
    os.close(directory)
    checks.same("season - where that is closed", figured_from(None, preexec_fn=lambda: os.close(0)),
                (1, b"", "season: the standard input is closed\n"))


def check_programs(checks, folder):
    for name, (text, said) in PROGRAMS.items():
        command, path = season_with(folder / name, f"#!/bin/sh\n{text}\n")
        checks.same(f"a {name} program", figured([EXAMPLES / "three.season"], command=command, path=path), (1, b"", said))


def run(checks):
    with tempfile.TemporaryDirectory() as made:
        check_unreadable(checks, Path(made))
        check_programs(checks, Path(made))
    check_season_arguments(checks)
