"""Where there is no answer: one line that says why, status 1, and no new file; the command's help, and how it builds."""

import os
import shutil
import socket
import tempfile
from pathlib import Path

import building
from commands import ROOT
from converted import converted, converted_to_full, files_in
from reference.fields import as_bytes, table
from reference.forms import FIVE

USAGE = "usage: convert six OLD NEW, or convert five NEW OLD; convert --help says more"
ROWS = "--rows takes a number of rows, at most 4096"
OLD = as_bytes(table([2], "1:9", 8, FIVE))
HELP = [b"usage: convert six OLD NEW [--rows N]", b"convert five NEW OLD [--rows N]", b"24,590", b"    9 ", b"    10 ", b"    12 ",
        b"    16 ", b"268,435,455", b"tools/table show FILE", b"The exit status is 0"]
# Programs in place of the true one, and what is said of each.
PROGRAMS = {
    "silent": ("cat >/dev/null", "the program gave no answer"),
    "failing": ("cat >/dev/null; echo REFUSED 9; exit 3", "the program ended with status 3"),
    "short": ("cat >/dev/null; printf 1234567", "the program's answer is unknown"),
    "talking": ("cat >/dev/null; echo REFUSED 9 9", "the program's answer is unknown"),
}


def check_arguments(checks, folder):
    first = str(folder / "first")
    for arguments, said in [([], USAGE), (["six"], USAGE), (["six", first], USAGE), (["six", first, "a", "b"], USAGE),
                            (["seven", first, "a"], USAGE), (["six", first, "a", "--rows"], ROWS), (["six", first, "a", "--rows", "4097"], ROWS),
                            (["six", first, "a", "--rows", "-1"], ROWS), (["six", first, "a", "--rows", "many"], ROWS),
                            (["six", first, "a", "--rows", "99999"], ROWS)]:
        checks.same(f"convert {' '.join(arguments)}", converted(arguments), (1, b"", f"convert: {said}\n"))
    for arguments in (["--help"], ["-h"], ["six", "--help"]):
        status, printed, said = converted(arguments)
        checks.same(f"convert {' '.join(arguments)}", (status, said), (0, ""))
        for part in HELP:
            checks.same(f"convert --help has {part}", part in printed, True)


def check_files(checks, folder):
    """Files that cannot be read and names that cannot be written."""
    first, new, other = folder / "first", folder / "new", folder / "other"
    other.symlink_to(first)
    same = "is the file that is read; the new table needs a file of its own"
    for arguments, said in [([folder / "nowhere", new], f"there is no file {folder / 'nowhere'}"),
                            ([folder, new], f"{folder} is a directory"),
                            (["/proc/self/mem", new], "cannot read /proc/self/mem"), ([first, first], f"{first} {same}"),
                            ([first, f"{folder}/../{folder.name}/first"], f"{folder}/../{folder.name}/first {same}"),
                            ([first, other], f"{other} {same}"), ([other, first], f"{first} {same}"),
                            ([first, folder], f"{folder} is a directory"),
                            ([first, "/dev/null"], "/dev/null is no ordinary file"),
                            ([first, folder / "none" / "new"], f"there is no directory {folder / 'none'}")]:
        checks.same(f"convert six {arguments}", converted(["six", *arguments]), (1, b"", f"convert: {said}\n"))
    with socket.socket(socket.AF_UNIX) as made:
        made.bind(str(folder / "socket"))
        checks.same("convert of a socket", converted(["six", folder / "socket", new]),
                    (1, b"", f"convert: cannot read {folder / 'socket'}\n"))
    checks.same("what is left of these", files_in(folder), {"first": OLD, "other": OLD})
    checks.same("convert with no room for temporary files", converted(["six", first, new], TMPDIR=str(folder / "none")),
                (1, b"", "convert: no temporary file can be made\n"))


def check_places(checks, folder):
    """A folder that takes no file, where that binds whoever tests, and a standard output that takes no line: the file is there then."""
    first, closed = folder / "first", folder / "closed"
    closed.mkdir()
    closed.chmod(0o555)
    if not os.access(closed, os.W_OK):
        checks.same("convert to a closed folder", converted(["six", first, closed / "new"]),
                    (1, b"", f"convert: cannot write {closed / 'new'}\n"))
    done = converted_to_full(["six", first, folder / "new"])
    checks.same("convert to a full device", done, (1, "convert: the new file was written; the line that says so cannot be"))
    checks.same("the file written with it", len(files_in(folder)["new"]), len(OLD) + 4)


def made_repository(folder, program, toolchain=building.TOOLCHAIN):
    """A repository of three crates whose converter is this program, and a search path with this toolchain."""
    made, path = building.repository(folder, program, toolchain)
    shutil.copy(ROOT / "convert", made)
    (made / "crates.txt").write_text(building.CRATES + "converter: table\n")
    return made / "convert", path


def check_programs(checks, folder):
    for name, (text, said) in PROGRAMS.items():
        command, path = made_repository(folder / name, f"#!/bin/sh\n{text}\n")
        status, printed, told = converted(["six", folder / "first", folder / "new"], command=command, path=path)
        checks.same(f"a {name} program", (status, printed, told.splitlines()[-1]), (1, b"", f"convert: {said}"))
        checks.same(f"what a {name} program leaves", (folder / "new").exists(), False)


def check_building(checks, folder):
    """A build before the first answer, none where nothing has changed, and a toolchain that fails."""
    first = "convert: proving and building the program; the first time takes some minutes\n"
    counted = first + "".join(f"convert: {count} of 3 crates proved\n" for count in (1, 2, 3))
    answer = f"convert: {folder / 'first'}: refused with number 99, which convert --help explains (refusal 99)\n"
    command, path = made_repository(folder / "building", "#!/bin/sh\ncat >/dev/null\necho REFUSED 99\n")
    for what, said in (("the first run", counted + answer), ("the second run", answer)):
        checks.same(what, converted(["six", folder / "first", folder / "new"], command=command, path=path), (2, b"", said))
    command, path = made_repository(folder / "broken", "#!/bin/sh\n", building.FAILING)
    checks.same("a failing toolchain", converted(["six", folder / "first", folder / "new"], command=command, path=path),
                (1, b"", f"{first}convert: 1 of 3 crates proved\n"
                 "convert: the program could not be proved and built; see target/convert.log\n"))


def run(checks):
    for check in (check_arguments, check_files, check_places, check_programs, check_building):
        with tempfile.TemporaryDirectory() as made:
            folder = Path(made).resolve()
            (folder / "first").write_bytes(OLD)
            check(checks, folder)
