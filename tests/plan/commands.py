"""The README's commands, run as a user runs them."""

import os
import subprocess
from pathlib import Path

ROOT = Path(__file__).resolve().parents[2]
PLAN = ROOT / "plan"
SEASON = ROOT / "season"
EXAMPLES = ROOT / "examples"


def planned(arguments, source=b"", command=PLAN, path=None, **variables):
    """Exit status, standard output and standard error; the search path for commands may be another one, and so may variables."""
    environment = dict(os.environ, **variables, **({"PATH": path} if path else {}))
    done = subprocess.run([command, *arguments], input=source, capture_output=True, cwd=ROOT, env=environment)
    return done.returncode, done.stdout, done.stderr.decode()


def planned_to_full(arguments, command=PLAN):
    """Exit status and last line of standard error where standard output takes no byte."""
    with open("/dev/full", "wb") as full:
        done = subprocess.run([command, *arguments], stdout=full, stderr=subprocess.PIPE, cwd=ROOT)
    return done.returncode, done.stderr.decode().splitlines()[-1]


def check_arguments(checks, name, answered, to_full, example, unwritten, parts):
    """What a command says of its arguments and of an answer that cannot be written, and that its help has these parts."""
    usage = f"{name}: usage: {name} FILE, or {name} - for the standard input; {name} --help says more\n"
    missing = "nowhere" + Path(example).suffix
    for arguments, said in [([], usage), (["-", "-"], usage), ([missing], f"{name}: there is no file {missing}\n"),
                            (["examples"], f"{name}: examples is a directory\n")]:
        checks.same(f"{name} {' '.join(arguments)}", answered(arguments), (1, b"", said))
    checks.same(f"{name} to a full device", to_full([example]), (1, f"{name}: {unwritten}"))
    checks.same(f"{name} with no room for temporary files", answered([example], TMPDIR=str(ROOT / "nowhere")),
                (1, b"", f"{name}: no temporary file can be made\n"))
    status, printed, said = answered(["--help"])
    checks.same(f"{name} --help", (status, said), (0, ""))
    for part in parts:
        checks.same(f"{name} --help has {part}", part in printed, True)


def tools_without(*missing):
    """The commands that may be called, but for these, as a dictionary of names and files."""
    path = {name: Path(folder) / name for folder in reversed(os.get_exec_path()) if os.path.isdir(folder)
            for name in os.listdir(folder)}
    return {name: file for name, file in path.items() if name not in missing}


def linked(folder, tools):
    """A folder that has these commands alone, as a search path."""
    folder.mkdir()
    for name, file in tools.items():
        (folder / name).symlink_to(file)
    return str(folder)
