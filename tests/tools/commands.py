"""The command itself: files and standard input, and what is said of files that are not there."""

import os
import subprocess

from checks import SHEET, path_of
from examples import EXAMPLES, content
from reference.fields import as_bytes, forbidden, sheet
from sheets.usage import USAGE
from text_faults import UNKNOWN

# Every kind of line as it is written back, with a place left of and below the mark.
PLACES = [[(0, 0)], [(300, 400), (-5, -1_000_000)]]
ENTRIES = [([(1, 0)], 9), ([(0, 0), (1, 1)], 12), ([], 5), ([(1, 1)], 65_535), ([], 65_535), ([(0, 0), (1, 0)], 65_535),
           forbidden((1, 1)), forbidden((0, 0), (1, 0)), forbidden(), ([(1, 0)], 9)]
TEXT = b"""station 0
  spot 0 at 0.00 0.00
station 1
  spot 0 at 3.00 4.00
  spot 1 at -0.05 -10000.00
cost 9 at 1/0
cost 12 at 0/0 1/1
cost 5
cost 65535 at 1/1
cost 65535
cost 65535 at 0/0 1/0
forbidden 1/1
forbidden 0/0 1/0
forbidden
cost 9 at 1/0
"""


def run(checks):
    words = as_bytes(sheet(PLACES, ENTRIES))
    checks.answers(["text", "-"], words, TEXT)
    checks.answers(["words", "-"], TEXT, words)
    checks.answers(["words", "-"], content("corner.txt"), content("corner.sheet"))
    checks.fails(["words", "examples/corner.plan"], b"",
                 f"examples/corner.plan, line 1: unknown word 'PLAN'; {UNKNOWN}")
    checks.fails(["words", "-"], b"station 0\n", "standard input, line 1: station 0 has no spot")
    checks.fails(["text", "examples/corner.plan"], b"",
                 "examples/corner.plan, word 8: only 2 of its 4 bytes (refusal 1)")
    checks.fails(["words", "examples/none.txt"], b"", "examples/none.txt: No such file or directory")
    checks.fails(["text", "examples"], b"", "examples: Is a directory")
    for arguments in [[], ["words"], ["sheet", "-"], ["text", "-", "-"], ["--help"], *season_misuses()]:
        checks.fails(arguments, b"", USAGE)
    for command, name in [("words", "corner.txt"), ("words", "terraces.txt"), ("text", "terraces.sheet")]:
        checks.same(f"sheet {command} examples/{name} to a full device", written_to_full(command, name),
                    (1, "standard output: No space left on device\n"))


def season_misuses():
    """Commands for seasons that there are not, and names too few and too many."""
    for names in ([], ["pack"], ["unpack"], ["unpack", "-"], ["unpack", "--text", "-"], ["unpack", "-", "a", "b"],
                  ["unpack", "--text", "-", "a", "b"], ["why"], ["why", "-", "-"], ["text", "-"], ["--help"]):
        yield ["season", *names]


def written_to_full(*arguments, tool=SHEET):
    """Exit status and standard error where the standard output takes no byte, but has a buffer before it; files are examples."""
    environment = {name: value for name, value in os.environ.items() if name != "PYTHONUNBUFFERED"}
    with open("/dev/full", "wb") as full:
        done = subprocess.run([path_of(tool), *arguments], stdout=full, stderr=subprocess.PIPE, cwd=EXAMPLES, env=environment)
    return done.returncode, done.stderr.decode()
