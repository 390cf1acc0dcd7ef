"""The line of numbers for seasons of every outcome, however the file comes; nothing else is said, and the status is 0."""

import subprocess
import tempfile
from pathlib import Path

from commands import EXAMPLES, SEASON
from figured import NONE, ONE_REFUSED, THREE, figured, figured_from
from reference.fields import NO_HEAD, NO_WORDS, season
from sheets import all_sheets

# A sheet of each outcome, in the order of the numbers.
OUTCOMES = ["example", "1-no-head", "2-cut-at-1", "3-no-cost", "4-highest", "5-4097-entries", "sheet-of-16001-words",
            "12-2665-rows-encoded", "15-all-spots", "paused-16001-steps", "full-2665-rows-after-a-step"]


def cases():
    """Seasons as bytes, and their lines."""
    sheets = dict(all_sheets())
    corner, three = sheets["example"], (EXAMPLES / "three.season").read_bytes()
    yield "no sheets", b"", NONE
    yield "three sheets", three, THREE
    yield "each outcome", season([sheets[name] for name in OUTCOMES]), b"1 1 1 1 1 1 1 1 1 1 1 10 10 1\n"
    yield "each outcome, the last first", season([sheets[name] for name in OUTCOMES[::-1]]), b"1 1 1 1 1 1 1 1 1 1 1 10 10 11\n"
    yield "the first of two equal costs", season([NO_HEAD, corner, NO_HEAD, corner]), b"2 2 0 0 0 0 0 0 0 0 0 20 10 2\n"
    yield "a cost of 0", season([NO_HEAD, sheets["one-station"]]), b"1 1 0 0 0 0 0 0 0 0 0 0 0 2\n"
    yield "a length of 0", season([NO_WORDS]), b"1 0 0 0 0 0 0 0 0 0 0 0 0 1\n"
    yield "lengths of 0 beside others", season([NO_HEAD, NO_WORDS, corner, NO_WORDS]), b"3 1 0 0 0 0 0 0 0 0 0 10 10 3\n"
    yield "no stations", season([NO_WORDS, (EXAMPLES / "flooded.sheet").read_bytes()]), b"2 0 0 0 0 0 0 0 0 0 0 155 155 2\n"
    yield "a last sheet cut off", three[:-1], b"2 1 0 0 0 0 0 0 0 0 0 294 284 2\n"
    yield "a length cut off", three + b"\1", b"3 1 0 0 0 0 0 0 0 0 0 606 312 3\n"
    yield "a long sheet passed over", season([bytes(64_004), corner]), b"1 0 0 0 0 0 1 0 0 0 0 10 10 2\n"


def check_ways(checks, folder):
    """A file, the standard input as a file and as a pipe, and a pipe that has a name."""
    path = folder / "field.season"
    for name, source, line in cases():
        path.write_bytes(source)
        checks.same(f"season of {name}", figured([path]), (0, line, ""))
        checks.same(f"season - of {name}", figured(["-"], source), (0, line, ""))
        with path.open("rb") as file:
            checks.same(f"season - of {name} as a file", figured_from(file), (0, line, ""))
    checks.same("season /dev/stdin", figured(["/dev/stdin"], source), (0, line, ""))
    checks.same("a name with spaces and signs", figured([path.rename(folder / "- $a *.season")]), (0, line, ""))


def check_last(checks):
    """What is behind the 10,000th sheet stays unread, in a file without an end and for another who reads on."""
    most = b"10000 0 0 0 0 0 0 0 0 0 0 0 0 1\n"
    checks.same("a file without an end", figured(["/dev/zero"]), (0, most, ""))
    behind = b"behind the last"
    done = subprocess.run(["sh", "-c", '"$0" - && cat', SEASON], input=season([NO_WORDS] * 10_000) + behind, capture_output=True)
    checks.same("what is behind the 10,000th sheet", (done.returncode, done.stdout, done.stderr), (0, most + behind, b""))
    checks.same("a length cut off behind it", figured(["-"], season([NO_WORDS] * 10_000) + b"\1"), (0, most, ""))
    checks.same("a length cut off as the last", figured(["-"], season([NO_WORDS] * 9_999) + b"\1"),
                (0, b"9999 1 0 0 0 0 0 0 0 0 0 0 0 1\n", ""))


def run(checks):
    with tempfile.TemporaryDirectory() as made:
        check_ways(checks, Path(made))
    check_last(checks)
    checks.same("a sheet in a pipe", figured(["-"], (EXAMPLES / "corner.txt").read_bytes()), (0, ONE_REFUSED, ""))
    checks.same("examples/three.figures", figured(["examples/three.season"]), (0, (EXAMPLES / "three.figures").read_bytes(), ""))
