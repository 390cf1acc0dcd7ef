"""A season's line made from what the planner program prints for each of its sheets by itself."""

import io
import re
import struct
from collections import Counter
from functools import cache
from itertools import islice
from pathlib import Path

from programs import given_whole

PLANNER = Path(__file__).resolve().parents[2] / "target" / "bin" / "planner"
MOST_SHEETS = 10_000
# The first line of a text up to its steps and bound, in the order of the season's numbers.
OUTCOMES = ["PLAN", *(f"REFUSED {number}" for number in (1, 2, 3, 4, 5, 10, 12, 15)), "PAUSED", "FULL"]


@cache
def printed(sheet):
    return given_whole(PLANNER, sheet).decode()


def sheets_of(source):
    """The bytes of each sheet in turn, and None for one that is cut off, behind which there is no other."""
    file = io.BytesIO(source)
    while announced := file.read(4):
        length = 4 * struct.unpack("<I", announced)[0] if len(announced) == 4 else -1
        sheet = file.read(length)
        yield sheet if len(sheet) == length else None


def outcome(text):
    found = re.match(r"PLAN|REFUSED \d+|PAUSED|FULL", text)
    if not found or found[0] not in OUTCOMES:
        raise ValueError(f"a season has no number for a sheet of which the planner prints {text!r}")
    return found[0]


def separate_line(source):
    texts = ["REFUSED 1\n" if sheet is None else printed(sheet) for sheet in islice(sheets_of(source), MOST_SHEETS)]
    counts = Counter(map(outcome, texts))
    costs = {sheet: int(re.match(r"PLAN\nCOST (\d+)\n", text)[1])
             for sheet, text in enumerate(texts, 1) if outcome(text) == "PLAN"}
    largest = max(costs.values(), default=0)
    first = min((sheet for sheet, cost in costs.items() if cost == largest), default=0)
    numbers = [*(counts[name] for name in OUTCOMES), sum(costs.values()), largest, first]
    return (" ".join(map(str, numbers)) + "\n").encode()
