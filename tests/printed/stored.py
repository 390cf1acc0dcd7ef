"""The stored text of each sheet: what the program prints for it."""

from pathlib import Path

from reference import printed_plan
from sheets import all_sheets

EXPECTED = Path(__file__).resolve().parent / "expected.txt"
# Before the name of each sheet in the stored text.
MARK = "== "


def stored():
    blocks = EXPECTED.read_text().split(MARK)[1:]
    return {name: text.encode() for name, text in (block.split("\n", 1) for block in blocks)}


def write():
    """Stores what the reference prints."""
    EXPECTED.write_text("".join(f"{MARK}{name}\n{printed_plan(source).decode()}" for name, source in all_sheets()))
