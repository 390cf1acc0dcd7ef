"""Tables that are refused: status 2, a line that says why, no new file, and an old one of its name as it was."""

import tempfile
from pathlib import Path

from converted import MOST_WORDS, converted, files_in
from reference.fields import as_bytes, table, table_length
from reference.forms import FIVE, SIX

SIZES, ROWS = [3, 1], "6,0:2 1,0:5 empty:1"
OLD = table(SIZES, ROWS, table_length(2, 3, 2, FIVE), FIVE)
NEW = table(SIZES, ROWS, table_length(2, 3, 2), SIX)
NO_FIVE = "no valid table with five words to a row; tools/table show says what is wrong (refusal 9)"
NO_SIX = "no valid table with six words to a row; tools/table show says what is wrong (refusal 9)"
TOO_LONG = "the table has more than 24590 words, room for 4096 rows of six words over 12 stations (refusal 10)"
TOO_HEAVY = "a row weighs more than 268435455, the most that five words hold; tools/table show prints the weights (refusal 16)"


def heavy(weight):
    return table(SIZES, f"6,0:2 1,0:{weight} empty:1", table_length(2, 3))


def no_stations(weight, form=SIX):
    return as_bytes(table([], f"empty:{weight}", table_length(0, 1, form=form), form))


# What is converted, the arguments behind the files, and what is said.
REFUSED = [
    ("six", as_bytes(NEW), [], "the table has six words to a row already (refusal 9)"),
    ("five", as_bytes(OLD), [], "the table has five words to a row already (refusal 9)"),
    ("six", as_bytes(heavy(1 << 40)), [], "the table has six words to a row already (refusal 9)"),
    ("six", b"", [], NO_FIVE),
    ("five", b"", [], NO_SIX),
    ("six", b"station 0 spots 3\n", [], NO_FIVE),
    ("six", as_bytes(OLD)[:-1], [], NO_FIVE),
    ("six", as_bytes(OLD)[:-12], [], NO_FIVE),
    ("six", as_bytes(OLD[:-1] + [1]), [], NO_FIVE),
    ("five", as_bytes(NEW[:4] + NEW[:1] + NEW[5:]), [], NO_SIX),
    ("six", as_bytes([0x1000000D] + OLD[1:]), [], NO_FIVE),
    ("six", as_bytes([0x10000000]), [], NO_FIVE),
    ("five", bytes(8), [], NO_SIX),
    ("six", no_stations(7), [], "the table has six words to a row already (refusal 9)"),
    ("five", no_stations(7, FIVE), [], "the table has five words to a row already (refusal 9)"),
    ("five", no_stations(7)[:-8], [], NO_SIX),
    ("six", no_stations(7, FIVE), ["--rows", "0"], "no room for its 1 row in a table for 0 (refusal 12)"),
    ("five", no_stations(1 << 28), [], TOO_HEAVY),
    ("six", as_bytes(OLD + [0] * (MOST_WORDS + 1 - len(OLD))), [], TOO_LONG),
    ("six", as_bytes(OLD) + b"\0" * 1_000_000, [], TOO_LONG),
    ("five", as_bytes(NEW + [0] * (MOST_WORDS + 1 - len(NEW))), [], TOO_LONG),
    ("six", as_bytes(OLD), ["--rows", "2"], "no room for its 3 rows in a table for 2 (refusal 12)"),
    ("six", as_bytes(OLD), ["--rows", "0"], "no room for its 3 rows in a table for 0 (refusal 12)"),
    ("five", as_bytes(NEW), ["--rows", "2"], "no room for its 3 rows in a table for 2 (refusal 12)"),
    ("five", as_bytes(table([2], "1:9", 9)), ["--rows", "0"], "no room for its 1 row in a table for 0 (refusal 12)"),
    ("five", as_bytes(heavy((1 << 28))), [], TOO_HEAVY),
    ("five", as_bytes(heavy(1 << 28)), ["--rows", "0"], TOO_HEAVY),
]


def check_refused(checks, folder):
    first, second = folder / "first", folder / "second"
    for form, source, arguments, said in REFUSED:
        first.write_bytes(source)
        for kept in ({}, {"second": b"kept"}):
            for name, content in kept.items():
                (folder / name).write_bytes(content)
            checks.same(f"convert {form} of {len(source)} bytes", converted([form, first, second, *arguments]),
                        (2, b"", f"convert: {first}: {said}\n"))
            checks.same(f"what convert {form} of {len(source)} bytes leaves", files_in(folder), {"first": source, **kept})
        second.unlink()


def run(checks):
    with tempfile.TemporaryDirectory() as made:
        check_refused(checks, Path(made))
