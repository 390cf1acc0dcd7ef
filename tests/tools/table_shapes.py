"""Tables as text and back: one written out, random ones of either form, those at the limits, and the command itself."""

import random

from checks import TABLE, called
from commands import written_to_full
from reference import fields
from reference.forms import FIVE, SIX
from reference.limits import MAX_ROWS, MAX_SIZE, MAX_VARIABLES
from reference.tables import Row, capacity, table_words
from tables.usage import USAGE

TABLES = 300
NAMES = {FIVE: "five", SIX: "six"}
# Every kind of line, with one spot, several and none, three words behind the rows.
ROWS = [Row((6, 1, 0), 5), Row((0, 0, 130), 268_431_361), Row((0, 0, 0), 268_435_455)]
SIZES = [3, 2, 8]
TEXT = """form {}
words {}  # room for 3 rows of {} words; 3 used
station 0 spots 3
station 1 spots 2
station 2 spots 8
row 0 weight 5 unless 0/1,2 1/0
row 1 weight 268431361 unless 2/1,7
row 2 weight 268435455
"""
NO_ROWS = """form five or six
words 16  # room for 2 rows of five words or 1 row of six words; 0 used
station 0 spots 3
station 1 spots 2
station 2 spots 8
"""
# Without stations there is one row at most.
NO_STATIONS = """form {}
words {}  # room for {}; {} used
stations 0
"""
# As it is written by hand: without the words, with comments, in another line form and with a byte that is no UTF-8.
LOOSE = (b"# last year's\r\n\r\n  form five # words to a row\nstation 0   spots 3\nstation 1 spots 2 # Gr\xe4ben\n"
         b"\trow 0 weight 05 unless 0/1,2 1/0\n")


def text_of(sizes, rows, length, form):
    """The text of a table with rows, by the reference's capacity."""
    room = capacity(len(sizes), length, form)
    lines = [f"form {NAMES[form]}",
             f"words {length}  # room for {room:,} row{'s' * (room != 1)} of {NAMES[form]} words; {len(rows):,} used"]
    lines += [f"station {station} spots {size}" for station, size in enumerate(sizes)] if sizes else ["stations 0"]
    for number, (signs, weight) in enumerate(rows):
        named = [f" {station}/" + ",".join(spot for spot in "01234567" if sign >> int(spot) & 1)
                 for station, sign in enumerate(signs) if sign]
        lines.append(f"row {number} weight {weight}{' unless' if named else ''}{''.join(named)}")
    return "\n".join(lines + [""]).encode()


def random_rows(rng, form):
    """Sizes and rows, one at least."""
    sizes = [rng.randint(1, MAX_SIZE) for _ in range(rng.randint(0, MAX_VARIABLES))]
    weights = [1, 7, 65_535, 268_431_361, 268_435_455, form.max_weight]
    signs = {tuple(rng.randrange((1 << size) - 1) * (rng.random() < 0.5) for size in sizes) for _ in range(rng.randint(1, 20))}
    rows = [Row(clause, rng.choice(weights)) for clause in sorted(signs)]
    rng.shuffle(rows)
    return sizes, rows


def check_both_ways(checks, what, sizes, rows, length, form):
    data, text = fields.as_bytes(table_words(sizes, rows, length, form)), text_of(sizes, rows, length, form)
    checks.same(f"{what} shown", called(["show", "-"], data, TABLE), (0, text, ""))
    checks.same(f"{what} made", called(["make", "-"], text, TABLE), (0, data, ""))


def check_written_out(checks):
    for form, length in ((FIVE, 23), (SIX, 26)):
        data = fields.as_bytes(table_words(SIZES, ROWS, length, form))
        text = TEXT.format(NAMES[form], length, NAMES[form]).encode()
        checks.answers(["show", "-"], data, text, TABLE)
        checks.answers(["make", "-"], text, data, TABLE)
    empty = fields.as_bytes(table_words(SIZES, [], 16))
    checks.answers(["show", "-"], empty, NO_ROWS.encode(), TABLE)
    for form in ("five or six", "five", "six"):
        checks.answers(["make", "-"], NO_ROWS.replace("five or six", form, 1).encode(), empty, TABLE)
    checks.answers(["make", "-"], LOOSE, fields.as_bytes(fields.table([3, 2], "6,1:5", 9, FIVE)), TABLE)


def check_no_stations(checks):
    """With the one row that there can be, in either form, and without it."""
    for form, length in ((FIVE, 7), (FIVE, 11), (SIX, 8), (SIX, 13)):
        text = NO_STATIONS.format(NAMES[form], length, f"1 row of {NAMES[form]} words", 1) + f"row 0 weight {form.max_weight}\n"
        data = fields.as_bytes(table_words([], [Row((), form.max_weight)], length, form))
        checks.answers(["show", "-"], data, text.encode(), TABLE)
        checks.answers(["make", "-"], text.encode(), data, TABLE)
    rooms = {2: (0, 0), 6: (0, 0), 7: (1, 0), 8: (1, 1), 12: (2, 1)}
    for length, (five, six) in rooms.items():
        room = f"{five} row{'s' * (five != 1)} of five words or {six} row{'s' * (six != 1)} of six words"
        text, data = NO_STATIONS.format("five or six", length, room, 0).encode(), fields.as_bytes(table_words([], [], length))
        checks.answers(["show", "-"], data, text, TABLE)
        for form in (b"five or six", b"five", b"six"):
            checks.answers(["make", "-"], text.replace(b"five or six", form, 1), data, TABLE)
    loose = b"# under water\n form six # words to a row\n\tstations 0 # none\r\n\nrow 0 weight 07\n"
    checks.answers(["make", "-"], loose, fields.as_bytes(fields.table([], "empty:7", 8)), TABLE)


def check_random(checks):
    rng = random.Random("tables there and back")
    for at in range(TABLES):
        form = rng.choice([FIVE, SIX])
        sizes, rows = random_rows(rng, form)
        length = fields.table_length(len(sizes), len(rows), rng.choice([0, 0, 1, 4, 5, 6, 30]), form)
        check_both_ways(checks, f"table {at}", sizes, rows, length, form)


def check_limits(checks):
    """As many stations, spots, rows and words as there may be, and the greatest weights."""
    rows = [Row((0,) * 10 + (1 + at // 254, 1 + at % 254), 1 + at) for at in range(MAX_ROWS)]
    for form in (FIVE, SIX):
        for spare in (0, 70):
            check_both_ways(checks, f"all rows of {NAMES[form]} words", [MAX_SIZE] * MAX_VARIABLES, rows,
                            fields.table_length(MAX_VARIABLES, MAX_ROWS, spare, form), form)
        check_both_ways(checks, "the greatest weight", [1], [Row((0,), form.max_weight)], 9, form)
    check_both_ways(checks, "the most words", [2], [Row((1,), 1)], 1_000_000, SIX)


def check_command(checks):
    for arguments in [[], ["show"], ["make"], ["text", "-"], ["show", "-", "-"], ["--help"], ["make", "--form", "six", "-"]]:
        checks.fails(arguments, b"", USAGE, TABLE)
    checks.fails(["show", "nowhere"], b"", "nowhere: No such file or directory", TABLE)
    checks.fails(["make", "examples"], b"", "examples: Is a directory", TABLE)
    checks.fails(["show", "examples/corner.sheet"], b"",
                 "examples/corner.sheet, word 2: a word of kind 8 where the number of spots of station 1 is due, "
                 "a word of kind 2 (refusal 9)", TABLE)
    checks.fails(["make", "examples/corner.txt"], b"",
                 "examples/corner.txt, line 3: a station is written as 'station NUMBER spots NUMBER'", TABLE)
    checks.same("a table shown to a full device", written_to_full("show", "corner.table", tool=TABLE),
                (1, "standard output: No space left on device\n"))


def run(checks):
    for check in (check_written_out, check_no_stations, check_random, check_limits, check_command):
        check(checks)
