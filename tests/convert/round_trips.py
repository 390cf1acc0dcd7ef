"""Files converted there and back: the bytes, the line that is printed, and that nothing else is left."""

import os
import stat
import tempfile
from pathlib import Path

from converted import MOST_WORDS, converted, files_in
from reference.fields import as_bytes
from reference.forms import FIVE
from reference.limits import MAX_ROWS
from reference.tables import Row, rows_start, table_words
from sources import TWELVE, Source, all_sources, forms_of

NAMES = {5: "five", 6: "six"}


def room_of(source, words, form):
    return min(MAX_ROWS, (words - rows_start(len(source.sizes))) // form.row_words)


def new_length(source, words, form, other):
    """The words of the new file where the first has so many: as many places for rows, and what the first has behind its own."""
    start, room = rows_start(len(source.sizes)), room_of(source, words, form)
    length, over = start + other.row_words * room, words - start - form.row_words * room
    return length + over if over < other.row_words and length + over <= MOST_WORDS else length


def line(name, source, form, room):
    rows = "1 row" if len(source.rows) == 1 else f"{len(source.rows)} rows"
    return f"{name}: {rows} of {NAMES[form.row_words]} words, room for {room}\n".encode()


def check_file(checks, folder, source, form, other, spare):
    """A file of this form into the other."""
    first, second = folder / "first", folder / "second"
    before = source.words(form, spare)
    first.write_bytes(as_bytes(before))
    room, length = room_of(source, len(before), form), new_length(source, len(before), form, other)
    what = f"{source.name}, {form.row_words} words and {spare}"
    checks.same(f"convert of {what}", converted([NAMES[other.row_words], first, second]), (0, line(second, source, other, room), ""))
    expected = as_bytes(table_words(source.sizes, source.rows, length, other))
    checks.same(f"the files of {what}", files_in(folder), {"first": as_bytes(before), "second": expected})
    return room


def check_back(checks, folder, source, form, room):
    """The file that came of it, back into a file as long: the same bytes."""
    done = converted([NAMES[form.row_words], folder / "second", folder / "third"])
    checks.same(f"{source.name} back", done, (0, line(folder / "third", source, form, room), ""))
    checks.same(f"the bytes of {source.name} there and back", (folder / "third").read_bytes(), (folder / "first").read_bytes())
    (folder / "third").unlink()


def spares(at, source, form):
    """How many words past the rows of a source there are: of no stations as many as make two to nine words in all."""
    tried = [at % 12 if len(source.rows) < MAX_ROWS else 0]
    if not source.sizes:
        tried = range(10 - len(source.words(form)))
    # Five words behind the last place for six are a whole row of five.
    return [spare if form == FIVE or spare % 6 < 5 else 0 for spare in tried]


def check_round_trips(checks, folder):
    for at, source in enumerate(source for source in all_sources() if source.narrow()):
        for form, other in forms_of(source):
            for spare in spares(at, source, form):
                room = check_file(checks, folder, source, form, other, spare)
                check_back(checks, folder, source, form, room)


def check_edges(checks, folder):
    """What cannot come along: five words behind six-word rows, room for more than 4,096 rows, words above the limit."""
    small = Source("two rows", (3, 2), [Row((1, 0), 7), Row((2, 1), 1)])
    for form, other in forms_of(small):
        for spare in (5, 5 + form.row_words, form.row_words * MAX_ROWS + 1 if form == FIVE else MOST_WORDS - 16):
            check_file(checks, folder, small, form, other, spare)
    full = Source("rows of twelve", TWELVE, [Row((1,) + (0,) * 11, 2)])
    check_file(checks, folder, full, *forms_of(full)[0], 5 * (MAX_ROWS - 1) + 3)


def check_rows(checks, folder):
    """Room for a number of rows, in place of the first file's."""
    source = next(source for source in all_sources() if source.narrow() and len(source.rows) > 2)
    for form, other in forms_of(source):
        (folder / "first").write_bytes(as_bytes(source.words(form, 9)))
        for rows, written in ((len(source.rows), str(len(source.rows))), (len(source.rows) + 3, f"000{len(source.rows) + 3}"[-4:]),
                              (MAX_ROWS, "4096")):
            for arguments in (["--rows", written, NAMES[other.row_words], folder / "first", folder / "second"],
                              [NAMES[other.row_words], folder / "first", folder / "second", "--rows", written]):
                done = converted(arguments)
                checks.same(f"room for {written} rows", done, (0, line(folder / "second", source, other, rows), ""))
                length = rows_start(len(source.sizes)) + other.row_words * rows
                checks.same(f"the file for {written} rows", (folder / "second").read_bytes(),
                            as_bytes(table_words(source.sizes, source.rows, length, other)))


def check_places(checks, folder):
    """The standard input, names that begin with a dash or have spaces, a file that is replaced, and who may read the new one."""
    source = next(all_sources())
    form, other = forms_of(source)[0]
    before, room = as_bytes(source.words(form)), len(source.rows)
    expected = as_bytes(source.words(other))
    new = folder / "a new table"
    for _ in range(2):
        checks.same("convert of the standard input", converted(["six", "-", new], before), (0, line(new, source, other, room), ""))
        checks.same("the file made of it", new.read_bytes(), expected)
    mask = os.umask(0)
    os.umask(mask)
    checks.same("who may read the new file", stat.S_IMODE(new.stat().st_mode), 0o666 & ~mask)
    (folder / "-first").write_bytes(before)
    done = converted(["six", folder / "-first", f"{folder}/-second"])
    checks.same("names with a dash", done, (0, line(f"{folder}/-second", source, other, room), ""))
    checks.same("the file with a dash", (folder / "-second").read_bytes(), expected)


def run(checks):
    for check in (check_round_trips, check_edges, check_rows, check_places):
        with tempfile.TemporaryDirectory() as made:
            check(checks, Path(made))
