"""A season taken apart and packed again, as words and as text; what has no text, what reads as text, what is cut off, and folders that will
not do."""

import functools
import random
import resource
import tempfile
from pathlib import Path
from unittest import mock

import round_trips
from checks import called, ran
from examples import content
from files import contents
from packing import REFUSED
from reference import fields
from reference.fields import NO_HEAD, NO_WORDS, as_bytes, season
from sheets.forms import words_to_text
from text_faults import UNKNOWN

SHEETS = 60
# Why there is no text of the sheets that the planner refuses.
NO_TEXT = {
    "zeros": "word 0: a word of kind 0 where the number of stations is due, a word of kind 1 (refusal 1)",
    "thirteen": "word 0: 13 stations; a field has at most 12 (refusal 1)",
    "head": "word 1: the sheet ends where the number of spots of station 0 is due (refusal 2)",
    "long": "word 16000: the planner takes 16,000 words at most (refusal 10)",
}
# Words that read as text, and the words that they are packed to, or why there are none. The last has zeros behind the bytes that tell.
READ_AS_TEXT = [(b"station 0\nspot 0 at 0.00 0.00\n\n\n", as_bytes(fields.sheet([[(0, 0)]], []))),
                (b"stat", f"line 1: unknown word 'stat'; {UNKNOWN}"),
                (b"\t\n\r ", "line 2: a line ends with a line feed, or with a carriage return and a line feed; "
                             "here another sign of a new line stands in it"),
                (b" " * 64_001 + bytes(3), "line 1: unknown word '\\x00\\x00\\x00'; " + UNKNOWN)]
# Words that nearly do.
READ_AS_WORDS = [b"abc\0", b"ab\x1fd", b"station 0\nspot 0 at 0.00 0.00\n\n\0", b" " * 64_000 + bytes(4)]


def as_files(sheets):
    return {f"{number:05}.sheet": sheet for number, sheet in enumerate(sheets, 1)}


def check_there_and_back(checks, folder, name, sheets):
    """Good sheets: taken apart each way, and packed again from the files in the order of their names."""
    source = season(sheets)
    texts = {f"{number:05}.txt": words_to_text(sheet) for number, sheet in enumerate(sheets, 1)}
    for at, (options, files) in enumerate([([], as_files(sheets)), (["--text"], texts)]):
        made = folder / f"{name}-{at}" / "new"
        checks.same(f"{name} unpacked {options}", called(["season", "unpack", *options, "-", str(made)], source), (0, b"", ""))
        checks.same(f"the files of {name} {options}", contents(made), files)
        checks.same(f"{name} packed again {options}", called(["season", "pack", *map(str, sorted(made.iterdir()))], b""),
                    (0, source, ""))


def check_round_trips(checks, folder):
    rng = random.Random("seasons there and back")
    all_sheets = [as_bytes(fields.sheet(*round_trips.random_sheet(rng))) for _ in range(SHEETS)]
    all_sheets += [as_bytes(fields.sheet(places, entries)) for places, entries in round_trips.limits().values()] + [NO_WORDS] * 2
    check_there_and_back(checks, folder, "random sheets", all_sheets)
    made = folder / "examples"
    checks.answers(["season", "unpack", "--text", "examples/three.season", str(made)], b"", b"")
    checks.answers(["season", "pack", *map(str, sorted(made.iterdir()))], b"", content("three.season"))
    check_there_and_back(checks, folder, "one sheet", [content("corner.sheet")])
    check_there_and_back(checks, folder, "a sheet of no words", [NO_WORDS])
    checks.same("no sheets unpacked", called(["season", "unpack", "-", str(folder / "none")], b""), (0, b"", ""))
    checks.same("the files of no sheets", contents(folder / "none"), {})


def check_no_text(checks, folder):
    """Faulty sheets between good ones stay words, which pack again to the same season."""
    good = content("corner.sheet")
    sheets = [sheet for refused in REFUSED.values() for sheet in (good, refused)]
    source, files, said = season(sheets), {}, ""
    for number, (name, refused) in enumerate(REFUSED.items(), 1):
        files |= {f"{2 * number - 1:05}.txt": words_to_text(good), f"{2 * number:05}.sheet": refused}
        said += (f"standard input, sheet {2 * number}, {NO_TEXT[name]}; "
                 f"it has no text and is in {folder / 'text' / f'{2 * number:05}.sheet'} as words\n")
    checks.same("faulty sheets as text", called(["season", "unpack", "--text", "-", str(folder / "text")], source), (0, b"", said))
    checks.same("the files of faulty sheets", contents(folder / "text"), files)
    checks.same("faulty sheets as words", called(["season", "unpack", "-", str(folder / "words")], source), (0, b"", ""))
    checks.same("the words of faulty sheets", contents(folder / "words"), as_files(sheets))
    for made in ("text", "words"):
        checks.same(f"faulty sheets packed again, {made}",
                    called(["season", "pack", *map(str, sorted((folder / made).iterdir()))], b""), (0, source, ""))


def check_read_as_text(checks, folder):
    """Words that read as text are named, with text asked for or not, since they do not pack again to the same season."""
    sheets = [NO_HEAD, *(sheet for sheet, _ in READ_AS_TEXT), *READ_AS_WORDS]
    for at, options in enumerate([[], ["--text"]]):
        made = folder / f"read-{at}"
        status, printed, said = called(["season", "unpack", *options, "-", str(made)], season(sheets))
        named = [line for line in said.splitlines() if not line.endswith(" as words")]
        checks.same(f"words that read as text {options}", (status, printed, named),
                    (0, b"", [f"standard input, sheet {number}: its bytes read as text, so pack would take "
                              f"{made / f'{number:05}.sheet'} for text" for number in range(2, len(READ_AS_TEXT) + 2)]))
        checks.same(f"the files of words that read as text {options}", contents(made), as_files(sheets))
        check_packed_as_text(checks, made)


def check_packed_as_text(checks, folder):
    """What was named is packed to another sheet or fails, as it is said; what was not is packed as it is."""
    files = [str(path) for path in sorted(folder.iterdir())][1:]
    for file, (sheet, packed) in zip(files, READ_AS_TEXT):
        answer = (1, b"", f"sheet 1, {file}, {packed}\n") if isinstance(packed, str) else (0, season([packed]), "")
        checks.same(f"words that read as text, {sheet[:20]}, packed", called(["season", "pack", file], b""), answer)
    checks.same("words that do not read as text packed", called(["season", "pack", *files[len(READ_AS_TEXT):]], b""),
                (0, season(READ_AS_WORDS), ""))


def check_many(checks, folder):
    """Sheets behind the last that is planned are taken apart too, which is said once."""
    sheet = content("corner.sheet")
    said = "standard input, sheet 4: only the first 3 sheets of a season are planned\n"
    cut = "standard input, sheet 6: only 1 of the 4 bytes of its length\n"
    for at, (count, behind, answer) in enumerate([(3, b"", (0, b"", "")), (4, b"", (0, b"", said)), (5, b"", (0, b"", said)),
                                                  (5, b"\0", (1, b"", said + cut))]):
        made = folder / f"many-{at}"
        with mock.patch("sheets.unpacking.PLANNED_SHEETS", 3):
            checks.same(f"{count} sheets unpacked where 3 are planned",
                        called(["season", "unpack", "-", str(made)], season([sheet] * count) + behind), answer)
        checks.same(f"the files of {count} sheets", contents(made), as_files([sheet] * count))


def cut_cases():
    """What stands behind two whole sheets, and what is said of it."""
    for count in (1, 2, 3):
        yield bytes(count), f"only {count} of the 4 bytes of its length"
    yield as_bytes([1]), "its length is 1 words, but only 0 bytes are behind it"
    yield as_bytes([3, 1, 2]) + bytes(3), "its length is 3 words, but only 11 bytes are behind it"
    yield as_bytes([16_001]) + bytes(64_003), "its length is 16,001 words, but only 64,003 bytes are behind it"
    yield as_bytes([0xFFFFFFFF]) + bytes(200_000), "its length is 4,294,967,295 words, but only 200,000 bytes are behind it"


def check_cut(checks, folder):
    good = [content("corner.sheet"), content("headland.sheet")]
    for at, (behind, said) in enumerate(cut_cases()):
        for options, ending in ([], "sheet"), (["--text"], "txt"):
            made = folder / f"cut-{at}-{ending}"
            checks.same(f"cut season {at} {options}", called(["season", "unpack", *options, "-", str(made)], season(good) + behind),
                        (1, b"", f"standard input, sheet 3: {said}\n"))
            checks.same(f"the files of cut season {at} {options}", list(contents(made)), [f"00001.{ending}", f"00002.{ending}"])


def check_folders(checks, folder):
    taken, file, empty = folder / "taken", folder / "file", folder / "empty"
    taken.mkdir()
    empty.mkdir()
    (taken / "kept").write_bytes(b"kept")
    file.write_bytes(b"kept")
    unpack = ["season", "unpack", "examples/three.season"]
    checks.fails([*unpack, str(taken)], b"", f"{taken}: the folder is not empty")
    checks.fails([*unpack, str(file)], b"", f"{file}: File exists")
    checks.same("what stood there", (contents(taken), file.read_bytes()), ({"kept": b"kept"}, b"kept"))
    checks.answers([*unpack, str(empty)], b"", b"")
    checks.same("the files of an empty folder", list(contents(empty)), ["00001.sheet", "00002.sheet", "00003.sheet"])
    checks.fails(["season", "unpack", "nowhere", str(folder / "unmade")], b"", "nowhere: No such file or directory")
    checks.fails(["season", "unpack", "examples", str(folder / "unmade")], b"", "examples: Is a directory")
    checks.same("no folder without a season", (folder / "unmade").exists(), False)


def check_full(checks, folder):
    """A file that takes no more bytes is not left behind in part."""
    made = folder / "full"
    limited = functools.partial(resource.setrlimit, resource.RLIMIT_FSIZE, (1_000, 1_000))
    source = season([content("corner.sheet"), bytes(4_000), content("corner.sheet")])
    checks.same("a file too large", ran(["season", "unpack", "-", str(made)], source, preexec_fn=limited),
                (1, b"", f"{made / '00002.sheet'}: File too large\n"))
    checks.same("the files before it", list(contents(made)), ["00001.sheet"])


def check_pieces(checks, folder):
    """Sheets that are read and written in many pieces."""
    sheets = [content("terraces.sheet"), bytes(40), content("corner.sheet")]
    with mock.patch("sheets.season.PIECE", 16):
        checks.same("a season in pieces", called(["season", "unpack", "-", str(folder / "pieces")], season(sheets)), (0, b"", ""))
    checks.same("the files of a season in pieces", contents(folder / "pieces"), as_files(sheets))


def run(checks):
    with tempfile.TemporaryDirectory() as made:
        for check in (check_round_trips, check_no_text, check_read_as_text, check_many, check_cut, check_folders, check_full,
                      check_pieces):
            check(checks, Path(made))
