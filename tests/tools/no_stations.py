"""Sheets of a field without stations: no words at all, and a head of 0 with constant costs; as text, in seasons, and what is
refused."""

import tempfile
from pathlib import Path

from checks import called
from files import contents, kept
from reference import words
from reference.fields import NO_WORDS, as_bytes, season

HEAD = as_bytes([words.head(0)])
COSTS = as_bytes([words.head(0), words.cost(0), words.cost(65_535), words.forbidden(), words.cost(7)])
# The words of each sheet, its text as it is written, and other texts of it.
SHEETS = [
    (NO_WORDS, b"# no words: a field with no stations\n",
     [b"", b"\n", b"# under water", b"\xef\xbb\xbf  \r\n\t# stations 0\r\n", b"#" * 70_000 + b"\n"]),
    (HEAD, b"stations 0\n", [b"stations 0", b"# under water\n\n\tstations\t0   # none\r\n"]),
    (COSTS, b"stations 0\ncost 0\ncost 65535\nforbidden\ncost 7\n",
     [b" stations 0 # none\n\ncost 00\ncost 65535 # dear\r\nforbidden # all\ncost 7"]),
]
WRITTEN = {f"{number:05}.txt": text for number, (_, text, _) in enumerate(SHEETS, 1)}


def check_forms(checks):
    for data, text, others in SHEETS:
        checks.answers(["text", "-"], data, text)
        checks.answers(["why", "-"], data, b"")
        for source in [text, *others]:
            checks.answers(["words", "-"], source, data)


def check_refused(checks):
    """A first word that is no head is refused, however little else there is; so is what is no whole word."""
    no_head = "a word of kind {} where the number of stations is due, a word of kind 1 (refusal 1)\n"
    for first in [0, words.cost(0), words.forbidden(), words.size(1)]:
        checks.answers(["why", "-"], as_bytes([first]), f"word 0: {no_head.format(words.kind_of(first))}".encode())
    for rest in (1, 2, 3):
        checks.answers(["why", "-"], b"\n" * rest, f"word 0: only {rest} of its 4 bytes (refusal 1)\n".encode())
    checks.answers(["why", "-"], as_bytes([words.head(0), words.binding(0, 0), words.cost(1)]),
                   b"word 1: there is no station 0; the field has none (refusal 3)\n")


def check_packed(checks, folder):
    """Every form in a file of its own, but for the texts that are shorter than a word: these are taken for words."""
    files, packed = {}, []
    for data, text, others in SHEETS:
        for source in [data, text, *(other for other in others if len(other) > 3)]:
            files[f"file {len(files)}"] = source
            packed.append(data)
    paths = kept(folder, files)
    checks.same("no stations packed", called(["season", "pack", *paths], b""), (0, season(packed), ""))
    for data, text, _ in SHEETS:
        for source in (data, text):
            checks.same(f"{source} packed", called(["season", "pack", "-"], source), (0, season([data]), ""))
    checks.same("a line end packed", called(["season", "pack", "-"], b"\n"),
                (1, b"", "sheet 1, standard input, word 0: only 1 of its 4 bytes (refusal 1)\n"))


def check_unpacked(checks, folder):
    source = season(data for data, _, _ in SHEETS)
    checks.same("no stations unpacked", called(["season", "unpack", "--text", "-", str(folder)], source), (0, b"", ""))
    checks.same("the texts of no stations", contents(folder), WRITTEN)
    checks.same("refusals of no stations", called(["season", "why", "-"], source), (0, b"", ""))


def run(checks):
    check_forms(checks)
    check_refused(checks)
    with tempfile.TemporaryDirectory() as made:
        check_packed(checks, Path(made))
        check_unpacked(checks, Path(made) / "unpacked")
