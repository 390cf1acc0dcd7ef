"""Sheets packed into a season: text and words, what the planner refuses too, and the errors, each with its sheet."""

import random
import tempfile
from pathlib import Path
from unittest import mock

import round_trips
from checks import called
from commands import written_to_full
from examples import NAMES, content
from files import kept
from reference import fields
from reference.fields import season
from text_faults import UNKNOWN

SHEETS = 60
# What the planner refuses is packed as it is: no head, too many stations, a head alone, a word more than it takes.
REFUSED = {"zeros": bytes(8), "thirteen": fields.as_bytes([0x1000000D]), "head": fields.as_bytes([0x10000001]),
           "long": fields.as_bytes([0x10000001] * 16_001)}


def check_examples(checks):
    in_words = [content(f"{name}.sheet") for name in NAMES]
    for endings in [("txt", "txt", "txt"), ("sheet", "sheet", "sheet"), ("txt", "sheet", "txt")]:
        paths = [f"examples/{name}.{ending}" for name, ending in zip(NAMES, endings)]
        checks.answers(["season", "pack", *paths], b"", season(in_words))
        checks.answers(["season", "pack", *paths[::-1]], b"", season(in_words[::-1]))
    for ending in ("txt", "sheet"):
        checks.answers(["season", "pack", "examples/terraces.txt", "-", "examples/headland.sheet"], content(f"corner.{ending}"),
                       season([in_words[2], in_words[0], in_words[1]]))


def check_random(checks, folder):
    rng = random.Random("sheets packed")
    files, sheets = {}, []
    for at in range(SHEETS):
        places, entries = round_trips.random_sheet(rng)
        sheets.append(fields.as_bytes(fields.sheet(places, entries)))
        files[f"random {at}"] = rng.choice([sheets[-1], round_trips.loose_text(rng, places, entries)])
    paths = kept(folder, files)
    checks.same("random sheets packed", called(["season", "pack", *paths], b""), (0, season(sheets), ""))
    with mock.patch("sheets.packing.HELD", 1_000):
        checks.same("random sheets packed on disc", called(["season", "pack", *paths], b""), (0, season(sheets), ""))


def check_refused(checks, folder):
    paths = kept(folder, REFUSED)
    checks.same("refused sheets packed", called(["season", "pack", *paths], b""), (0, season(REFUSED.values()), ""))
    most = fields.as_bytes(range(5))
    with mock.patch("sheets.packing.MOST_WORDS", 5):
        checks.same("the longest sheet", called(["season", "pack", "-"], most), (0, season([most]), ""))
        for more in (bytes(1), bytes(4)):
            checks.same("a sheet too long for its length", called(["season", "pack", "-"], most + more),
                        (1, b"", "sheet 1, standard input, word 5: a sheet of a season has at most 5 words\n"))


def check_errors(checks, folder):
    """An error names the sheet and leaves no output, wherever the sheet stands."""
    text, cut, short = kept(folder, {"text": b"# a\nstation 0\nspot 1 at 0 0\n", "cut": bytes(70_002), "short": b"abc"})
    good = ["examples/corner.txt", "examples/headland.sheet"]
    order = "spot 1 where spot 0 is due; they are numbered from 0 in order"
    for path, said in [(text, f"{text}, line 3: {order}"), (cut, f"{cut}, word 17500: only 2 of its 4 bytes (refusal 1)"),
                       (short, f"{short}, word 0: only 3 of its 4 bytes (refusal 1)"),
                       ("examples/corner.plan", f"examples/corner.plan, line 1: unknown word 'PLAN'; {UNKNOWN}"),
                       ("nowhere", "nowhere: No such file or directory"), ("examples", "examples: Is a directory")]:
        checks.fails(["season", "pack", *good, path, *good], b"", f"sheet 3, {said}")
        checks.fails(["season", "pack", path], b"", f"sheet 1, {said}")
    checks.fails(["season", "pack", "examples/corner.txt", "-"], b"station 0\n",
                 "sheet 2, standard input, line 1: station 0 has no spot")
    checks.fails(["season", "pack", "-", "examples/corner.txt", "-"], b"", "standard input: it can be one sheet only")
    for names in (["corner.txt"], ["terraces.sheet"] * 500):
        checks.same(f"a season of {len(names)} to a full device", written_to_full("season", "pack", *names),
                    (1, "standard output: No space left on device\n"))


def check_many(checks):
    sheet = content("corner.sheet")
    for count, said in [(10_000, ""), (10_001, "only the first 10,000 sheets of a season are planned; this one has 10,001\n")]:
        with tempfile.NamedTemporaryFile() as file:
            Path(file.name).write_bytes(sheet)
            checks.same(f"{count} sheets packed", called(["season", "pack", *[file.name] * count], b""),
                        (0, season([sheet] * count), said))


def run(checks):
    with tempfile.TemporaryDirectory() as made:
        check_random(checks, Path(made))
        check_refused(checks, Path(made))
        check_errors(checks, Path(made))
    check_examples(checks)
    check_many(checks)
