"""Sheets as words and as text, told apart by what they hold; what is no sheet; and what is said where there is no answer."""

import tempfile
from pathlib import Path

from answers import ALL_FORBIDDEN
from commands import EXAMPLES, check_arguments, linked, planned, planned_to_full, tools_without
from reference import fields, words

NAMES = ["corner", "flooded", "headland", "terraces"]
# Every plan of this one has a forbidden combination.
CULVERT = "culvert"
REASON = f"{ALL_FORBIDDEN} (refusal 15)"
# A field without stations in each of its forms: no bytes, comments alone, and a head of 0 as words and as text.
NO_STATIONS = [b"", b"    ", "# Überschwemmt\r\n\r\n".encode("utf-8-sig"), fields.as_bytes([words.head(0)]), b"stations 0\n"]
NOTHING = b"PLAN\nCOST 0\nSTEPS 0\n"
# Malformed words, none of them text: short of a word, or with a first word that is no head.
NO_TEXT = [b"\n", b"ab", b"abc", b"\x0a\x00\x00", bytes(4), b"station\0", b"\xff\xff\xff\x8f" + bytes(8)]
NO_TEXT += [fields.as_bytes([first, words.cost(9)]) for first in (words.size(1), words.cost(9), words.northing(-1))]
LONG = ("here the instance made from the sheet passes 16,000 words, the most that the planner takes; "
        "the 704 legs between neighbouring stations come first, with 3 words each")


def forms(name):
    """An example as words and as text in several codings, with what it prints."""
    text, plan = (EXAMPLES / f"{name}.txt").read_text(), (EXAMPLES / f"{name}.plan").read_bytes()
    named = "# Gräben am Südhang\n" + text
    yield (EXAMPLES / f"{name}.sheet").read_bytes(), plan
    for source in (text.encode(), named.encode("latin-1"), named.encode("utf-8-sig"), b"\r\n\t" + text.encode(),
                   text.replace("\n", "\r\n").encode(), (text + "# the end\n" * 20_000).encode()):
        yield source, plan


def check_forms(checks, folder):
    for name in NAMES:
        for at, (source, plan) in enumerate(forms(name)):
            checks.same(f"plan - of {name}, form {at}", planned(["-"], source), (0, plan, ""))
            for ending in ("", ".sheet", ".txt"):
                path = folder / f"field{ending}"
                path.write_bytes(source)
                checks.same(f"plan field{ending} of {name}, form {at}", planned([path]), (0, plan, ""))
        checks.same(f"plan /dev/stdin of {name}", planned(["/dev/stdin"], source), (0, plan, ""))


def check_forbidden(checks):
    """Answered as the other refusals are, though the words have no fault."""
    text = (EXAMPLES / f"{CULVERT}.plan").read_bytes()
    for ending in ("sheet", "txt"):
        name = f"examples/{CULVERT}.{ending}"
        checks.same(f"plan of {name}", planned([name]), (2, text, f"plan: {name}: {REASON}\n"))


def check_no_stations(checks, folder):
    path = folder / "field"
    for source in NO_STATIONS:
        path.write_bytes(source)
        checks.same(f"plan of {source}", planned([path]), (0, NOTHING, ""))
        checks.same(f"plan - of {source}", planned(["-"], source), (0, NOTHING, ""))
    checks.same("plan of /dev/null", planned(["/dev/null"]), (0, NOTHING, ""))
    for costs, answer in [(b"cost 65535\ncost 6\n", (0, b"PLAN\nCOST 65541\nSTEPS 0\n", "")),
                          (b"cost 5\nforbidden\n", (2, b"REFUSED 15\n", f"plan: standard input: {REASON}\n"))]:
        checks.same(f"plan - of no stations and {costs}", planned(["-"], b"stations 0\n" + costs), answer)
    checks.same("plan - of a pair without a station",
                planned(["-"], fields.as_bytes([words.head(0), words.binding(0, 0), words.cost(1)])),
                (2, b"REFUSED 3\n", "plan: standard input: word 1: there is no station 0; the field has none (refusal 3)\n"))


def check_words(checks, folder):
    path = folder / "field.txt"
    for source in NO_TEXT:
        path.write_bytes(source)
        status, printed, said = planned([path])
        checks.same(f"plan of {source}", (status, printed), (2, b"REFUSED 1\n"))
        checks.same(f"what is said of {source}", said.startswith(f"plan: {path}: word ") and said.count("\n"), 1)
    status, printed, _ = planned(["/dev/zero"])
    checks.same("plan of bytes without an end", (status, printed), (2, b"REFUSED 10\n"))


def check_faults(checks, folder):
    """Texts with a fault: no answer, and the line."""
    stations = "".join(f"station {at}\n" + "".join(f"spot {spot} at 0 0\n" for spot in range(8)) for at in range(12))
    longest = stations + "cost 1 at 0/0 1/0 2/0 3/0\n" * 2_775
    unknown = "; a line begins with station, spot, stations, cost, forbidden or #"
    hint = "'stations 0' is for a field without any"
    path = folder / "text"
    for text, fault in [("station zero\n", "line 1: station 'zero' is not a whole number from 0 to 11"),
                        ("# a field\n\nPLAN\n", f"line 3: unknown word 'PLAN'{unknown}"),
                        ("cost 5\n", f"line 1: a cost or a forbidden combination before the first station; {hint}"),
                        ("# a field\nstations 3\n", f"line 2: each station has a line of its own; {hint}"),
                        (longest + "cost 1\n", f"line 2884: {LONG}")]:
        path.write_text(text)
        checks.same(f"plan of {text[:40]!r}", planned([path]), (1, b"", f"plan: {path}, {fault}\n"))
        checks.same(f"plan - of {text[:40]!r}", planned(["-"], text.encode()), (1, b"", f"plan: standard input, {fault}\n"))
    status, printed, _ = planned(["-"], longest.encode())
    checks.same("the longest instance", (status, printed[:4]), (0, b"PLAN"))


def check_plan_arguments(checks):
    parts = (b"usage: plan FILE", b"the line 'stations 0'", b"REFUSED n", b"15: every plan has a forbidden combination",
             b"PAUSED s BOUND b", b"FULL s BOUND b", b"The exit status is 0 for PLAN")
    check_arguments(checks, "plan", planned, planned_to_full, "examples/corner.sheet", "the answer cannot be written", parts)


def check_without_python(checks, folder):
    """Words are planned all the same."""
    path = linked(folder / "tools", tools_without("python3"))
    plan = (EXAMPLES / "corner.plan").read_bytes()
    checks.same("words without Python", planned(["examples/corner.sheet"], path=path), (0, plan, ""))
    checks.same("no bytes without Python", planned(["-"], path=path), (0, NOTHING, ""))
    checks.same("a refusal without Python", planned(["-"], fields.NO_HEAD, path=path),
                (2, b"REFUSED 1\n", "plan: standard input: refused with number 1, which plan --help explains\n"))
    name = f"examples/{CULVERT}.sheet"
    checks.same("a refusal found by planning without Python", planned([name], path=path),
                (2, b"REFUSED 15\n", f"plan: {name}: {REASON}\n"))
    checks.same("text without Python", planned(["examples/corner.txt"], path=path),
                (1, b"", "plan: examples/corner.txt is text, which needs Python 3, and python3 is not installed\n"))


def run(checks):
    with tempfile.TemporaryDirectory() as made:
        folder = Path(made)
        check_forms(checks, folder)
        check_no_stations(checks, folder)
        check_words(checks, folder)
        check_faults(checks, folder)
        check_without_python(checks, folder)
    check_forbidden(checks)
    check_plan_arguments(checks)
