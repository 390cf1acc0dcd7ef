"""The command ./plan --certificate: the plan as ./plan prints it, the file, the reasons and statuses, and that no file comes or
goes where there is no plan."""

import os
import stat
import tempfile
from pathlib import Path

from certified import files_in
from commands import EXAMPLES, planned
from reference import words
from reference.certificates import certified
from reference.fields import NO_HEAD, as_bytes, forbidden, growing_sheet, sheet
from sheets import all_sheets

ALL_FORBIDDEN = "every plan has a forbidden combination of spots"
PLANNED = ["corner", "flooded", "headland", "terraces"]


def content(name):
    return (EXAMPLES / name).read_bytes()


def check_examples(checks, folder):
    """As words and as text, from a file and from the standard input, the option before and behind the field."""
    new = folder / "a new certificate"
    for name in PLANNED:
        text, certificate = certified(content(f"{name}.sheet"))
        for ending in ("sheet", "txt"):
            field = f"examples/{name}.{ending}"
            for arguments, source in ((["--certificate", new, field], b""), ([field, "--certificate", new], b""),
                                      (["--certificate", new, "-"], content(f"{name}.{ending}"))):
                checks.same(f"plan --certificate of {field}", planned(arguments, source), (0, text, ""))
                checks.same(f"the certificate of {field}", files_in(folder), {new.name: certificate})
                new.unlink()
        checks.same(f"the plan of {name} with a certificate", text, content(f"{name}.plan"))


def check_places(checks, folder):
    """A file that is replaced, names that begin with a dash, a link to a file, and who may read the new one."""
    certificate = content("corner.certificate")
    new, other = folder / "-new", folder / "other"
    new.write_bytes(b"old")
    for _ in range(2):
        checks.same("plan --certificate onto a file", planned(["--certificate", new, "examples/corner.sheet"]),
                    (0, content("corner.plan"), ""))
        checks.same("the file replaced", files_in(folder), {"-new": certificate})
    mask = os.umask(0)
    os.umask(mask)
    checks.same("who may read the new file", stat.S_IMODE(new.stat().st_mode), 0o666 & ~mask)
    other.symlink_to(folder / "nowhere")
    checks.same("plan --certificate onto a link", planned(["--certificate", other, "examples/corner.sheet"])[0], 0)
    checks.same("what is left of the link", (other.is_symlink(), files_in(folder)),
                (False, {"-new": certificate, "other": certificate}))


def unplanned():
    """Sheets without a plan: name, bytes, status, and what is said of them."""
    example = content("corner.sheet")
    yield "every plan forbidden", content("culvert.sheet"), 2, f"{ALL_FORBIDDEN} (refusal 15)"
    yield "no head", NO_HEAD, 2, "word 0: a word of kind 0 where the number of stations is due, a word of kind 1 (refusal 1)"
    yield "cut", example[:-1], 2, "word 10: only 3 of its 4 bytes (refusal 1)"
    yield "unknown station", example + as_bytes([words.binding(2, 0), words.cost(1)]), 2, (
        "word 11: there is no station 2; the last one is 1 (refusal 3)")
    yield "too dear", example + as_bytes([words.cost(65_536)]), 2, "word 11: a cost of 65,536; at most 65,535 (refusal 4)"
    yield "too long", example + bytes(64_000), 2, "word 16000: the planner takes 16,000 words at most (refusal 10)"
    full = dict(all_sheets())["full-bound-of-3900-forbidden"]
    yield "full", full, 3, "not planned: after 938 steps the next one has no room in the program's table; " + ALL_FORBIDDEN


def check_unplanned(checks, folder):
    """The one line, why, and the files as they were: none, or an old one."""
    field, new = folder / "field", folder / "new"
    for name, source, status, said in unplanned():
        field.write_bytes(source)
        due = status, certified(source)[0], f"plan: {field}: {said}\n"
        for kept in ({}, {"new": b"kept"}):
            for file, held in kept.items():
                (folder / file).write_bytes(held)
            checks.same(f"plan --certificate, {name}", planned(["--certificate", new, field]), due)
            checks.same(f"the files of plan --certificate, {name}", files_in(folder), {"field": source, **kept})
        new.unlink()


def check_more_room(checks, folder):
    """What ./plan refuses for its rows is planned, and ./plan goes on to refuse it."""
    source = as_bytes(growing_sheet(6, 2_666))
    (folder / "field").write_bytes(source)
    text, certificate = certified(source)
    checks.same("plan without a certificate", planned([folder / "field"])[:2], (2, b"REFUSED 12\n"))
    checks.same("plan with a certificate", planned(["--certificate", folder / "new", folder / "field"]), (0, text, ""))
    checks.same("its certificate", files_in(folder)["new"], certificate)


def check_text(checks, folder):
    """A text with a fault has no answer; one without stations has a certificate of no pairs."""
    new = folder / "new"
    checks.same("a text with a fault", planned(["--certificate", new, "-"], b"station zero\n"),
                (1, b"", "plan: standard input, line 1: station 'zero' is not a whole number from 0 to 11\n"))
    checks.same("what it leaves", files_in(folder), {})
    for source, costs in ((b"", []), (b"stations 0\n", []), (b"stations 0\ncost 7\ncost 9\n", [([], 7), ([], 9)])):
        text, certificate = certified(as_bytes(sheet([], costs)))
        checks.same(f"plan --certificate of {source}", planned(["--certificate", new, "-"], source), (0, text, ""))
        checks.same(f"the certificate of {source}", files_in(folder), {"new": certificate})
        new.unlink()
    checks.same("no stations, forbidden", planned(["--certificate", new, "-"], as_bytes(sheet([], [forbidden()]))),
                (2, b"REFUSED 15\n", f"plan: standard input: {ALL_FORBIDDEN} (refusal 15)\n"))
    checks.same("what that leaves", files_in(folder), {})


def run(checks):
    for check in (check_examples, check_places, check_unplanned, check_more_room, check_text):
        with tempfile.TemporaryDirectory() as made:
            check(checks, Path(made))
