"""The command ./verify: its answers with files and the standard input, what it says of each refusal, and its statuses."""

import tempfile
from pathlib import Path

from certified import CORNER, packed, ran_verify
from commands import EXAMPLES, linked, tools_without
from foreign import otherwise
from limits import LEGS, MOST_BYTES, all_pairs
from reference import words
from reference.certificates import Certificate, request, verified
from reference.fields import NO_HEAD, as_bytes, forbidden, sheet
from reference.limits import MAX_ROWS

ALL_FORBIDDEN = "every plan has a forbidden combination of spots"
NO_CLAIM = "its plan is none of this field at the claimed cost, or the steps do not prove it to be the least (refusal 7)"
NO_STEP = "a step is not permitted in this field; tools/certificate prints the steps (refusal 6)"
TOO_LONG = "the certificate has more than 200015 words (refusal 10)"
TOO_MANY = "the steps need more than 4096 rows, the most that a table has (refusal 12)"
SHEET = (EXAMPLES / "corner.sheet").read_bytes()


def check_examples(checks):
    """Text and words, each file and the standard input."""
    for name in ("corner", "headland"):
        due = (0, (EXAMPLES / f"{name}.verified").read_bytes(), "")
        certificate = f"examples/{name}.certificate"
        for ending in ("sheet", "txt"):
            field = f"examples/{name}.{ending}"
            for arguments, source in (([field, certificate], b""),
                                      (["-", certificate], (EXAMPLES / f"{name}.{ending}").read_bytes()),
                                      ([field, "-"], (EXAMPLES / f"{name}.certificate").read_bytes())):
                checks.same(f"verify {' '.join(arguments)}", ran_verify(arguments, source), due)


def refusals():
    """Sheet, certificate, which of the two it is about, and what is said."""
    step = words.step(1, 0, 1)
    front = [words.head(2), words.binding(0, 0), words.binding(1, 1)]
    dearer = sheet([[(0, 0)], [(300, 400), (600, 800)]], [([(1, 0)], 4)])
    claim = packed(Certificate([0] * 12, 0, [words.step(0, 0, LEGS + 8)]))
    yield NO_HEAD, CORNER, "field", "word 0: a word of kind 0 where the number of stations is due, a word of kind 1 (refusal 1)"
    yield SHEET[:-1], CORNER, "field", "word 10: only 3 of its 4 bytes (refusal 1)"
    yield SHEET[:4], CORNER, "field", "word 1: the sheet ends where the number of spots of station 0 is due (refusal 2)"
    yield SHEET[:-4], CORNER, "field", "word 10: the sheet ends where a cost or a forbidden word is due (refusal 3)"
    yield SHEET + as_bytes([words.cost(65_536)]), b"", "field", "word 11: a cost of 65,536; at most 65,535 (refusal 4)"
    yield SHEET + bytes(64_000), bytes(MOST_BYTES + 1), "field", "word 16000: the planner takes 16,000 words at most (refusal 10)"
    yield SHEET, CORNER + bytes(MOST_BYTES), "certificate", TOO_LONG
    yield SHEET, b"", "certificate", "word 0: the certificate ends where the number of stations is due (refusal 7)"
    yield SHEET, CORNER[:-1], "certificate", "word 5: only 3 of its 4 bytes (refusal 7)"
    yield SHEET, SHEET, "certificate", "word 1: a word of kind 2 where the spot of station 0 is due, a word of kind 3 (refusal 7)"
    yield SHEET, b"plan 0/0 1/1\ncost 10\n...", "certificate", (
        "word 0: a word of kind 6 where the number of stations is due, a word of kind 1 (refusal 7)")
    yield SHEET, as_bytes([*front, words.weight(9), words.high_weight(0), step]), "certificate", NO_CLAIM
    yield SHEET, CORNER[:-4], "certificate", NO_CLAIM
    yield as_bytes(dearer), CORNER, "certificate", NO_CLAIM
    yield b"", CORNER[:-4], "certificate", NO_CLAIM
    yield b"", CORNER, "certificate", NO_STEP
    yield SHEET, CORNER + CORNER[-4:], "certificate", NO_STEP
    yield SHEET, CORNER[:-1] + b"\x61", "certificate", NO_STEP
    # The planner has no room for this sheet either, which is not what is said.
    yield all_pairs(MAX_ROWS, 10), claim, "certificate", TOO_MANY


def check_refusals(checks, folder):
    for source, certificate, about, said in refusals():
        files = {"field": source, "certificate": certificate}
        for name, held in files.items():
            (folder / name).write_bytes(held)
        due = 2, verified(request(source, certificate))
        names = [folder / "field", folder / "certificate"]
        checks.same(f"verify, {said}", ran_verify(names), (*due, f"verify: {folder / about}: {said}\n"))
        # The one that is spoken of from the standard input.
        given = ["-" if name.name == about else name for name in names]
        checks.same(f"verify -, {said}", ran_verify(given, files[about]), (*due, f"verify: standard input: {said}\n"))


def check_forbidden(checks, folder):
    """Accepted at a cost that says that every plan has a forbidden combination, of one word and of two; and the highest that does
    not."""
    field, certificate = folder / "field", folder / "certificate"
    for entries, said in (([forbidden()], True), ([forbidden()] * 17 + [([], 5)], True), ([([], 65_535)] * 4_096, False)):
        field.write_bytes(as_bytes(sheet([[(0, 0)] * 2], entries)))
        certificate.write_bytes(packed(otherwise(field.read_bytes(), lambda pairs: pairs[0])))
        due = verified(request(field.read_bytes(), certificate.read_bytes()))
        checks.same("whether it is accepted", due[:9], b"ACCEPTED\n")
        checks.same(f"verify of {len(entries)} entries", ran_verify([field, certificate]),
                    (0, due, f"verify: {field}: {ALL_FORBIDDEN}\n" if said else ""))


def check_text(checks, folder):
    """A text with a fault has no answer; the standard input is one file."""
    checks.same("a text with a fault", ran_verify(["-", "examples/corner.certificate"], b"station zero\n"),
                (1, b"", "verify: standard input, line 1: station 'zero' is not a whole number from 0 to 11\n"))
    checks.same("two standard inputs", ran_verify(["-", "-"], CORNER),
                (1, b"", "verify: only one of the two files can be the standard input\n"))


def check_without_python(checks, folder):
    """Words are verified all the same, and what the tools would find is said by its number."""
    path = linked(folder / "tools", tools_without("python3"))
    certificate = "examples/corner.certificate"
    due = (EXAMPLES / "corner.verified").read_bytes()
    checks.same("words without Python", ran_verify(["examples/corner.sheet", certificate], path=path), (0, due, ""))
    checks.same("a sheet refused without Python", ran_verify(["-", certificate], NO_HEAD, path=path),
                (2, b"REFUSED 1\n", "verify: standard input: refused with number 1, which verify --help explains\n"))
    unsaid = "refused with number 7, which verify --help explains"
    for source, number, said in ((CORNER[:-1], 7, unsaid), (CORNER + CORNER[-4:], 6, NO_STEP),
                                 (CORNER + bytes(MOST_BYTES), 10, TOO_LONG)):
        checks.same(f"refusal {number} without Python", ran_verify(["examples/corner.sheet", "-"], source, path=path),
                    (2, f"REFUSED {number}\n".encode(), f"verify: standard input: {said}\n"))
    checks.same("a long sheet without Python", ran_verify(["-", certificate], SHEET + bytes(64_000), path=path),
                (2, b"REFUSED 10\n", "verify: standard input: refused with number 10, which verify --help explains\n"))
    checks.same("text without Python", ran_verify(["examples/corner.txt", certificate], path=path),
                (1, b"", "verify: examples/corner.txt is text, which needs Python 3, and python3 is not installed\n"))


def run(checks):
    check_examples(checks)
    for check in (check_refusals, check_forbidden, check_text, check_without_python):
        with tempfile.TemporaryDirectory() as made:
            check(checks, Path(made))
