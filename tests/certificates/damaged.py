"""Good certificates and sheets that are damaged: each word changed, cut at every byte, with words and bytes behind; verify's answer
is the reference's, and none of the changed certificates is accepted where the change has to show."""

import random

from certified import VERIFY
from programs import given_whole
from reference import words
from reference.certificates import request, verified
from reference.fields import as_bytes
from reference.planning import words_of
from small_sheets import planned_fields

# Certificates of more words than this are changed at some places alone; longer sheets are left out.
SHORT = 60
PLACES = 30
MOST_BYTES = 1_000
BEHIND = [0, words.head(2), words.binding(0, 0), words.cost(9), words.weight(10), words.step(0, 0, 1), words.step(1, 0, 1),
          words.forbidden(), words.high_weight(0), words.word(13, 0x12), words.word(14, 1), 0xFFFFFFFF]


def compare(checks, what, sheet, certificate):
    """The verdict, which is the reference's."""
    asked = request(sheet, certificate)
    due = verified(asked)
    checks.same(f"the verdict on {what}", given_whole(VERIFY, asked), due)
    return due


def front_words(certificate):
    """How many stand before the derivation: the head, the plan and the cost."""
    return certificate[0] + 3


def changes(word):
    """A word with its number one higher and lower, its kind changed, its highest bits set, a bit of it, and 0."""
    kind, payload = divmod(word, 1 << 28)
    changed = {word + 1 & 0xFFFFFFFF, word - 1 & 0xFFFFFFFF, words.word((kind + 1) % 16, payload), words.word(kind ^ 8, payload),
               word ^ 1 << 27, word ^ 1 << 24, word ^ 1 << 12, word ^ 1 << 8, word ^ 1 << 3, 0}
    return sorted(changed - {word})


def some_places(source):
    """Every place of few words; of many those of the front and others."""
    if len(source) <= SHORT:
        return range(len(source))
    return [*range(15), *sorted(random.Random(len(source)).sample(range(15, len(source)), PLACES))]


def changed_words(source):
    """The words with one of them changed, and its place."""
    for at in some_places(source):
        for word in changes(source[at]):
            yield at, as_bytes(source[:at] + [word] + source[at + 1:])


def some_fields(every=1):
    """Those of the examples and of the chosen ones that have a certificate, and some with many steps."""
    named = [field for field in planned_fields() if not field.name.startswith("random") and len(field.sheet) <= MOST_BYTES]
    return (named + planned_fields(15, 40)[:8])[::every]


def check_changed(checks):
    """A change of the plan's front is always refused; one of a step may lead to another derivation that holds."""
    for name, sheet, _, certificate in some_fields():
        front = front_words(certificate)
        for at, changed in changed_words(words_of(certificate)):
            due = compare(checks, f"{name} with word {at} changed to {changed[4 * at:4 * at + 4].hex()}", sheet, changed)
            if at in (0, front - 2, front - 1):
                checks.same(f"whether {name} is refused with word {at} changed", due in (b"REFUSED 6\n", b"REFUSED 7\n"), True)


def check_cut(checks):
    """Cut at every byte of the front and of the first steps, and at every one of the last."""
    for name, sheet, _, certificate in some_fields(3):
        lengths = {length for length in range(len(certificate)) if length < 80 or length > len(certificate) - 40}
        for length in sorted(lengths):
            due = compare(checks, f"{name} cut to {length} bytes", sheet, certificate[:length])
            if length % 4:
                checks.same(f"whether {name} is refused at {length} bytes", due, b"REFUSED 7\n")


def check_behind(checks):
    for name, sheet, _, certificate in some_fields():
        steps = certificate[4 * front_words(certificate):]
        for word in BEHIND:
            due = compare(checks, f"{name} with {word:08x} behind it", sheet, certificate + as_bytes([word]))
            if words.kind_of(word) != words.STEP:
                checks.same(f"whether {name} is refused with {word:08x} behind it", due, b"REFUSED 6\n")
        compare(checks, f"{name} with its steps twice", sheet, certificate + steps)
        for more in (1, 2, 3):
            compare(checks, f"{name} with {more} bytes behind it", sheet, certificate + bytes(more))


def check_damaged_sheets(checks):
    """A sheet with a word changed or cut off, and a certificate of the sheet as it was."""
    for name, sheet, _, certificate in some_fields(4):
        source = words_of(sheet)[:SHORT]
        for at, changed in changed_words(source):
            compare(checks, f"{name}, word {at} of its sheet changed", changed + sheet[4 * SHORT:], certificate)
        for length in range(min(len(sheet), 4 * SHORT)):
            compare(checks, f"{name}, its sheet cut to {length} bytes", sheet[:length], certificate)


def run(checks):
    for check in (check_changed, check_cut, check_behind, check_damaged_sheets):
        check(checks)
