"""Certificates that certify writes, and what it prints, for small fields of every kind and for the planner's own sheets: its bytes
are the reference's, and verify accepts them with the same plan."""

import tempfile

from certified import VERIFY, Certifier
from programs import given_whole
from reference.certificates import certified, request, verified
from sheets import all_sheets
from small_sheets import planned_fields, small_fields
from stored import stored

# The reference makes no certificate of more steps here; it takes too long.
MOST_STEPS = 1_000


def accepted(text):
    """What verify prints for the certificate that came with this text."""
    return text.replace(b"PLAN", b"ACCEPTED")


def check_small(checks, certify):
    for name, sheet, text, certificate in small_fields():
        checks.same(f"the plan and the certificate of {name}", certify(sheet), (text, certificate))
        asked = request(sheet, certificate)
        due = verified(asked)
        checks.same(f"the verdict on {name}", given_whole(VERIFY, asked), due)
        if certificate:
            checks.same(f"the reference's verdict on {name}", due, accepted(text))
    checks.same("small fields with a plan", len(planned_fields()) > 100, True)


def check_stored(checks, certify):
    """The text is the planner's where that one has a plan or a fault, and a certificate comes with a plan alone."""
    texts, plans, others = stored(), 0, 0
    for name, source in all_sheets():
        text = texts[name]
        if not text.startswith((b"PLAN", b"REFUSED")) or text == b"REFUSED 12\n":
            continue
        got, certificate = certify(source)
        checks.same(f"the text of {name}", got, text)
        if not text.startswith(b"PLAN"):
            checks.same(f"what {name} has in place of a certificate", certificate, b"")
            others += 1
            continue
        plans += 1
        checks.same(f"the verdict on {name}", given_whole(VERIFY, request(source, certificate)), accepted(text))
        if int(text.split()[4]) <= MOST_STEPS:
            checks.same(f"the certificate of {name}", certificate, certified(source)[1])
    checks.same("sheets with a plan and without one", (plans > 20, others > 60), (True, True))


def run(checks):
    with tempfile.TemporaryDirectory() as made:
        certify = Certifier(made)
        check_small(checks, certify)
        check_stored(checks, certify)
