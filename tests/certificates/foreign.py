"""Certificates of other hands: with other steps than the planner's, of fields that it does not plan, of another field, and with
parts of several exchanged."""

import random
from itertools import islice, product

from certified import packed
from damaged import compare
from reference.certificates import Certificate, read_certificate
from reference.derivations import ended_otherwise
from reference.fields import as_bytes, sheet
from reference.inputs import made_words, read_sheet, sizes_of
from reference.limits import FORBIDDEN_WEIGHT
from reference.planning import words_of
from reference.plans import rebuilt
from reference.tables import empty_weight
from small_sheets import planned_fields, small_fields

ORDERS = 3
SWAPPED = 14
# The words of a certificate of few steps.
FEW = 100


def otherwise(source, choose):
    """A certificate with pairs chosen otherwise, also where every plan is forbidden."""
    derivation, rows = ended_otherwise(made_words(words_of(source)), choose)
    sizes = sizes_of(read_sheet(words_of(source)).places)
    return Certificate(rebuilt(sizes, rows), empty_weight(rows), derivation)


def check_other_orders(checks):
    """All are accepted: with steps in another order, shortened, and with claims of what is forbidden."""
    chance, other, high, short = random.Random("orders"), 0, 0, 0
    for name, source, _, own in small_fields():
        for at in range(ORDERS if len(own) < 4 * FEW else 1):
            made = otherwise(source, chance.choice)
            certificate = packed(made)
            due = compare(checks, f"{name} in order {at}", source, certificate)
            checks.same(f"whether {name} is accepted in order {at}", due.split(b"\n")[:2], [b"ACCEPTED", b"COST %d" % made.cost])
            other += bool(own) and certificate != own
            high += made.cost >= FORBIDDEN_WEIGHT
            if made.derivation:
                cut = compare(checks, f"{name} in order {at} without its last step", source, certificate[:-4])
                short += cut.startswith(b"ACCEPTED")
    checks.same("other orders, claims above all ordinary costs, and steps that were not needed",
                (other > 50, high > 50, short > 10), (True, True, True))


def check_of_other_fields(checks):
    """Each of some certificates with each sheet, and with the plan, the claim or the steps of another."""
    fields = planned_fields(7, FEW)[:SWAPPED]
    for (name, source, _, own), (other_name, _, _, other) in product(fields, repeat=2):
        if other == own:
            continue
        compare(checks, f"the certificate of {other_name} with {name}", source, other)
        mine, theirs = read_certificate(words_of(own)), read_certificate(words_of(other))
        for swapped in (mine._replace(assignment=theirs.assignment), mine._replace(cost=theirs.cost),
                        mine._replace(derivation=theirs.derivation)):
            compare(checks, f"parts of {other_name} with {name}", source, packed(swapped))


def check_plans(checks):
    """Every plan of small fields in place of the best, at the claimed cost: accepted are those that cost no more."""
    accepted = refused = 0
    for name, source, _, own in planned_fields(5, FEW)[:40]:
        sizes, certificate = sizes_of(read_sheet(words_of(source)).places), read_certificate(words_of(own))
        for assignment in islice(product(*map(range, sizes)), 12):
            due = compare(checks, f"plan {assignment} of {name}", source, packed(certificate._replace(assignment=assignment)))
            accepted, refused = accepted + due.startswith(b"ACCEPTED"), refused + (due == b"REFUSED 7\n")
    checks.same("plans that are as good and others", (accepted > 30, refused > 100), (True, True))


def check_claims(checks):
    """Every plan forbidden, at a cost of one word, of two, and above 32 bits, with the claim cut to fewer bits or one off."""
    for count, spots in ((1, 1), (16, 1), (17, 1), (17, 2), (4_000, 2)):
        entries = [([], FORBIDDEN_WEIGHT)] * count + [([(0, spot)], 3 + spot) for spot in range(spots)]
        source = as_bytes(sheet([[(0, 0)] * spots], entries))
        made = otherwise(source, lambda pairs: pairs[0])
        due = compare(checks, f"{count} times forbidden", source, packed(made))
        checks.same(f"the claim of {count} times forbidden", due.split(b"\n")[:2],
                    [b"ACCEPTED", b"COST %d" % (count * FORBIDDEN_WEIGHT + 3)])
        for bits in (28, 32):
            wrong = {made.cost % (1 << bits), made.cost ^ 1 << bits, made.cost + (1 << 55), made.cost - 1, made.cost + 1}
            for cost in sorted(wrong - {made.cost}):
                due = compare(checks, f"{count} times forbidden, claimed {cost}", source, packed(made._replace(cost=cost)))
                checks.same(f"whether a claim of {cost} is refused", due, b"REFUSED 7\n")


def run(checks):
    for check in (check_other_orders, check_of_other_fields, check_plans, check_claims):
        check(checks)
