"""Every fault of a certificate's form, with its word and its reason; and damaged certificates against the reference."""

import random

from checks import CERTIFICATE, called
from reference import words
from reference.answers import Refused
from reference.certificates import MOST_WORDS, Certificate, certificate_words, read_certificate
from reference.fields import as_bytes

DAMAGED = 3_000
FRONT = [words.head(2), words.binding(0, 1), words.binding(1, 7)]
COST = [words.weight(5), words.high_weight(0)]


def head_cases():
    due = "where the number of stations is due"
    yield [], 0, f"the certificate ends {due}"
    yield [0], 0, f"a word of kind 0 {due}, a word of kind 1"
    yield [words.size(2), *FRONT[1:], *COST], 0, f"a word of kind 2 {due}, a word of kind 1"
    for stations in (13, 16, 0xFFFFFFF):
        yield [words.head(stations), *FRONT[1:], *COST], 0, f"{stations} stations; a field has at most 12"


def plan_cases():
    for at in (0, 1):
        due = f"where the spot of station {at} is due"
        yield FRONT[:1 + at], 1 + at, f"the certificate ends {due}"
        yield FRONT[:1 + at] + COST, 1 + at, f"a word of kind 6 {due}, a word of kind 3"
        other = 1 - at
        yield FRONT[:1 + at] + [FRONT[1 + other]], 1 + at, f"a pair of station {other} where that of station {at} is due"
        for bit in range(3, 8):
            yield FRONT[:1 + at] + [FRONT[1 + at] | 1 << bit], 1 + at, "a pair with a set bit outside its station and spot"
        for bit in range(12, 28):
            found = at + (1 << bit - 8)
            yield FRONT[:1 + at] + [FRONT[1 + at] | 1 << bit], 1 + at, (
                f"a pair of station {found:,} where that of station {at} is due")
    yield [words.head(1), *FRONT[1:], *COST], 2, "a word of kind 3 where cost word 0 is due, a word of kind 6"
    yield [words.head(3), *FRONT[1:], *COST], 3, "a word of kind 6 where the spot of station 2 is due, a word of kind 3"


def cost_cases():
    yield FRONT, 3, "the certificate ends where cost word 0 is due"
    yield FRONT + COST[:1], 4, "the certificate ends where cost word 1 is due"
    yield FRONT + COST[::-1], 3, "a word of kind 12 where cost word 0 is due, a word of kind 6"
    yield FRONT + COST[:1] + [words.step(0, 0, 1)], 4, "a word of kind 7 where cost word 1 is due, a word of kind 12"
    yield FRONT + [words.cost(5)] + COST[1:], 3, "a word of kind 4 where cost word 0 is due, a word of kind 6"
    yield [words.head(0), words.step(0, 0, 1)], 1, "a word of kind 7 where cost word 0 is due, a word of kind 6"


def check_lengths(checks):
    """Faults of the length come before all others."""
    for rest in (1, 2, 3):
        checks.refuses(None, bytes(8 + rest), f"word 2: only {rest} of its 4 bytes (refusal 7)", CERTIFICATE)
    most = as_bytes([*FRONT, *COST]) + bytes(4 * (MOST_WORDS - 5))
    checks.same("the most words", called(["-"], most, CERTIFICATE)[::2], (0, ""))
    for more in (bytes(1), bytes(4), bytes(1_000)):
        checks.refuses(None, most + more, "word 200015: a certificate has 200,015 words at most (refusal 10)", CERTIFICATE)


def damaged(rng):
    """A certificate with a bit turned, a word left out, doubled or of another kind, or cut off."""
    spots = [rng.randrange(8) for _ in range(rng.randrange(5))]
    source = certificate_words(Certificate(spots, rng.randrange(1 << 56), [words.step(0, 0, 1)] * rng.randrange(3)))
    at = rng.randrange(len(source))
    before, taken, after = source[:at], source[at], source[at + 1:]
    return rng.choice([before + [taken ^ 1 << rng.randrange(32)] + after, before + after, before + [taken, taken] + after, before,
                       before + [words.word(rng.randrange(16), words.payload_of(taken))] + after])


def is_certificate(source):
    try:
        read_certificate(source)
    except Refused:
        return False
    return True


def check_damaged(checks):
    """What the reference refuses for its form has no text, and what it takes has one."""
    rng, taken = random.Random("damaged certificates"), 0
    for _ in range(DAMAGED):
        source = damaged(rng)
        status, _, said = called(["-"], as_bytes(source), CERTIFICATE)
        due = is_certificate(source)
        checks.same(f"whether {source} is shown", (status, said.endswith("(refusal 7)\n")), (0, False) if due else (1, True))
        taken += due
    checks.same("damaged certificates with a text all the same", DAMAGED // 10 < taken < DAMAGED - DAMAGED // 10, True)


def run(checks):
    for cases in (head_cases, plan_cases, cost_cases):
        for source, at, reason in cases():
            checks.refuses(None, as_bytes(source), f"word {at}: {reason} (refusal 7)", CERTIFICATE)
            checks.same(f"the reference on {source[:30]}", is_certificate(source), False)
    check_lengths(checks)
    check_damaged(checks)
