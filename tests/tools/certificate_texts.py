"""Certificates as text: some written out, random ones, those at the limits, and the command itself."""

import random

from certificates.usage import USAGE
from checks import CERTIFICATE, called
from commands import written_to_full
from reference import words
from reference.certificates import MOST_WORDS, Certificate, certificate_words
from reference.fields import as_bytes
from reference.limits import MAX_ROWS, MAX_SIZE, MAX_VARIABLES, MAX_WEIGHT

CERTIFICATES = 300
# Every kind of line: a cost of both words, steps, and words of other kinds between and behind them.
WRITTEN = Certificate([0, 7, 3], (5 << 28) + 9, [words.step(2, 0, 4_095), words.binding(1, 2), words.cost(9), words.step(15, 10, 9),
                                                 0, words.word(13, 0xFFFFFFF)])
TEXT = b"""plan 0/0 1/7 2/3
cost 1342177289
steps 2
step 1 station 2 rows 0 4095
word 7 kind 3 payload 258
word 8 kind 4 payload 9
step 2 station 15 rows 10 9
word 10 kind 0 payload 0
word 11 kind 13 payload 268435455
"""
NOTHING = b"plan\ncost 0\nsteps 0\n"


def text_of(certificate):
    """The text of a certificate whose derivation has steps alone."""
    lines = ["plan" + "".join(f" {station}/{spot}" for station, spot in enumerate(certificate.assignment)),
             f"cost {certificate.cost}", f"steps {len(certificate.derivation)}"]
    for number, word in enumerate(certificate.derivation, 1):
        station, first, second = words.step_of(word)
        lines.append(f"step {number} station {station} rows {first} {second}")
    return "\n".join(lines + [""]).encode()


def check_text(checks, what, certificate):
    data = as_bytes(certificate_words(certificate))
    checks.same(f"the text of {what}", called(["-"], data, CERTIFICATE), (0, text_of(certificate), ""))


def check_written_out(checks):
    checks.answers(["-"], as_bytes(certificate_words(WRITTEN)), TEXT, CERTIFICATE)
    checks.answers(["-"], as_bytes(certificate_words(Certificate([], 0, []))), NOTHING, CERTIFICATE)


def check_random(checks):
    rng = random.Random("certificates")
    for at in range(CERTIFICATES):
        steps = [words.step(rng.randrange(16), rng.randrange(MAX_ROWS), rng.randrange(MAX_ROWS)) for _ in range(rng.randrange(20))]
        spots = [rng.randrange(MAX_SIZE) for _ in range(rng.randrange(MAX_VARIABLES + 1))]
        cost = rng.choice([0, 1, rng.randrange(1 << 28), rng.randrange(1 << 56)])
        check_text(checks, f"certificate {at}", Certificate(spots, cost, steps))


def check_limits(checks):
    """The greatest cost, and as many words as there may be, also with fewer stations than twelve."""
    for stations in (0, MAX_VARIABLES):
        steps = [words.step(11, 4_094, 4_095)] * (MOST_WORDS - stations - 3)
        check_text(checks, f"the longest one of {stations} stations", Certificate([7] * stations, MAX_WEIGHT, steps))


def check_command(checks):
    for arguments in [[], ["-", "-"], ["show", "-"], ["--help"], ["-h"]]:
        checks.fails(arguments, b"", USAGE, CERTIFICATE)
    checks.fails(["nowhere"], b"", "nowhere: No such file or directory", CERTIFICATE)
    checks.fails(["examples"], b"", "examples: Is a directory", CERTIFICATE)
    checks.fails(["examples/corner.sheet"], b"",
                 "examples/corner.sheet, word 1: a word of kind 2 where the spot of station 0 is due, a word of kind 3 (refusal 7)",
                 CERTIFICATE)
    checks.same("a certificate shown to a full device", written_to_full("corner.certificate", tool=CERTIFICATE),
                (1, "standard output: No space left on device\n"))


def run(checks):
    for check in (check_written_out, check_random, check_limits, check_command):
        check(checks)
