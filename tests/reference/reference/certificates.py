"""Certificates: the words of a plan, its claimed cost and a derivation, made with the plan of a sheet and verified with the sheet."""

from typing import NamedTuple

from . import words
from .answers import BAD_CLAIM, GOOD, TARGET_TOO_SHORT, Refused, require
from .checker import check_call
from .fields import as_bytes
from .forms import SIX
from .inputs import Reader, read_sheet
from .limits import MAX_VARIABLES
from .planning import PLANNED, WORD_BYTES, Buffers, instance_from, solved, words_of
from .printed import plan_lines, printed_lines, text_of
from .words import PAYLOAD_BITS, PAYLOAD_MASK

# The most steps that are written, and the words of a whole certificate with as many: head, plan and the two of the cost before them.
MOST_STEPS = 200_000
MOST_WORDS = 1 + MAX_VARIABLES + 2 + MOST_STEPS
# Those of the two programs: a table with room for the most rows over twelve variables.
BUFFERS = Buffers(steps=MOST_STEPS, table=24_590, limit=MOST_STEPS)


class Certificate(NamedTuple):
    assignment: list
    cost: int           # of 56 bits, as the weight of a row
    derivation: list    # step words


def certificate_words(certificate):
    bound = [words.binding(variable, value) for variable, value in enumerate(certificate.assignment)]
    return [words.head(len(bound)), *bound, *SIX.weight_words(certificate.cost), *certificate.derivation]


def read_certificate(source):
    """The certificate in these words, or refusal 7. Nothing is asked of the derivation, which the checker reads."""
    reader = Reader(source)
    count = reader.take_payload(words.HEAD, 0, MAX_VARIABLES, BAD_CLAIM)
    assignment = [read_value(reader, variable) for variable in range(count)]
    low = reader.take_payload(words.WEIGHT, 0, PAYLOAD_MASK, BAD_CLAIM)
    high = reader.take_payload(words.HIGH_WEIGHT, 0, PAYLOAD_MASK, BAD_CLAIM)
    return Certificate(assignment, low + (high << PAYLOAD_BITS), source[reader.at:])


def read_value(reader, variable):
    """The value in the binding of this variable."""
    bound = words.binding_of(reader.take(BAD_CLAIM))
    require(bound is not None and bound[0] == variable, BAD_CLAIM)
    return bound[1]


def certified(source, buffers=BUFFERS):
    """What the program that certifies writes for a sheet's bytes: the text, and a certificate where that is a plan, else no bytes."""
    answer = solved(source, buffers)
    text = text_of(printed_lines(source, answer))
    if answer.ending != PLANNED:
        return text, b""
    count = len(read_sheet(words_of(source)).places)
    return text, as_bytes(certificate_words(Certificate(answer.assignment[:count], answer.bound, answer.derivation)))


def request(sheet, certificate):
    """The bytes that the program that verifies reads: the sheet's length in bytes as a word, the sheet, the certificate."""
    return as_bytes([len(sheet)]) + sheet + certificate


def verified(source, buffers=BUFFERS):
    """The text that it writes for them. A cut request has a shorter sheet, and no certificate."""
    end = WORD_BYTES + int.from_bytes(source[:WORD_BYTES], "little")
    sheet, certificate = source[WORD_BYTES:end], source[end:]
    try:
        return text_of(accepted_lines(sheet, certificate, buffers))
    except Refused as refusal:
        return text_of([f"REFUSED {refusal.number}"])


def accepted_lines(sheet, certificate, buffers):
    """The lines where the certificate is accepted with the sheet, else the refusal: first the sheet's, then the certificate's."""
    instance = instance_from(sheet, buffers)
    require(len(certificate) <= WORD_BYTES * MOST_WORDS, TARGET_TOO_SHORT)
    require(len(certificate) % WORD_BYTES == 0, BAD_CLAIM)
    assignment, cost, derivation = read_certificate(words_of(certificate))
    checked = check_call(instance, derivation, assignment, cost, [0] * buffers.table)
    require(checked.number == GOOD, checked.number)
    return plan_lines("ACCEPTED", sheet, cost, checked.steps, assignment)
