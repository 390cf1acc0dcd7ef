"""Certificates that random ones hardly come to: each bit turned, each length, other fields' and fields without variables, claims
that all is forbidden, two faults at once, the greatest lengths, and tables that a step fills."""

import random
from itertools import combinations, product

import calls
import reference
from reference import fields, words
from reference.certificates import BUFFERS, MOST_WORDS, Certificate, certificate_words
from reference.inputs import made_words
from reference.limits import FORBIDDEN_WEIGHT
from reference.planning import words_of
from reference.resolution import next_pair
from reference.tables import read_table

# Two variables of one and two values; the certificate of the first has one step.
SHEETS = [fields.sheet([[(0, 0)], [(300, 400), (600, 800)]], [([(1, 0)], cost)]) for cost in (9, 0)]
NO_VARIABLES = [[], [words.head(0)], [words.head(0), words.cost(7)], [words.head(0), words.forbidden()]]
BAD_SHEET, BAD_STEP = [words.head(13)], words.step(0, 0, 0)


def chosen_certificates():
    return (damaged_certificates() + lengths() + swapped() + forbidden_claims() + two_faults() + greatest_lengths()
            + full_tables())


def verify(sheet, certificate):
    """The call on both as words."""
    return calls.verify(fields.as_bytes(sheet), fields.as_bytes(certificate))


def certificate_of(sheet):
    """The bytes of a certificate, for a sheet's words."""
    return reference.certified(fields.as_bytes(sheet))[1]


def damaged_certificates():
    """Each bit turned, each word left out, doubled, and of every kind."""
    sheet, good = SHEETS[0], words_of(certificate_of(SHEETS[0]))
    spoiled = [good[:at] + [good[at] ^ 1 << bit] + good[at + 1:] for at in range(len(good)) for bit in range(32)]
    for at in range(len(good)):
        spoiled += [good[:at] + good[at + 1:], good[:at] + good[at:at + 1] + good[at:]]
        spoiled += [good[:at] + [words.word(kind, words.payload_of(good[at]))] + good[at + 1:] for kind in range(16)]
    return [calls.certify(fields.as_bytes(sheet))] + [verify(sheet, certificate) for certificate in [good, *spoiled]]


def lengths():
    """Every number of bytes of the certificate and of the sheet, and more of each."""
    sheet, good = fields.as_bytes(SHEETS[0]), certificate_of(SHEETS[0])
    made = [calls.verify(sheet, (good + bytes(9))[:length]) for length in range(len(good) + 9)]
    sheets = [(sheet + bytes(9))[:length] for length in range(len(sheet) + 9)]
    return made + [calls.verify(source, good) for source in sheets] + [calls.certify(source) for source in sheets]


def swapped():
    """Each sheet with the certificate of each, some of other numbers of variables, and of none."""
    sheets = SHEETS + NO_VARIABLES + [fields.sheet([[(0, 0)]] * count, [([], 1)]) for count in (1, 2, 11, 12)]
    made = [calls.certify(fields.as_bytes(sheet)) for sheet in sheets]
    return made + [calls.verify(fields.as_bytes(sheet), certificate_of(other)) for sheet, other in product(sheets, repeat=2)]


def forbidden_claims():
    """So many forbidden entries, claimed at their cost, around it, and at its low bits alone."""
    made = []
    for count in (1, 2, 16, 17, 4_096):
        sheet, cost = fields.sheet([[(0, 0)]], [fields.forbidden()] * count), count * FORBIDDEN_WEIGHT
        claims = sorted({0, cost - 1, cost, cost + 1, cost & words.PAYLOAD_MASK, cost & 0xFFFFFFFF, cost | 1 << 55})
        made += [calls.certify(fields.as_bytes(sheet))]
        made += [verify(sheet, certificate_words(Certificate([0], claimed, []))) for claimed in claims]
    return made


def two_faults():
    """Faults of the sheet, of the certificate's front, of a step and of the claim, each with each other."""
    front = [words.head(2), words.binding(0, 0), words.binding(1, 1)]
    claims = [[words.weight(10), words.high_weight(0)], [words.weight(9), words.high_weight(0)],
              [words.high_weight(0), words.weight(10)]]
    plans = [front, [words.head(1), front[1]], [*front[:2], words.binding(1, 2)], [*front[:2], words.binding(0, 1)],
             [words.head(13), *(words.binding(variable, 0) for variable in range(13))]]
    derivations = [[words.step(1, 0, 1)], [BAD_STEP], [words.step(1, 0, 1), BAD_STEP], []]
    return [verify(sheet, plan + claim + derivation)
            for sheet in (SHEETS[0], BAD_SHEET) for plan in plans for claim in claims for derivation in derivations]


def greatest_lengths():
    """As many bytes as are read, of sheet and certificate, and more, each beside a fault that comes before or behind."""
    most, longest = fields.as_bytes([words.cost(1)] * BUFFERS.sheet), fields.as_bytes([BAD_STEP] * MOST_WORDS)
    good, certificate = fields.as_bytes(SHEETS[0]), certificate_of(SHEETS[0])
    filled = certificate + longest[len(certificate):]
    made = [calls.certify(source) for source in (most, most + b"1", most + bytes(4))]
    made += [calls.verify(source, other) for source in (most, most + b"1", most + bytes(4)) for other in (certificate, longest + b"1")]
    made += [calls.verify(good, other + more) for other in (longest, filled) for more in (b"", b"1", bytes(4))]
    return made + longest_instances()


def longest_instances():
    """Sheets whose instance has a word less than there is room for, just as many, and one more."""
    own = [([(0, 0), (1, 0), (2, 0)], 1)] * 3_963
    sheets = [fields.sheet([[(0, 0)] * 2] * 12, own + more) for more in ([([], 1)] * 2, [([], 1)] * 3, [([], 1)] * 4)]
    lengths_made = [len(made_words(sheet)) - BUFFERS.instance for sheet in sheets]
    if lengths_made != [-1, 0, 1]:
        raise ValueError(f"instances of other lengths: {lengths_made}")
    return [call for sheet in sheets
            for call in (calls.certify(fields.as_bytes(sheet)), calls.verify(fields.as_bytes(sheet), certificate_of(sheets[1])))]


def full_tables():
    """Sheets of nearly as many rows as there may be, whose tables are full after some steps; by one row more or less."""
    costs = [([(0, value), (one, x), (other, y)], 1) for one, other in combinations(range(1, 12), 2)
             for value in range(8) for x in range(3) for y in range(3)]
    random.Random("full").shuffle(costs)
    sheets = [fields.sheet([[(0, 0)] * 8] + [[(0, 0)] * 3] * 11, costs[:total]) for total in (3_900, 3_901, 3_902)]
    return [call for sheet in sheets for call in full_table(sheet)]


def full_table(sheet):
    """A table filled by the planner, the same steps verified, and the next one with them."""
    table = reference.encode(made_words(sheet), [0] * BUFFERS.table).table
    ran = reference.run_call(table, BUFFERS.limit, [0] * BUFFERS.steps)
    derivation = ran.derivation[:ran.steps]
    further = derivation + [words.step(*next_pair(*read_table(ran.table)))]
    return [calls.certify(fields.as_bytes(sheet))] + [
        verify(sheet, certificate_words(Certificate([0] * 12, 0, taken))) for taken in (derivation, further, further + [BAD_STEP])]
