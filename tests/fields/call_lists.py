"""Lists of calls through the driver: steps, runs and plans mixed, refused ones among them, in short slices."""

import random

import driver
import reference
from both import row_total
from chosen import GROWING, NONE_LEFT, TWO_LEFT, long_chain, random_field
from lists import SMALL_FIELDS
from records import recorded
from reference import fields, words
from reference.answers import GOOD
from reference.limits import ROW_WORDS

LISTS = 4_000
MOST_CALLS = 15
# The greatest limit and slice length that a call word can ask for, and the greatest target length.
MOST = driver.SLICE_MASK
MOST_TARGET = words.PAYLOAD_MASK


def random_length(chance, usual, bits):
    """A usual number, or a single bit of a field of a call word, so that each counts."""
    return chance.choice(usual) if chance.random() < 0.7 else 1 << chance.randrange(bits)


def random_call(chance, variables):
    """A call word; one in twelve asks for nothing."""
    kind = chance.choice([0, 0, 0, 0, 0, 1, 1, 1, 2, 2, 2, 3])
    if kind == driver.STEP:
        # The payload of a step word says nothing.
        return words.word(kind, chance.choice([0, 0, 0, 1, words.PAYLOAD_MASK]))
    if kind == driver.RUN:
        return driver.run_word(random_length(chance, [0, 1, 1, 2, 2, 3, 3, 4, MOST], driver.SLICE_BITS),
                               random_length(chance, [0, 1, 2, 5, MOST], driver.SLICE_BITS))
    if kind == driver.PLAN:
        usual = [0, max(variables - 1, 0), variables, variables + 1, MOST_TARGET, MOST_TARGET]
        return driver.plan_word(random_length(chance, usual, words.PAYLOAD_BITS))
    return words.word(chance.randint(3, 15), chance.choice([0, 1, MOST_TARGET, chance.randrange(1 << 28)]))


def table_length(chance, instance, variables):
    """Room for a few rows more than the encoding has, for many, for too few, or not even for the head."""
    encoding = reference.encode(instance, [0] * 500)
    rows = row_total(encoding.table) if encoding.number == GOOD else 0
    rows = max(0, rows + chance.choice([-1, 0, 0, 1, 2, 3, 4, 100, 100, 100]))
    length = fields.table_length(variables, rows, chance.randrange(ROW_WORDS))
    return length if chance.random() < 0.95 else chance.randrange(variables + 2)


def damaged(chance, instance):
    """An instance with one word changed, or cut."""
    at = chance.randrange(len(instance))
    if chance.random() < 0.3:
        return instance[:at]
    return instance[:at] + [instance[at] ^ 1 << chance.randrange(32)] + instance[at + 1:]


def random_list(both, chance, field):
    variables = len(field[0])
    instance = fields.instance(*field)
    if chance.random() < 0.05:
        instance = damaged(chance, instance)
    calls = [random_call(chance, variables) for _ in range(chance.randint(0, MOST_CALLS))]
    out = [9] * chance.choice([0, 1, 3, 10, 40, 40, 40])
    target = [200] * chance.choice([0, variables - 1] + [variables] * 4 + [variables + 2] * 2)
    both.drive(instance, [4] * table_length(chance, instance, variables), calls, out, target)


def to_the_end(both, field):
    """The whole derivation by steps, by runs of one step and by one run, in slices around its length; then the plan."""
    record, variables = recorded(field), len(field[0])
    steps = len(record.derivation)
    for calls in ([driver.step_word()] * (steps + 2), [driver.run_word(1, 1)] * (steps + 2), [driver.run_word(MOST, MOST)]):
        for out_length in range(max(steps - 2, 0), steps + 3):
            both.drive(record.instance, [4] * record.length, calls + [driver.plan_word(variables)],
                       [9] * out_length, [200] * (variables + 1))


def compare(both):
    chance = random.Random(8)
    for field in SMALL_FIELDS + [GROWING, NONE_LEFT, TWO_LEFT, long_chain()]:
        to_the_end(both, field)
    for _ in range(LISTS):
        random_list(both, chance, random_field(chance))
