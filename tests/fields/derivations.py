"""The checker on damaged derivations, plans and costs, and in work tables of every length around the needed one."""

import random
from itertools import chain as chain_of

from chosen import GROWING, NONE_LEFT, TWO_LEFT, chain, long_chain, scattered
from lists import SMALL_FIELDS
from records import recorded
from reference import fields, words
from reference.limits import ROW_WORDS
from reference.resolution import permitted
from reference.tables import read_table

RANDOM_FLIPS = 150
RANDOM_DERIVATIONS = 60
MOST_STEPS = 10


def check(both, record):
    both.check(record.instance, record.derivation, record.plan, record.cost, [9] * record.length)


def with_derivation(record, derivation):
    return record._replace(derivation=derivation)


def flipped_bits(record):
    """Each bit of each step word."""
    for at, word in enumerate(record.derivation):
        for bit in range(32):
            yield with_derivation(record, record.derivation[:at] + [word ^ 1 << bit] + record.derivation[at + 1:])


def random_flips(chance, record):
    """For long derivations: single bits here and there."""
    for _ in range(RANDOM_FLIPS if record.derivation else 0):
        spoiled = list(record.derivation)
        spoiled[chance.randrange(len(spoiled))] ^= 1 << chance.randrange(32)
        yield with_derivation(record, spoiled)


def moved_words(record):
    """Words left out, doubled, exchanged with the next one; rows exchanged within a word; cut and lengthened."""
    derivation = record.derivation
    for at, word in enumerate(derivation):
        before, after = derivation[:at], derivation[at + 1:]
        variable, first, second = words.step_of(word)
        for changed in (after, [word, word] + after, after[:1] + [word] + after[1:],
                        [words.step(variable, second, first)] + after, [words.step(variable, first, first)] + after, []):
            yield with_derivation(record, before + changed)
    for more in (derivation[-1:], [0], [0x70000001], [0xFFFFFFFF], derivation):
        yield with_derivation(record, derivation + more)


def all_steps(record):
    """Every step word of few rows in place of the first, permitted or not."""
    for variable in range(4):
        for first in range(5):
            for second in range(5):
                yield with_derivation(record, [words.step(variable, first, second)] + record.derivation[1:])


def wrong_claims(record):
    """Costs beside the right one, also with high bits set, and plans that are cut, too long, dearer or out of range."""
    for cost in (0, 1, record.cost - 1, record.cost + 1, record.cost % (1 << 28), record.cost + (1 << 28), record.cost + (1 << 32),
                 record.cost + (1 << 56), record.cost + (1 << 63), (1 << 64) - 1):
        if cost >= 0:
            yield record._replace(cost=cost)
    for at in range(len(record.plan)):
        for value in list(range(10)) + [128, 255]:
            yield record._replace(plan=record.plan[:at] + [value] + record.plan[at + 1:])
        yield record._replace(plan=record.plan[:at])
    yield record._replace(plan=record.plan + [0])
    for steps in range(len(record.derivation)):
        yield with_derivation(record, record.derivation[:steps])._replace(cost=record.cost + 1)


def other_lengths(record):
    """Work tables from no words to ten more than needed."""
    for length in range(record.length + 10):
        yield record._replace(length=length)


def faulty_instances(chance, record):
    """Faults 1 to 5 come first, whatever else is wrong."""
    for length in range(len(record.instance)):
        yield record._replace(instance=record.instance[:length])
    for end in ([words.cost(65_536)], [words.cost(0)] * 4_096, [words.binding(0, 0)], [words.forbidden(1)],
                [words.forbidden()] * 4_096):
        for length in (0, record.length):
            yield record._replace(instance=record.instance + end, derivation=[0], plan=[], length=length)
    for _ in range(40):
        instance = list(record.instance)
        instance[chance.randrange(len(instance))] ^= 1 << chance.randrange(32)
        yield record._replace(instance=instance)


def permitted_words(table):
    """The step words of all permitted pairs, whatever bucket their rows are in."""
    sizes, rows = read_table(table)
    return [words.step(variable, first, second)
            for second in range(len(rows)) for first in range(second) for variable in range(len(sizes))
            if permitted(sizes, variable, rows[first].signs, rows[second].signs)]


def random_derivation(both, chance, field):
    """Permitted steps in any order, each with the claim that the table then allows or another; at times in a short table."""
    variables = len(field[0])
    instance, rows = fields.instance(*field), chance.choice([6, 12, 100, 100])
    derivation, length = [], fields.table_length(variables, rows, chance.randrange(ROW_WORDS))
    answer = both.check(instance, [], [0] * variables, 0, [9] * length)
    while answer.number in (0, 7) and len(derivation) < MOST_STEPS:
        choice = permitted_words(answer.table)
        if not choice:
            return
        derivation.append(chance.choice(choice))
        answer = both.check(instance, derivation, [0] * variables, chance.randrange(3), [9] * length)


def changed(record):
    """The damage that every record gets."""
    yield record
    for damage in (moved_words, all_steps, wrong_claims, other_lengths):
        yield from damage(record)


def short_records(both, chance):
    """All damage, each bit of each word included."""
    chains = [chain(chance, [3, 2]), chain(chance, [2, 2, 2])]
    for index, field in enumerate(SMALL_FIELDS + [GROWING, NONE_LEFT, TWO_LEFT] + chains):
        record = recorded(field, index % ROW_WORDS)
        for spoiled in chain_of(changed(record), flipped_bits(record), faulty_instances(chance, record)):
            check(both, spoiled)


def long_records(both, chance):
    """Up to seventy steps, and all twelve variables: each bit of some, random bits of others."""
    for index, field in enumerate([chain(chance, [3, 2, 3]), chain(chance, [3, 3, 3]), long_chain()]):
        record = recorded(field, index)
        for spoiled in chain_of(flipped_bits(record), wrong_claims(record)):
            check(both, spoiled)
    for index, field in enumerate([chain(chance, [4, 4]), chain(chance, [8]), scattered(chance, [5, 4, 3], 25)]):
        record = recorded(field, index)
        for spoiled in chain_of(random_flips(chance, record), moved_words(record), wrong_claims(record)):
            check(both, spoiled)


def compare(both):
    chance = random.Random(7)
    short_records(both, chance)
    long_records(both, chance)
    for _ in range(RANDOM_DERIVATIONS):
        random_derivation(both, chance, scattered(chance, [3, 2, 3], 12))
