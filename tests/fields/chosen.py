"""Fields that several subjects start from, each as sizes and entries; those of document 01 stand in tests/library."""

import random

from reference import fields
from reference.limits import FORBIDDEN_WEIGHT

# Four rows, four after the first step, five after the second.
GROWING = ([2, 2, 2], [([(0, 0)], 2), ([(0, 1)], 1), ([(1, 0)], 2), ([(1, 1), (2, 0)], 1)])

# Fields with forbidden entries: no assignment is left; and two are, those with value 1 of the second variable, which is dear.
NONE_LEFT = ([2, 2], [fields.forbidden((1, 0)), fields.forbidden((0, 0), (1, 1)), fields.forbidden((0, 1)), ([(0, 1)], 5)])
TWO_LEFT = ([2, 3], [([(1, 1)], 65_535), fields.forbidden((1, 0)), ([(0, 0)], 3), fields.forbidden((0, 1), (1, 2)),
                     fields.forbidden((0, 0), (1, 2)), ([], 1)])


def chain(chance, sizes):
    """A field in which all single values and all neighbours cost."""
    entries = [([(variable, value)], chance.randint(0, 9)) for variable, size in enumerate(sizes) for value in range(size)]
    for variable in range(len(sizes) - 1):
        entries += [([(variable, value), (variable + 1, other)], chance.randint(0, 5))
                    for value in range(sizes[variable]) for other in range(sizes[variable + 1])]
    return sizes, entries


def scattered(chance, sizes, entry_total):
    """A field of random entries of up to four bindings."""
    entries = []
    for _ in range(entry_total):
        bound = sorted(chance.sample(range(len(sizes)), chance.randint(0, min(len(sizes), 4))))
        entries.append(([(variable, chance.randrange(sizes[variable])) for variable in bound],
                        chance.choice([0, 1, 2, 5, 300, 65_535, FORBIDDEN_WEIGHT])))
    return sizes, entries


def random_sizes(chance):
    """Mostly few variables or none, sometimes all twelve."""
    if chance.random() < 0.1:
        return [chance.randint(1, 2) for _ in range(12)]
    return [chance.randint(1, chance.choice([2, 3, 3, 8])) for _ in range(chance.randint(0, 4))]


def random_field(chance):
    """Half of them chains, which take many steps."""
    sizes = random_sizes(chance)
    if chance.random() < 0.5 and all(size < 5 for size in sizes):
        return chain(chance, sizes)
    return scattered(chance, sizes, chance.randint(0, 14))


def long_chain():
    """Twelve variables: every sign word is in use."""
    return chain(random.Random(12), [2, 1, 2, 3, 1, 2, 2, 3, 2, 1, 2, 3])
