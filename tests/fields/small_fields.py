"""Every small field through all calls: the encoding, each step, the whole run, runs of a few steps, the plan, its completion from
any last values, and the checker.

Covered are all fields with costs from these sets, the entries in the order constant, single values, pairs of values:
- no variables: up to three constants of 0, 1, 65,535 or forbidden;
- one variable of 1 to 4 values: constant 0 or 1, values 0 to 4;
- two variables of 1 and 1, 1 and 2, 2 and 1, 2 and 2, 1 and 3, 3 and 1 values: constant 0 or 1, values 0 or 1, pairs 0 to 2;
- two variables of 2 and 3 values: no constant, values 0 or 1, pairs 0 to 2;
- two variables of 3 and 2 values: constant 0 or 1, values 0 or 1, pairs 0 or 1; and pairs 0 to 2 alone.
With forbidden entries:
- one variable of 1 to 4 values: constant 0 or forbidden, values 0, 1 or forbidden;
- two variables of 1 and 1, 1 and 2, 2 and 1, 2 and 2, 1 and 3, 3 and 1 values: no constant, values 0 or forbidden, pairs 0, 1 or
  forbidden; and the other way round;
- two variables of 2 and 3, 3 and 2 values: pairs 0, 1 or forbidden alone.
"""

from itertools import product
from math import prod
from typing import NamedTuple

import empty_fields
from both import row_total
from climbing import along, stepped_to_the_end
from completions import completed
from different import require
from reference import fields
from reference.answers import FORBIDDEN, GOOD
from reference.clauses import full
from reference.limits import FORBIDDEN_WEIGHT, ROW_WORDS


class Costs(NamedTuple):
    """The costs that the entries of a field take."""
    constant: list
    value: list
    pair: list


SINGLE = [[size] for size in (1, 2, 3, 4)]
PAIRED = [[1, 1], [1, 2], [2, 1], [2, 2], [1, 3], [3, 1]]
# Up to a highest cost each whole number from 0 on; and with forbidden entries.
FREE, ONE, TWO, FOUR = ([*range(highest + 1)] for highest in (0, 1, 2, 4))
BANNED, ONE_OR_BANNED = [0, FORBIDDEN_WEIGHT], [0, 1, FORBIDDEN_WEIGHT]
COVERED = ([(sizes, Costs(ONE, FOUR, FREE)) for sizes in SINGLE]
           + [(sizes, Costs(ONE, ONE, TWO)) for sizes in PAIRED]
           + [([2, 3], Costs(FREE, ONE, TWO)), ([3, 2], Costs(ONE, ONE, ONE)), ([3, 2], Costs(FREE, FREE, TWO))]
           + [(sizes, Costs(BANNED, ONE_OR_BANNED, FREE)) for sizes in SINGLE]
           + [(sizes, Costs(FREE, BANNED, ONE_OR_BANNED)) for sizes in PAIRED]
           + [(sizes, Costs(FREE, ONE_OR_BANNED, BANNED)) for sizes in PAIRED]
           + [(sizes, Costs(FREE, FREE, ONE_OR_BANNED)) for sizes in ([2, 3], [3, 2])])


def places(sizes, costs):
    """The bindings of every entry that a field may have, each with the costs that it takes."""
    values = [[(variable, value) for value in range(size)] for variable, size in enumerate(sizes)]
    listed = [([], costs.constant)]
    listed += [([bound], costs.value) for bindings in values for bound in bindings]
    if len(sizes) == 2:
        listed += [(list(pair), costs.pair) for pair in product(*values)]
    return listed


def all_fields(sizes, costs):
    """The entries of every field of these sizes; entries of cost 0 stand in them, too."""
    listed = places(sizes, costs)
    for chosen in product(*(amounts for _, amounts in listed)):
        yield [(bindings, cost) for (bindings, _), cost in zip(listed, chosen)]


def every_field():
    """The sizes and entries of every field covered."""
    for costs in empty_fields.constants():
        yield [], [([], cost) for cost in costs]
    for sizes, costs in COVERED:
        for entries in all_fields(sizes, costs):
            yield sizes, entries


def most_rows(sizes):
    """As many rows as there are clauses without a full sign: a table of this capacity never runs full."""
    return prod(full(size) for size in sizes)


def through_all_calls(both, sizes, entries, spare):
    instance = fields.instance(sizes, entries)
    length = fields.table_length(len(sizes), most_rows(sizes), spare)
    start = both.encode(instance, [5] * length).table
    derivation, table = stepped_to_the_end(both, start)
    ran = both.run(start, len(derivation) + 1, [4] * (len(derivation) + 1))
    along(both, start, (derivation, table), ran)
    planned = both.plan(table, [8] * len(sizes))
    # In a slice that ends behind the rows, which takes less time.
    ended = table[:fields.table_length(len(sizes), row_total(table), spare)]
    unfixed = completed(both, sizes, entries, ended)[()]
    plan = (FORBIDDEN, [8] * len(sizes)) if fields.all_forbidden(sizes, entries) else (GOOD, unfixed.target)
    require((unfixed.cost, planned) == (ran.bound, plan), f"{unfixed} with no value fixed, the plan {planned}, due {plan}")
    both.check(instance, derivation, unfixed.target, ran.bound, [6] * length)


def compare(both):
    for index, (sizes, entries) in enumerate(every_field()):
        through_all_calls(both, sizes, entries, index % ROW_WORDS)
