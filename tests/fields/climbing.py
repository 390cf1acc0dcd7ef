"""The lowest unsettled variable along runs: each step is on it, as the reference hunts for it from variable 0 on, and it never
falls. One run, runs of a few steps each and single step calls, which keep no value from one call to the next, make the same steps
and leave the same table.

Covered are random tables of more variables than the small fields have, encoded ones and those that other runs have left, in which
several variables are settled; small_fields takes what is here for every small field.
"""

import random

from both import OUTCOMES
from chosen import chain, long_chain, scattered
from different import Different, require
from proved import FIELD, SIZE, WORD, Slice, call
from records import stepped
from reference import encode, fields, words
from reference.clauses import full
from reference.limits import ROW_WORDS
from reference.resolution import Pair, lowest_unsettled, resolve
from reference.steps import DONE, PAUSED, STEPPED
from reference.tables import Row, read_table, table_words

PIECES = [1, 2, 7]
PAUSED_ANSWER = OUTCOMES[PAUSED]
# Room for every row of most fields here; in others a step is refused.
ROWS = 300
# A start is half resolved where so many variables are settled and a step is left.
SETTLED = 2


def stepped_to_the_end(both, table):
    """The derivation by single steps and the table after it."""
    derivation = []
    answer = both.step(table)
    while answer.outcome == STEPPED:
        derivation.append(answer.word)
        answer = both.step(answer.table)
    return derivation, answer.table


def in_pieces(both, table, most):
    """Runs of at most so many steps until one is not paused, by the library alone: the words, and what is left, which is the
    table, the last number and the last bound."""
    lent, piece, answer = Slice(WORD, table), Slice(WORD, [9] * most), Slice(FIELD, [77] * 3)
    derivation, outcome = [], PAUSED_ANSWER
    while outcome == PAUSED_ANSWER:
        number = call("gotalhim_run", [lent, SIZE(most), piece, answer])
        both.counted(number)
        outcome, steps, bound = answer.content()
        require(steps == most or outcome != PAUSED_ANSWER, f"a run of {most} steps paused after {steps}")
        derivation += piece.content()[:steps]
    return derivation, (lent.content(), number, bound)


def same_in_pieces(both, start, single, ran):
    """Single steps, whose derivation and last table are known, one run and shorter runs come to the same."""
    whole = ran.derivation[:ran.steps], (ran.table, ran.number, ran.bound)
    # Texts with whole tables in them are made only where there is a difference.
    if single != (whole[0], ran.table):
        raise Different(f"single steps {single}, one run {whole}")
    for most in PIECES:
        # One piece that is longer than all steps is one run again.
        pieces = in_pieces(both, start, most) if most <= ran.steps else whole
        if pieces != whole:
            raise Different(f"runs of {most} steps {pieces}, one run {whole}")


def climbs(both, sizes, rows, derivation):
    """The lowest unsettled variable before the first step and after the last; each step is on it, and it never falls."""
    first = lowest = lowest_unsettled(sizes, rows)
    for word in derivation:
        pair = Pair(*words.step_of(word))
        require(pair.variable == lowest, f"a step on variable {pair.variable}, the lowest unsettled one is {lowest}")
        rows = resolve(sizes, rows, pair)
        before, lowest = lowest, lowest_unsettled(sizes, rows)
        require(before <= lowest, f"the lowest unsettled variable falls from {before} to {lowest}")
        both.climbed += 1
    return first, lowest


def along(both, start, single, ran):
    """All that is said above, of one run from a table; the lowest unsettled variable before it."""
    sizes, rows = read_table(start)
    same_in_pieces(both, start, single, ran)
    first, last = climbs(both, sizes, rows, single[0])
    require((last == len(sizes)) == (ran.outcome == DONE), f"{ran.outcome}, the lowest unsettled variable is {last}")
    return first


def from_table(both, table):
    """Compares the runs from a table; whether it is half resolved."""
    single = stepped_to_the_end(both, table)
    room = len(single[0]) + 1
    return along(both, table, single, both.run(table, room, [4] * room)) >= SETTLED and bool(single[0])


def passed_tables(chance, field):
    """The encoding of a field, and two tables that its run passes."""
    length = fields.table_length(len(field[0]), ROWS, chance.randrange(ROW_WORDS))
    _, tables = stepped(encode(fields.instance(*field), [0] * length).table)
    return tables[:1] + chance.sample(tables, min(2, len(tables)))


def random_table(chance):
    """A table that need not come from a field: of its few rows many go with none."""
    sizes = [chance.randint(2, 4) for _ in range(chance.randint(4, 12))]
    clauses = {tuple(chance.choice([0, 0, 0, chance.randrange(full(size))]) for size in sizes) for _ in range(12)}
    rows = [Row(signs, chance.randint(1, 9)) for signs in sorted(clauses)]
    chance.shuffle(rows)
    room = len(rows) + chance.choice([2, 20, 60])
    return table_words(sizes, rows, fields.table_length(len(sizes), room, chance.randrange(ROW_WORDS)))


def chosen_tables(chance):
    yield from passed_tables(chance, long_chain())
    for _ in range(10):
        yield from passed_tables(chance, chain(chance, [chance.randint(1, 3) for _ in range(chance.randint(4, 7))]))
        sizes = [chance.randint(2, 4) for _ in range(chance.randint(4, 12))]
        yield from passed_tables(chance, scattered(chance, sizes, 20))
        yield random_table(chance)


def compare(both):
    half_resolved = sum(from_table(both, table) for table in chosen_tables(random.Random(21)))
    require(half_resolved >= 10, f"{half_resolved} tables are half resolved")
