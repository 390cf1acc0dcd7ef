"""Readouts through the proved library against the reference: sheets, plans, variables and positions, good and bad."""

import random
from collections import Counter

import proved
import reference
from different import require
from inputs import INTERESTING, bounds, damaged, good_sheets
from lists import noted
from reference import words


def position(chance, make):
    """A coordinate word, now and then one of another kind or out of range."""
    if chance.random() < 0.15:
        return chance.choice(INTERESTING)
    return make(chance.choice([-1000000, 0, 1000000, chance.randint(-1000000, 1000000)]))


def plan_for(sizes, chance):
    """Mostly an assignment; else a value out of range, a byte too few or one too many."""
    plan = [chance.randrange(size) for size in sizes]
    way = chance.random()
    if plan and way < 0.1:
        plan[chance.randrange(len(plan))] = chance.choice([8, 255] + sizes)
    elif plan and way < 0.15:
        plan.pop()
    elif way < 0.2:
        plan.append(0)
    return plan


def sizes_in(sheet):
    """The sizes that a sheet's station words name, also where the sheet is refused for something else."""
    return [words.payload_of(w) for w in sheet if words.kind_of(w) == words.SIZE]


def same_answer(sheet, plan, variable, easting, northing, answer):
    """One readout on both sides; its number."""
    expected = reference.readout_call(sheet, plan, variable, easting, northing)
    got = proved.readout_call(sheet, plan, variable, easting, northing, answer)
    require(got == (expected.number, noted(answer, [expected.metres])),
            f"readout {sheet[:20]} {plan} {variable} {easting:x} {northing:x}: {got}, reference {expected}")
    return expected.number


def same_readout(sheet, sizes, chance):
    """One random readout; its number."""
    plan, answer = plan_for(sizes, chance), [77] * chance.choice([0, 1, 1, 2])
    variable = chance.choice(list(range(len(sizes))) * 3 + [len(sizes), 12, 2 ** 32 - 1])
    easting, northing = position(chance, words.easting), position(chance, words.northing)
    return same_answer(sheet, plan, variable, easting, northing, answer)


def run():
    chance = random.Random(7)
    reached = Counter()
    for sheet in good_sheets():
        sizes = sizes_in(sheet)
        for _ in range(300):
            reached[same_readout(sheet, sizes, chance)] += 1
        # Of no words there are none to damage.
        spoiled_sheets = list(damaged(sheet, chance))
        for spoiled in chance.sample(spoiled_sheets, min(60, len(spoiled_sheets))):
            reached[same_readout(spoiled, sizes, chance)] += 1
    for sheet in bounds():
        for _ in range(20):
            reached[same_readout(sheet, sizes_in(sheet), chance)] += 1
    require(all(reached[number] >= 10 for number in (0, 1, 2, 3, 4, 5, 8)), f"hardly reached: {reached}")
    return sum(reached.values())
