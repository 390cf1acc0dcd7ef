#!/usr/bin/env python3
"""Writes the benchmark's sheets, always the same ones, to the folder given: a file NAME.sheet of words for each."""

import random
import sys
from itertools import islice, product
from pathlib import Path
from typing import NamedTuple

sys.dont_write_bytecode = True
sys.path.insert(0, str(Path(__file__).resolve().parent.parent / "tests" / "reference"))

from reference import fields


class Field(NamedTuple):
    name: str
    variables: int
    values: int
    width: int          # of the square with the places, in centimetres
    seed: int = 1
    paired: float = 0.0     # share of the pairs of values of neighbouring variables that have a cost
    far: float = 0.0        # the same for variables that are `reach` apart
    reach: int = 0
    ends: str = "done"      # in the program's table, within its step limit


FIELDS = [
    Field("4x3", 4, 3, 30_000, paired=0.2),
    Field("4x8", 4, 8, 30_000, paired=0.1),
    Field("5x5", 5, 5, 30_000, paired=0.1),
    Field("6x4", 6, 4, 30_000, paired=0.2),
    Field("6x8", 6, 8, 30_000, paired=0.1),
    Field("8x3", 8, 3, 40_000, paired=0.2),
    Field("8x6", 8, 6, 30_000, seed=2),
    Field("10x5", 10, 5, 50_000, paired=0.1),
    Field("10x7", 10, 7, 50_000),
    Field("10x3-far", 10, 3, 50_000, paired=0.1, far=0.1, reach=4),
    Field("12x3", 12, 3, 50_000, paired=0.2),
    Field("12x6", 12, 6, 50_000, paired=0.1),
    Field("12x8", 12, 8, 50_000, paired=0.1, ends="paused"),
    Field("12x3-far", 12, 3, 50_000, paired=0.1, far=0.3, reach=6, ends="full"),
]


def strip(seed):
    """For certificates: the values of each variable have a square of their own, of this width."""
    return Field(f"strip-{seed}", 12, 8, 1_400, seed)


STRIPS = [strip(seed) for seed in range(1, 13)]


def sheet_of(field):
    rng = random.Random(f"{field.variables}x{field.values} {field.seed}")
    places = [places_in_square(rng, field) for _ in range(field.variables)]
    entries = single_costs(rng, field) + paired_costs(rng, field, 1, field.paired)
    if field.reach:
        entries += paired_costs(rng, field, field.reach, field.far)
    return fields.sheet(places, entries)


def strip_sheet(field):
    """Squares from west to east, 30 to 79 metres from one to the next, with all places within 10 metres of their square's middle; each
    place has a cost of 0 to 60."""
    rng = random.Random(f"strip {field.seed}")
    places, east, north = [], 0, 0
    for _ in range(field.variables):
        places.append(places_in_square(rng, field, east, north))
        east, north = east + rng.randint(3_000, 7_500), north + rng.randint(-2_500, 2_500)
    return fields.sheet(places, single_costs(rng, field, 0, 60))


def places_in_square(rng, field, east=0, north=0):
    """The places of one variable's values, in a square that begins there."""
    return [(east + rng.randrange(field.width), north + rng.randrange(field.width)) for _ in range(field.values)]


def single_costs(rng, field, least=1, most=300):
    return [([(variable, value)], rng.randint(least, most))
            for variable in range(field.variables) for value in range(field.values)]


def paired_costs(rng, field, apart, share):
    return [([(variable, value), (variable + apart, other)], rng.randint(1, 100))
            for variable in range(field.variables - apart)
            for value in range(field.values) for other in range(field.values)
            if rng.random() < share]


def settled_sheet(rows):
    """Five variables to be resolved, and beside them, in the bucket of variable 6, so many rows that go with no other:
    they all leave out the same value there. Variables from 5 on lie in one place, so that travel between them is free."""
    core = Field("core", 5, 5, 30_000)
    rng = random.Random("settled")
    places = [places_in_square(rng, core) for _ in range(core.variables)]
    places += [[(0, 0)], [(0, 0)] * 2] + [[(0, 0)] * 8] * 4
    beside = [([(6, 0), (7, k // 512), (8, k // 64 % 8), (9, k // 8 % 8), (10, k % 8)], 1) for k in range(rows)]
    return fields.sheet(places, single_costs(rng, core) + beside)


# Of twelve variables of eight values each, the one that is resolved where others below it are settled.
RESOLVED = 8


def settled_below_sheet(rows, stations):
    """One variable to be resolved, and in the buckets of so many variables below it, as many in each, rows that go with no
    other. All lies in one place, so that travel is free."""
    rng = random.Random("settled below")
    resolved = [([(RESOLVED, value)], rng.randint(1, 300)) for value in range(8)]
    resolved += [([(RESOLVED, value), (RESOLVED + 1, other)], rng.randint(1, 100)) for value in range(8) for other in range(8)]
    below = [entry for variable in range(stations) for entry in leaving_out(variable, rows // stations)]
    return fields.sheet([[(0, 0)] * 8] * 12, resolved + below)


def leaving_out(variable, count):
    """So many entries whose rows leave out the same value of their lowest variable. They differ in up to four variables above
    it, but for the one to be resolved: so hunt and look-ups tell each of them apart by one word, whatever its bucket is."""
    others = [other for other in range(variable + 1, 12) if other != RESOLVED][-4:]
    return [([(variable, 0), *zip(others, values)], 1) for values in islice(product(range(8), repeat=len(others)), count)]


def write_sheets(folder):
    folder.mkdir(parents=True, exist_ok=True)
    sheets = {field.name: sheet_of(field) for field in FIELDS} | {field.name: strip_sheet(field) for field in STRIPS}
    for name, words in sheets.items():
        (folder / (name + ".sheet")).write_bytes(fields.as_bytes(words))


if __name__ == "__main__":
    write_sheets(Path(sys.argv[1]))
