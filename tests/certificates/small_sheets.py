"""The small fields whose certificates are made, verified and damaged: their names, the bytes of their sheets, and what the
reference prints and writes for them."""

import random
from functools import cache
from typing import NamedTuple

from commands import EXAMPLES
from reference.certificates import certified
from reference.fields import as_bytes, forbidden, sheet
from reference.limits import FORBIDDEN_WEIGHT, MAX_VARIABLES

HERE = (0, 0)
RANDOM = 160
COSTS = [0, 1, 2, 5, 9, 300, 65_535, FORBIDDEN_WEIGHT]


class Field(NamedTuple):
    name: str
    sheet: bytes
    text: bytes
    certificate: bytes      # none where there is no plan


def examples():
    """The example sheets but for the longest."""
    for name in ("corner", "culvert", "flooded", "headland"):
        yield name, (EXAMPLES / f"{name}.sheet").read_bytes()


def chosen():
    """Without stations, with one, with single spots, with twelve; costs that are 0, forbidden, and above 32 bits."""
    yield "no words", b""
    for name, source in {
        "no stations": sheet([], []), "no stations, costs": sheet([], [([], 5), ([], 65_535)]),
        "no stations, forbidden": sheet([], [forbidden()] * 17),
        "one spot": sheet([[(5, 5)]], [([(0, 0)], 7)]),
        "one station": sheet([[HERE] * 3], [([(0, spot)], 4 - spot) for spot in range(3)]),
        "one station, no cost": sheet([[HERE] * 8], []),
        "single spots": sheet([[(300 * at, 0)] for at in range(MAX_VARIABLES)], [([(0, 0), (11, 0)], 65_535)]),
        "no cost anywhere": sheet([[HERE] * 2] * 3, []),
        "one spot left": sheet([[HERE] * 3], [forbidden((0, 0)), ([(0, 1)], 65_535), forbidden((0, 2))]),
        "every spot forbidden": sheet([[HERE] * 2], [forbidden((0, 0)), forbidden((0, 1))]),
        "above 32 bits": sheet([[HERE] * 2], [forbidden((0, 0))] * 16 + [([(0, 0)], 65_520)] + [forbidden((0, 1))] * 40),
        "greatest cost": sheet([[HERE]], [([], 65_535)] * 4_096),
        "growing": sheet([[HERE] * 2] * 3, [([(0, 0)], 2), ([(0, 1)], 1), ([(1, 0)], 2), ([(1, 1), (2, 0)], 1)]),
        "twelve of two": sheet([[(90 * at, 70), (100 * at + 13, 7 * at)] for at in range(MAX_VARIABLES)],
                               [([(at, at % 2)], 3 + at) for at in range(MAX_VARIABLES)]),
    }.items():
        yield name, as_bytes(source)


def random_sheet(chance):
    """Up to four stations and 400 plans, entries of up to three pairs, some forbidden."""
    places = [[(chance.randrange(1_500), chance.randrange(1_500)) for _ in range(chance.randint(1, chance.choice([2, 3, 4])))]
              for _ in range(chance.randint(0, 4))]
    entries = []
    for _ in range(chance.randint(0, 5 * len(places) + 2)):
        bound = sorted(chance.sample(range(len(places)), chance.randint(0, min(3, len(places)))))
        entries.append(([(station, chance.randrange(len(places[station]))) for station in bound], chance.choice(COSTS)))
    return as_bytes(sheet(places, entries))


@cache
def small_fields():
    chance = random.Random("certificates")
    sheets = [*examples(), *chosen(), *((f"random {at}", random_sheet(chance)) for at in range(RANDOM))]
    return [Field(name, source, *certified(source)) for name, source in sheets]


def planned_fields(shortest=0, longest=1 << 20):
    """Those with a certificate of so many words."""
    return [field for field in small_fields() if field.certificate and shortest <= len(field.certificate) // 4 <= longest]
