"""There and back: the examples, random sheets, and sheets at the limits."""

import random

from checks import ROOT
from reference import fields
from reference.limits import FORBIDDEN_WEIGHT, MAX_COORDINATE, MAX_COST, MAX_SIZE, MAX_VARIABLES
from sheets.forms import text_to_words, words_to_text

SHEETS = 200
COORDINATES = [0, 1, -1, 5, -5, 49, -49, 50, -50, 99, -99, 100, -100, 12_345, MAX_COORDINATE, -MAX_COORDINATE]
# The last is the reference's for a forbidden entry.
COSTS = [0, 1, 9, 10, 300, MAX_COST - 1, MAX_COST, FORBIDDEN_WEIGHT]
# 14,080 words, whose instance has 16,000: 13 for the stations, 3 for each of 704 legs, 5 for each entry.
LONGEST_INSTANCE = [[(0, 0)] * MAX_SIZE] * MAX_VARIABLES, [([(0, 0), (1, 0), (2, 0), (3, 0)], 1)] * 2_775


def run(checks):
    rng = random.Random("sheets there and back")
    for path in sorted((ROOT / "examples").glob("*.sheet")):
        check_words(checks, path.name, path.read_bytes())
    check_words(checks, "no words", fields.NO_WORDS)
    for at in range(SHEETS):
        places, entries = random_sheet(rng)
        words = fields.as_bytes(fields.sheet(places, entries))
        check_words(checks, f"sheet {at}", words)
        # A text with names, comments and short numbers has the words that the reference packs.
        checks.same(f"text of sheet {at}", text_to_words(loose_text(rng, places, entries)), words)
    for name, (places, entries) in limits().items():
        check_words(checks, name, fields.as_bytes(fields.sheet(places, entries)))


def check_words(checks, name, words):
    text = words_to_text(words)
    checks.same(f"words of {name}", text_to_words(text), words)
    checks.same(f"text of {name}", words_to_text(text_to_words(text)), text)


def random_sheet(rng):
    """Places and entries; some entries repeat."""
    sizes = [rng.randint(1, MAX_SIZE) for _ in range(rng.randint(0, MAX_VARIABLES))]
    places = [[(random_coordinate(rng), random_coordinate(rng)) for _ in range(size)] for size in sizes]
    entries = [random_entry(rng, sizes) for _ in range(rng.randint(0, 12))]
    return places, entries + rng.choices(entries, k=rng.randint(0, 3)) if entries else entries


def random_coordinate(rng):
    return rng.choice(COORDINATES) if rng.random() < 0.5 else rng.randint(-MAX_COORDINATE, MAX_COORDINATE)


def random_entry(rng, sizes):
    bound = sorted(rng.sample(range(len(sizes)), rng.choice([0, 1, 1, 2, 3, len(sizes)]) % (len(sizes) + 1)))
    return [(variable, rng.randrange(sizes[variable])) for variable in bound], rng.choice(COSTS)


def limits():
    """Sheets that have as much as fits."""
    here = (0, 0)
    return {
        "most stations and spots": ([[here] * MAX_SIZE] * MAX_VARIABLES, [([], 1)] * (4_096 - 11 * 64)),
        "most entries": ([[here]], [([], 0)] * 4_096),
        "most forbidden": ([[here]], [fields.forbidden()] * 4_096),
        "no stations and no entries": ([], []),
        "no stations and most entries": ([], [([], MAX_COST), fields.forbidden()] * 2_048),
        "longest entry": ([[here]] * 12, [([(variable, 0) for variable in range(12)], MAX_COST)]),
        "longest forbidden": ([[here]] * 12, [fields.forbidden(*((variable, 0) for variable in range(12)))]),
        "longest instance": LONGEST_INSTANCE,
        "most words": ([[here]] * 3, [([(0, 0), (1, 0), (2, 0)], 1)] * 3_997 + [([(0, 0)], 1)]),
    }


def loose_text(rng, places, entries):
    """The sheet as a careless hand writes it."""
    lines = [] if places else ["stations 0"]
    for variable, values in enumerate(places):
        lines.append(f"station {variable}{rng.choice(['', ' tor-süd', ' 7'])}")
        lines += [f"spot {value} at {loose_metres(rng, east)} {loose_metres(rng, north)}"
                  for value, (east, north) in enumerate(values)]
    lines += [loose_entry(rng, bindings, cost) for bindings, cost in entries]
    ending = rng.choice(["\n", "\r\n"])
    return ending.join(loose_line(rng, line) for line in lines).encode(rng.choice(["utf-8", "utf-8-sig", "latin-1"]))


def loose_metres(rng, centimetres):
    """With as few decimal places as the number needs or with two, and sometimes a leading zero."""
    sign = "-" if centimetres < 0 else rng.choice(["", "-"]) if centimetres == 0 else ""
    whole, rest = divmod(abs(centimetres), 100)
    shortest = f".{rest:02}".rstrip("0").rstrip(".")
    return sign + rng.choice(["", "0"]) + str(whole) + rng.choice([shortest, f".{rest:02}"])


def loose_entry(rng, bindings, cost):
    spots = " ".join(f"{variable}/{value}" for variable, value in bindings)
    if cost == FORBIDDEN_WEIGHT:
        return f"forbidden {spots}"
    return f"cost {cost} at {spots}" if spots else f"cost {cost}"


def loose_line(rng, line):
    before = rng.choice(["", "", "  ", "\t", "# Gräben\n", "\n\n"])
    return before + line.replace(" ", rng.choice([" ", "   ", "\t"])) + rng.choice(["", " ", "# naß", " # cost 5"])
