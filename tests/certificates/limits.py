"""At the limits of the two programs: lengths of sheets and certificates, rows and steps beyond the planner's, and long fields whose
least cost is found from one end to the other."""

import random
import tempfile
from collections import Counter
from itertools import combinations, product

from certified import VERIFY, Certifier, packed
from damaged import compare
from own import accepted
from programs import given_whole
from reference import words
from reference.certificates import BUFFERS, MOST_WORDS, Certificate, certified, request, verified
from reference.distance import distance
from reference.fields import as_bytes, sheet
from reference.limits import MAX_ROWS
from sheets import all_sheets, long_entries, spread
from small_sheets import planned_fields

HERE = (0, 0)
MOST_BYTES = 4 * MOST_WORDS
LEGS = 11 * 8 * 8
# What the planner has no room for, when it encodes it or on the way.
NO_ROOM = ["12-2665-rows-of-7-stations", "12-2666-rows-of-4-stations", "full-in-the-run-2464", "full-bound-of-17-forbidden",
           "full-bound-of-3900-forbidden"]
# Stations of eight spots, and the seed of fields of legs and single costs; seed and spots of one with costs of more stations.
LONG_FIELDS = [(8, 661), (12, 1), (12, 2)]
BANDED = 594, [7, 7, 8, 6, 7, 7, 5, 6, 7, 5, 7, 7]


def all_pairs(rows, cost):
    """Twelve stations of eight spots in which so many pairs of spots cost, those of the legs first at 10: a row each."""
    pairs = [([(one, spot), (two, other)], cost) for one, two in combinations(range(12), 2) if two > one + 1
             for spot, other in product(range(8), repeat=2)]
    return as_bytes(sheet([[(1_000 * station, 0)] * 8 for station in range(12)], pairs[:rows - LEGS]))


def check_rows(checks, certify):
    """A step of a leg and of a pair of station 0, with other stations in each: three new rows for the two, of which one stays
    where its weight is greater."""
    for rows, cost, number in ((MAX_ROWS - 1, 10, 7), (MAX_ROWS, 10, 12), (MAX_ROWS - 2, 11, 7), (MAX_ROWS - 1, 11, 12)):
        claim = Certificate([0] * 12, 0, [words.step(0, 0, LEGS + 8)])
        due = compare(checks, f"a step in {rows} rows", all_pairs(rows, cost), packed(claim))
        checks.same(f"the number of a step in {rows} rows", due, f"REFUSED {number}\n".encode())
    field = all_pairs(MAX_ROWS, 10)
    text, certificate = certified(field)
    checks.same("the plan of a field with as many rows as there may be", certify(field), (text, certificate))
    checks.same("whether it is planned", text[:4], b"PLAN")
    checks.same("the verdict on it", given_whole(VERIFY, request(field, certificate)), accepted(text))


def crowded():
    """A field that comes to 4,096 rows after 984 steps, and needs 4,097 for the next."""
    chance = random.Random(10)
    entries = [([(0, at % 3), *((station, 0) for station in sorted(chance.sample(range(1, 12), 3)))], at + 1) for at in range(72)]
    return as_bytes(sheet([[HERE] * 3] + [[HERE] * 2] * 11, entries))


def check_full(checks, certify):
    due = b"FULL 984 BOUND 0\n", b""
    checks.same("a field that is full, by the reference", certified(crowded()), due)
    checks.same("a field that is full", certify(crowded()), due)
    less = certified(crowded(), BUFFERS._replace(table=14 + 6 * (MAX_ROWS - 1)))
    checks.same("a field that is full with a row less", less[0] < due[0], True)


def check_no_room(checks, certify):
    """They are planned, found to have no plan, or full here too."""
    sheets, endings = dict(all_sheets()), []
    for name in NO_ROOM:
        text, certificate = certified(sheets[name])
        checks.same(f"the text and the certificate of {name}", certify(sheets[name]), (text, certificate))
        endings.append(text.split()[0])
        if certificate:
            checks.same(f"the verdict on {name}", given_whole(VERIFY, request(sheets[name], certificate)), accepted(text))
    checks.same("how these end", endings, [b"PLAN", b"PLAN", b"PLAN", b"REFUSED", b"FULL"])


def banded(seed, sizes):
    """A field in which single spots cost, and those of neighbours and of their neighbours: about 100,000 steps."""
    chance = random.Random(seed)
    places = [[(chance.randrange(30_000), chance.randrange(30_000)) for _ in range(size)] for size in sizes]
    entries = [([(station, spot)], chance.randint(1, 5_000)) for station, size in enumerate(sizes) for spot in range(size)]
    entries += [([(station, spot), (station + 2, other)], chance.randint(1, 5_000)) for station in range(len(sizes) - 2)
                for spot in range(sizes[station]) for other in range(sizes[station + 2])]
    return places, entries


def least_cost(places, entries):
    """Where only stations up to two apart cost together: the least to reach each pair of spots, from one station to the next."""
    costs = Counter({tuple(bindings): cost for bindings, cost in entries})
    for station, (starts, ends) in enumerate(zip(places, places[1:])):
        costs.update({((station, here), (station + 1, there)): distance(start, end)
                      for here, start in enumerate(starts) for there, end in enumerate(ends)})
    reached = {(): 0}
    for station, spots in enumerate(places):
        ahead = {}
        for (before, paid), spot in product(reached.items(), range(len(spots))):
            here = station, spot
            cost = paid + costs[here,] + sum(costs[bound, here] for bound in before)
            last = (*before, here)[-2:]
            ahead[last] = min(cost, ahead.get(last, cost))
        reached = ahead
    return min(reached.values())


def check_long_fields(checks, certify):
    """More steps than the planner makes."""
    fields = [(spread(seed, stations, 8, 30_000, 300), 16_000) for stations, seed in LONG_FIELDS]
    for at, ((places, entries), fewest) in enumerate([*fields, (banded(*BANDED), 90_000)]):
        source = as_bytes(sheet(places, entries))
        text, certificate = certify(source)
        checks.same(f"the plan of long field {at}", text.split(b"\n")[:2], [b"PLAN", b"COST %d" % least_cost(places, entries)])
        steps = int(text.split()[4])
        checks.same(f"the steps of long field {at}", (steps > fewest, len(certificate) // 4), (True, len(places) + 3 + steps))
        checks.same(f"the verdict on long field {at}", given_whole(VERIFY, request(source, certificate)), accepted(text))


def check_certificate_lengths(checks, _):
    """Certificates about the longest, for a field of twelve stations and for others, with a good front and without."""
    for _, field, _, certificate in (field for field in planned_fields() if field.name in ("corner", "no words", "single spots")):
        for front in (certificate, bytes(12)):
            whole = front + bytes(MOST_BYTES - len(front))
            for length in (MOST_BYTES - 4, MOST_BYTES - 1, MOST_BYTES, MOST_BYTES + 1, MOST_BYTES + 4, MOST_BYTES + 70_000):
                compare(checks, f"a certificate of {length} bytes", field, (whole + bytes(70_000))[:length])


def check_sheet_lengths(checks, certify):
    """Sheets of 64,000 bytes and one more, instances of 16,000 words and one more, with certificates that are good, none and too
    long."""
    three, most = sheet([[HERE]] * 3, []), sheet([[HERE] * 8] * 12, [])
    longest = [three + long_entries(3, count - len(three)) for count in (16_000, 16_001)]
    longest += [most + long_entries(4, count - 13 - 3 * LEGS) for count in (16_000, 16_001)]
    sources = [as_bytes(source) for source in longest]
    sources += [sources[0] + bytes(1), sources[0][:-1], sources[0] + bytes(64_000), bytes(64_000), bytes(64_001)]
    good = [certify(source)[1] for source in sources]
    checks.same("long sheets with a certificate", [bool(certificate) for certificate in good], [True, False, True] + 6 * [False])
    for source, own in zip(sources, good):
        for certificate in {own, good[0], good[2], b"", b"abc", bytes(MOST_BYTES + 1)}:
            compare(checks, f"a sheet of {len(source)} bytes with a certificate of {len(certificate)}", source, certificate)


def check_announced(checks, _):
    """Lengths that are not the sheet's: greater and less by some bytes, and far beyond all that comes."""
    for name, field, _, certificate in planned_fields(5, 40)[:6]:
        rest = field + certificate
        about = [len(field) + more for more in (-4, -1, 1, 4)]
        for length in [0, 4, *about, len(rest), len(rest) + 1, 64_000, 64_001, len(field) << 8, 1 << 28, 1 << 31, (1 << 32) - 4,
                       (1 << 32) - 1]:
            asked = as_bytes([length]) + rest
            checks.same(f"{name} with {length} announced", given_whole(VERIFY, asked), verified(asked))


def run(checks):
    with tempfile.TemporaryDirectory() as made:
        certify = Certifier(made)
        for check in (check_rows, check_full, check_no_room, check_long_fields, check_certificate_lengths, check_sheet_lengths,
                      check_announced):
            check(checks, certify)
