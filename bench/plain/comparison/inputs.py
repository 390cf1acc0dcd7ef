"""Random inputs for every call: fields, tables around the needed length, derivations and claims, some damaged."""

import calls
import conversions
import reference
from reference import fields, words
from reference.certificates import Certificate, certificate_words
from reference.derivations import ended_otherwise
from reference.inputs import made_words, read_instance
from reference.limits import FORBIDDEN_WEIGHT, MAX_COORDINATE, MAX_WEIGHT, ROW_WORDS
from reference.planning import words_of
from reference.plans import rebuilt
from reference.tables import Row, empty_weight, read_table, table_words

ROUNDS = 60
COSTS = [0, 0, 1, 1, 2, 3, 5, 9, 65_535, FORBIDDEN_WEIGHT]
# Weights around the limit, around that of the low word, and around that of a forbidden entry.
HEAVY = [1, 2, FORBIDDEN_WEIGHT - 1, FORBIDDEN_WEIGHT, (1 << 28) - 1, 1 << 28, MAX_WEIGHT // 2, MAX_WEIGHT - 1, MAX_WEIGHT]
NEAR = [0, 1, 2, 49, 50, 51, 100, 150, 5_000, MAX_COORDINATE]


def calls_of_round(rng):
    """One call of each kind on inputs from one field, and more where the state matters."""
    sizes = [rng.randint(1, 4) for _ in range(rng.randint(0, 5))]
    if rng.random() < 0.1:
        sizes = [rng.choice([1, 2, 2, 8]) for _ in range(12)]
    sheet = random_sheet(rng, sizes)
    instance = random_instance(rng, sizes)
    made = [calls.make(damaged(rng, sheet), filled(rng, rng.choice([0, 5, 900, 900]))),
            calls.readout(damaged(rng, sheet), *random_readout(rng, sizes)),
            calls.cost(damaged(rng, instance), random_assignment(rng, sizes)),
            calls.encode(damaged(rng, instance), filled(rng, table_length(rng, sizes, 40)))]
    made += table_calls(rng, sizes, instance) + heavy_calls(rng, sizes) + check_calls(rng, sizes, instance)
    # Planned to the end, which fields of twelve variables hardly ever are in short time.
    return made + certificate_calls(rng, sheet) if len(sizes) < 12 else made


def random_assignment(rng, sizes):
    assignment = [rng.randrange(size) for size in sizes]
    if assignment and rng.random() < 0.1:
        assignment[rng.randrange(len(sizes))] = rng.choice([8, 255])
    if rng.random() < 0.1:
        assignment += [0]
    return assignment


def random_entries(rng, sizes, most):
    entries = []
    for _ in range(rng.randint(0, most)):
        bound = [variable for variable in range(len(sizes)) if rng.random() < 2.5 / (1 + len(sizes))]
        entries.append(([(variable, rng.randrange(sizes[variable])) for variable in bound], rng.choice(COSTS)))
    return entries


def random_instance(rng, sizes):
    return fields.instance(sizes, random_entries(rng, sizes, 4 + 8 * len(sizes)))


def random_coordinate(rng):
    return rng.choice([-1, 1]) * rng.choice(NEAR)


def random_sheet(rng, sizes):
    places = [[(random_coordinate(rng), random_coordinate(rng)) for _ in range(size)] for size in sizes]
    return fields.sheet(places, random_entries(rng, sizes, 8))


def random_readout(rng, sizes):
    """Assignment, variable and position."""
    variable = rng.randrange(len(sizes) + 1) if rng.random() < 0.2 else rng.randrange(max(1, len(sizes)))
    easting, northing = words.easting(random_coordinate(rng)), words.northing(random_coordinate(rng))
    if rng.random() < 0.2:
        easting, northing = rng.choice([(northing, easting), (easting, words.northing(MAX_COORDINATE + 1)),
                                        (words.easting(-MAX_COORDINATE - 1), northing)])
    return random_assignment(rng, sizes), variable, easting, northing


def damaged(rng, source):
    """The words with one of several faults, or, more often, as they are."""
    source = list(source)
    at = rng.randrange(len(source))
    fault = rng.choice(["none"] * 4 + ["bit", "cut", "kind", "twice", "large", "forbidden"])
    if fault == "bit":
        source[at] ^= 1 << rng.randrange(32)
    elif fault == "cut":
        source = source[:at]
    elif fault == "kind":
        source[at] = words.word(rng.randrange(16), words.payload_of(source[at]))
    elif fault == "twice":
        source.insert(at, source[at])
    elif fault == "large":
        source[at] = words.cost(rng.choice([65_536, 70_000, FORBIDDEN_WEIGHT]))
    elif fault == "forbidden":
        source[at] = words.forbidden(rng.choice([0, 0, 1, 1 << 27]))
    return source


def filled(rng, length):
    """Lent memory with any content."""
    return [rng.randrange(1 << 32) for _ in range(length)]


def table_length(rng, sizes, rows):
    length = fields.table_length(len(sizes), rng.choice([rows, rows, rng.randint(0, rows)]), rng.randrange(ROW_WORDS))
    return max(0, length - rng.choice([0, 0, 0, 0, ROW_WORDS * rows + 3]))


def encoded(rng, sizes, instance):
    """The table of an instance, with room for 0 to 40 rows more, or None."""
    rows = len(read_table(reference.encode(instance, [0] * 5_000).table).rows)
    length = fields.table_length(len(sizes), rows + rng.choice([0, 1, 2, 5, 40]), rng.randrange(ROW_WORDS))
    return reference.encode(instance, [0] * length).table


def table_calls(rng, sizes, instance):
    """Steps, runs, plans, completions and conversions one after the other on one table."""
    table = encoded(rng, sizes, instance)
    made = [calls.step(table), calls.plan(table, [7] * len(sizes))]
    run = reference.run_call(table, rng.choice([0, 3, 200]), filled(rng, rng.choice([0, 5, 300])))
    made.append(calls.run(table, rng.choice([0, 3, 200]), filled(rng, rng.choice([0, 5, 300]))))
    made.append(calls.run(run.table, 300, filled(rng, 300)))
    end = reference.run_call(table, 300, [0] * 300).table
    made.append(calls.plan(end, filled_bytes(rng, len(sizes) + rng.randint(-1, 2))))
    made += [completion(rng, end, sizes) for _ in range(4)] + [completion(rng, table, sizes)]
    made += conversions.random_conversions(rng, run.table)
    hurt = damaged(rng, rng.choice([table, end]))
    return made + [calls.step(hurt), calls.run(hurt, 9, [1] * 9), calls.plan(hurt, [9] * 12), completion(rng, hurt, sizes)]


def completion(rng, table, sizes):
    """A completion from any variable on; now and then k or the fixed values are faulty."""
    k = rng.randrange(len(sizes) + 1)
    fixed = random_assignment(rng, sizes)[k:]
    if rng.random() < 0.1:
        k = rng.choice([k + 1, len(sizes) + 1, (1 << 64) - 1])
    return calls.complete(table, k, fixed, filled_bytes(rng, len(sizes) + rng.choice([-1, 0, 0, 0, 2])))


def filled_bytes(rng, length):
    return [rng.randrange(256) for _ in range(length)]


def heavy_calls(rng, sizes):
    """A step, a run, a plan, a completion and conversions on random rows with weights near the limits."""
    rows = {}
    for _ in range(rng.randint(0, 12)):
        signs = tuple(rng.randrange(max(1, 2 ** size - 1)) * (rng.random() < 0.6) for size in sizes)
        rows[signs] = rng.choice(HEAVY)
    length = fields.table_length(len(sizes), len(rows) + rng.choice([0, 1, 30]), rng.randrange(ROW_WORDS))
    table = table_words(sizes, [Row(signs, weight) for signs, weight in rows.items()], length)
    return [calls.step(table), calls.run(table, 60, [3] * 60), calls.plan(table, [9] * 12), completion(rng, table, sizes),
            *conversions.random_conversions(rng, table)]


def check_calls(rng, sizes, instance):
    """The planner's own derivation with its claim, the same damaged, and with a wrong claim."""
    table = encoded(rng, sizes, instance)
    run = reference.run_call(table, 400, [0] * 400)
    derivation = run.derivation[:run.steps]
    # As the plan, or where all plans are forbidden, with all values rebuilt.
    planned = reference.complete_call(run.table, len(sizes), [], [0] * len(sizes))
    lent = filled(rng, len(table) + rng.choice([-ROW_WORDS, 0, 0, 0, 30]))
    hurt = damaged(rng, derivation) if derivation else [words.step(0, 0, 1)]
    return [calls.check(instance, derivation, planned.target, run.bound, lent),
            calls.check(damaged(rng, instance), hurt, planned.target, run.bound, lent),
            calls.check(instance, derivation[:-1], random_assignment(rng, sizes), run.bound, lent)]


def certificate_calls(rng, sheet):
    """Certificates of a sheet, of a damaged one, and of one with another derivation; each with a sheet, as it is and damaged."""
    hurt = damaged(rng, sheet)
    made = [words_of(reference.certified(fields.as_bytes(source))[1]) for source in (sheet, hurt)] + [derived_otherwise(rng, sheet)]
    certificates = made + [damaged(rng, source) for source in made if source]
    sheets = [fields.as_bytes(source) for source in (sheet, hurt)]
    return [calls.certify(source) for source in sheets] + [
        calls.verify(source, fields.as_bytes(certificate)) for source in sheets for certificate in certificates]


def derived_otherwise(rng, sheet):
    """A certificate with steps that need not be the planner's."""
    instance = made_words(sheet)
    derivation, rows = ended_otherwise(instance, rng.choice)
    sizes = read_instance(instance).sizes
    return certificate_words(Certificate(rebuilt(sizes, rows), empty_weight(rows), derivation))
