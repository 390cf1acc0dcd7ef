"""Builders of instances, sheets and tables as words, and of bytes, from plain lists."""

from itertools import combinations, islice, product

from . import words
from .forms import SIX
from .inputs import Entry, Instance, entry_words, instance_words
from .limits import FORBIDDEN_WEIGHT, MAX_SIZE, MAX_WEIGHT
from .tables import Row, rows_start, table_words

# Sheets of a season: one of no words, which is a field without variables, and one that is refused at its head.
NO_WORDS = b""
NO_HEAD = bytes(4)
# An even share of the greatest weight for each of 4,096 rows, rounded down.
SHARE = MAX_WEIGHT // 4_096
# The weight of the first of 4,096 rows and that of each other one: they add up to the greatest weight, to one more, to 1 << 64,
# to a little more than that, and far beyond.
HEAVY_ROWS = [(SHARE + 4_095, SHARE), (SHARE + 4_096, SHARE), (1 << 52, 1 << 52), ((1 << 52) + 9, 1 << 52),
              (MAX_WEIGHT, MAX_WEIGHT)]
# How many forbidden entries and what ordinary cost together make 1 << 28, and 1 << 32.
ROUND_COSTS = [(1, 4_095), (16, 65_520)]
# The word that forbids, good and with each unnamed bit, and a weight's high word.
FORBIDDEN_WORDS = [words.forbidden(), *(words.forbidden(1 << bit) for bit in range(28)), words.high_weight(0), words.high_weight(1)]


def instance(sizes, entries):
    """Entries are (bindings, cost), bindings a list of (variable, value); one of cost FORBIDDEN_WEIGHT is forbidden."""
    return instance_words(Instance(tuple(sizes), made_entries(entries)))


def forbidden(*bindings):
    """The entry that forbids an assignment to have all these bindings."""
    return list(bindings), FORBIDDEN_WEIGHT


def all_forbidden(sizes, entries):
    """Whether every assignment has all bindings of some forbidden entry."""
    banned = [set(bindings) for bindings, cost in entries if cost == FORBIDDEN_WEIGHT]
    return bool(banned) and all(any(bindings <= set(enumerate(assignment)) for bindings in banned)
                                for assignment in product(*map(range, sizes)))


def high_cost(forbidden_total, cost):
    """An instance of two values: the first is so often forbidden and has this cost, too; the second is free."""
    return instance([2], [forbidden((0, 0))] * forbidden_total + [([(0, 0)], cost)])


def made_entries(entries):
    return tuple(Entry(tuple(bindings), cost) for bindings, cost in entries)


def sheet(places, entries):
    """Places are, for each variable, a list of (easting, northing) in centimetres, one for each value."""
    written = [words.head(len(places))]
    for values in places:
        written.append(words.size(len(values)))
        for east, north in values:
            written += [words.easting(east), words.northing(north)]
    return written + entry_words(made_entries(entries))


def growing_sheet(variables, row_total):
    """A sheet of 6 to 12 variables whose encoding has so many rows: two that are resolved to three, and others, all with the
    second variable at 0, that go with none. All lies in one place, so that travel is free."""
    start = [([(0, 0)], 2), ([(0, 1), (1, 0)], 1)]
    others = (([(1, 0), *zip(bound, values)], 1)
              for count in range(1, variables) for bound in combinations(range(2, variables), count)
              for values in product(range(MAX_SIZE), repeat=count))
    sizes = [2, 2] + [MAX_SIZE] * (variables - 2)
    return sheet([[(0, 0)] * size for size in sizes], start + list(islice(others, row_total - len(start))))


def rows(text, variables):
    """Rows in document 01's notation, as `2,2:1 0,2:1` or `2:2 empty:1`."""
    return [row(part, variables) for part in text.split()]


def row(text, variables):
    signs, weight = text.split(":")
    if signs == "empty":
        return Row((0,) * variables, int(weight))
    return Row(tuple(int(sign) for sign in signs.split(",")), int(weight))


def settled_rows(weights):
    """Up to 4,096 rows of these weights over twelve variables, as many of each of the first eight. Their lowest signs are
    equal, so that no two are a pair, and value 0 lies in no sign."""
    made = []
    for at, weight in enumerate(weights):
        signs = [0] * 12
        signs[at % 8], signs[8], signs[9] = 2, 2 * (1 + at // 8 % 64), 2 * (1 + at // 512)
        made.append(Row(tuple(signs), weight))
    return made


def table(sizes, text, length, form=SIX):
    """The slice of this length that holds a table of these rows, zero past them."""
    written = table_words(sizes, rows(text, len(sizes)), length, form)
    if len(written) != length:
        raise ValueError("the rows do not fit into the slice")
    return written


def table_length(variables, row_total, spare=0, form=SIX):
    """The length of a slice that has room for so many rows, with spare words behind them."""
    return rows_start(variables) + form.row_words * row_total + spare


def as_bytes(sequence):
    """Words as the little-endian bytes that the program reads."""
    return b"".join(w.to_bytes(4, "little") for w in sequence)


def costing(cost):
    """The bytes of a sheet of this least cost, of five words; FORBIDDEN_WEIGHT forbids its one assignment."""
    return as_bytes(sheet([[(0, 0)]], [([], cost)]))


def length(words_announced):
    """The bytes before a sheet of a season."""
    return as_bytes([words_announced])


def season(sheets):
    """The bytes of sheets one behind the other, each with its length in words before it; the sheets are bytes."""
    return b"".join(length(len(source) // 4) + source for source in sheets)
