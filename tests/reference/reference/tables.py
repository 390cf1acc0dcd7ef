"""A clause table in lent words: capacity, validity (9), reading and writing, in either form of its rows, and the encoding of an
instance."""

from typing import NamedTuple

from . import words
from .answers import BAD_TABLE, GOOD, TABLE_FULL, TARGET_TOO_SHORT, Refused, require
from .clauses import complement, full, is_tautology
from .forms import SIX
from .inputs import read_instance
from .limits import MAX_ROWS, MAX_SIZE, MAX_VARIABLES, SIGN_WORDS, SIGNS_PER_WORD


class Row(NamedTuple):
    signs: tuple        # the clause, one sign for each variable
    weight: int


class Table(NamedTuple):
    sizes: tuple
    rows: list


class Encoded(NamedTuple):
    number: int
    table: list


def rows_start(variables):
    """How many words stand before the first row: head, sizes and row count."""
    return variables + 2


def capacity(variables, length, form=SIX):
    return min(MAX_ROWS, (length - rows_start(variables)) // form.row_words)


def padded(signs):
    """The signs of all variables that a row has room for."""
    return tuple(signs) + (0,) * (SIGN_WORDS * SIGNS_PER_WORD - len(signs))


def row_words(row, form):
    signs = padded(row.signs)
    triples = [signs[at:at + SIGNS_PER_WORD] for at in range(0, len(signs), SIGNS_PER_WORD)]
    return [words.signs(index, triple) for index, triple in enumerate(triples)] + form.weight_words(row.weight)


def table_words(sizes, rows, length, form=SIX):
    """The whole slice of a table, zero past the last row."""
    written = [words.head(len(sizes))] + [words.size(size) for size in sizes] + [words.row_count(len(rows))]
    for row in rows:
        written += row_words(row, form)
    return written + [0] * (length - len(written))


def read_table(source, form=SIX):
    """The table of this form in the given words, or refusal 9."""
    count = valid_payload(source, 0, words.HEAD, 0, MAX_VARIABLES)
    start = rows_start(count)
    require(start <= len(source), BAD_TABLE)
    sizes = tuple(valid_payload(source, 1 + variable, words.SIZE, 1, MAX_SIZE) for variable in range(count))
    used = valid_payload(source, 1 + count, words.ROW_COUNT, 0, capacity(count, len(source), form))
    rows = [read_row(source, start + form.row_words * index, sizes, form) for index in range(used)]
    require(not any(source[start + form.row_words * used:]), BAD_TABLE)
    require(len({row.signs for row in rows}) == len(rows), BAD_TABLE)
    return Table(sizes, rows)


def valid_payload(source, at, kind, lowest, highest):
    require(at < len(source), BAD_TABLE)
    payload = words.payload_of(source[at])
    require(words.kind_of(source[at]) == kind and lowest <= payload <= highest, BAD_TABLE)
    return payload


def read_row(source, at, sizes, form):
    signs = []
    for index in range(SIGN_WORDS):
        triple = words.signs_of(source[at + index], index)
        require(triple is not None, BAD_TABLE)
        signs += triple
    # Below full: neither full nor beyond the values of the variable.
    require(all(sign < full(size) for sign, size in zip(signs, sizes)), BAD_TABLE)
    require(not any(signs[len(sizes):]), BAD_TABLE)
    weight = form.weight_of(source[at + SIGN_WORDS:at + form.row_words])
    require(weight is not None, BAD_TABLE)
    return Row(tuple(signs[:len(sizes)]), weight)


def added(sizes, rows, weighted):
    """The rows after adding clauses with their weights, in order: each is dropped as a tautology, or merged into the
    row with equal signs, or written as a new last row."""
    rows = list(rows)
    places = {row.signs: index for index, row in enumerate(rows)}
    for clause, weight in weighted:
        if is_tautology(sizes, clause):
            continue
        if clause in places:
            index = places[clause]
            rows[index] = Row(clause, rows[index].weight + weight)
        else:
            places[clause] = len(rows)
            rows.append(Row(clause, weight))
    return rows


def entry_clause(sizes, entry):
    """The clause that exactly the assignments with all bindings of the entry falsify."""
    signs = [0] * len(sizes)
    for variable, value in entry.bindings:
        signs[variable] = complement(sizes[variable], 1 << value)
    return tuple(signs)


def encoded(instance):
    """The rows of an instance, each entry of cost above 0 in order."""
    return added(instance.sizes, [], [(entry_clause(instance.sizes, entry), entry.cost)
                                      for entry in instance.entries if entry.cost > 0])


def encoded_within(instance, length):
    """The rows of an instance for a table slice of this length, or refusal 10 or 12."""
    count = len(instance.sizes)
    require(length >= rows_start(count), TARGET_TOO_SHORT)
    rows = encoded(instance)
    require(len(rows) <= capacity(count, length), TABLE_FULL)
    return rows


def encode(instance, table):
    """Encodes an instance in the lent slice, whatever it held before."""
    try:
        read = read_instance(instance)
        rows = encoded_within(read, len(table))
    except Refused as refusal:
        return Encoded(refusal.number, list(table))
    return Encoded(GOOD, table_words(read.sizes, rows, len(table)))


def empty_weight(rows):
    """The weight of the row without literals, 0 if there is none."""
    return sum(row.weight for row in rows if not any(row.signs))
