"""Requests to the program: its answer, byte for byte, is the reference's. A request is a word, the form wanted in its top four
bits and the words of the target in the others, and then a table."""

import random
import struct
from itertools import product

import empty_tables
from converted import MOST_WORDS, PROGRAM
from programs import at_failed_read, at_failed_write, given_as_file, given_in_pieces, given_whole
from reference import to_five, to_six, words
from reference.answers import BAD_TABLE, TARGET_TOO_SHORT
from reference.fields import as_bytes, table_length
from reference.forms import FIVE, SIX
from sources import all_sources, most_rows

CALLS = {6: to_six, 5: to_five}
DAMAGED = 250


def request(form, length, table):
    return as_bytes([words.word(form, length)] + table)


def refused(number):
    return f"REFUSED {number}\n".encode()


def due(source):
    """The answer to the bytes of a request, by the reference."""
    if len(source) > 4 * (1 + MOST_WORDS):
        return refused(TARGET_TOO_SHORT)
    if len(source) % 4 or not source:
        return refused(BAD_TABLE)
    asked, *table = struct.unpack(f"<{len(source) // 4}I", source)
    if words.kind_of(asked) not in CALLS:
        return refused(BAD_TABLE)
    if words.payload_of(asked) > MOST_WORDS:
        return refused(TARGET_TOO_SHORT)
    done = CALLS[words.kind_of(asked)](table, [0] * words.payload_of(asked))
    return refused(done.number) if done.number else as_bytes(done.target)


def compare(checks, name, source, given=given_whole):
    checks.same(f"the answer to {name}", given(PROGRAM, source), due(source))


def check_lengths(checks):
    """Every table in each form, asked for in both, in targets too short for the front and for the rows, and long enough."""
    for source in all_sources():
        for form in (FIVE, SIX) if source.narrow() else (SIX,):
            table = source.words(form, 3)
            for wanted, other in ((6, SIX), (5, FIVE)):
                needed = table_length(len(source.sizes), len(source.rows), form=other)
                for length in sorted({len(source.sizes) + 1, len(source.sizes) + 2, needed - 1, needed, needed + 4}):
                    compare(checks, f"{source.name} with {form.row_words} words to a row, asked for {wanted} in {length} words",
                            request(wanted, length, table))


def check_no_stations(checks):
    """Every table of no stations and of up to nine words, and slices that are none, asked for in both forms."""
    valid = [table for table in empty_tables.slices() if empty_tables.is_valid(table)]
    for table in [*valid, [], [words.head(0)], [0] * 2, [0] * 8, [words.head(0)] * 2]:
        for wanted, length in product(CALLS, (0, 1, 2, 6, 7, 8, 9)):
            compare(checks, f"{table}, asked for {wanted} in {length} words", request(wanted, length, table))


def check_first_words(checks):
    """Forms that there are not, targets about the limit and above it, and no whole first word."""
    table = next(all_sources()).words(FIVE)
    for form in range(16):
        for length in (40, MOST_WORDS, MOST_WORDS + 1, (1 << 28) - 1):
            compare(checks, f"form {form} in {length} words", request(form, length, table))
    for length in range(9):
        compare(checks, f"{length} bytes", request(6, 40, table)[:length])


def check_long(checks):
    """The longest table in the longest target, and requests about the limit."""
    source = most_rows()
    for form, wanted in ((FIVE, 6), (SIX, 5)):
        for spare in (0, 1):
            compare(checks, f"4,096 rows of {form.row_words} words and {spare}",
                    request(wanted, MOST_WORDS, source.words(form, spare)))
    table = next(all_sources()).words(FIVE)
    whole = request(6, 40, table + [0] * (MOST_WORDS - len(table)))
    for longer in (0, 1, 3, 4, 5, 100_000):
        compare(checks, f"a request of {longer} bytes more than the limit", whole + b"\0" * longer)


def check_damaged(checks):
    """Tables with a bit flipped, a word changed or a part cut off."""
    chance = random.Random(5)
    sources = [source for source in all_sources() if source.narrow() and len(source.rows) < 100]
    for at in range(DAMAGED):
        form, wanted = chance.choice([(FIVE, 6), (SIX, 5)])
        whole = bytearray(request(wanted, 120, chance.choice(sources).words(form, chance.randrange(8))))
        kind = at % 3
        if kind == 0:
            whole[chance.randrange(len(whole))] ^= 1 << chance.randrange(8)
        elif kind == 1:
            place = 4 * chance.randrange(len(whole) // 4)
            whole[place:place + 4] = as_bytes([words.word(chance.randrange(16), chance.choice([0, 1, 2, 5, 1 << 24]))])
        else:
            del whole[chance.randrange(len(whole)):]
        compare(checks, f"damaged request {at}", bytes(whole))


def check_ways(checks):
    """A request as a file and in pieces; reads and writes that fail."""
    source = request(6, 40, next(all_sources()).words(FIVE))
    compare(checks, "a file", source, given_as_file)
    for length in (1, 3, 50):
        compare(checks, f"pieces of {length} bytes", source, lambda program, sent: given_in_pieces(program, sent, length))
    checks.same("a read that fails", at_failed_read(PROGRAM, source), b"status 0, b'converter: the table cannot be read\\n'\n")
    checks.same("a write that fails", at_failed_write(PROGRAM, source), b"status 0, b'converter: the table cannot be written\\n'\n")


def run(checks):
    for check in (check_lengths, check_no_stations, check_first_words, check_long, check_damaged, check_ways):
        check(checks)
