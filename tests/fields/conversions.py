"""Tables turned into the other form and back: half-resolved ones of every small field, refusals alone and at once, weights around
the greatest of one word, targets of every length, as many rows as there may be; converted_lists has lists of calls that go on."""

from itertools import product

from chosen import GROWING, NONE_LEFT, long_chain
from different import require
from lists import SMALL_FIELDS
from records import ROWS, stepped
from reference import fields
from reference.answers import BAD_TABLE, GOOD, TABLE_FULL, TARGET_TOO_SHORT, WEIGHT_TOO_WIDE
from reference.conversions import Converted
from reference.forms import FIVE, SIX
from reference.inputs import Instance
from reference.limits import FIVE_MAX_WEIGHT, FORBIDDEN_WEIGHT, MAX_ROWS, MAX_WEIGHT
from reference.resolution import next_pair, resolve
from reference.tables import Row, encode, encoded, read_table, table_words
from small_fields import every_field

ORDER = [BAD_TABLE, TARGET_TOO_SHORT, WEIGHT_TOO_WIDE, TABLE_FULL]
# Weights beside what one word holds and beside that of a forbidden entry.
WEIGHTS = [1, 65_535, FORBIDDEN_WEIGHT - 1, FORBIDDEN_WEIGHT, FIVE_MAX_WEIGHT - 1, FIVE_MAX_WEIGHT, FIVE_MAX_WEIGHT + 1,
           FIVE_MAX_WEIGHT + 2, 2 * FORBIDDEN_WEIGHT, 1 << 29, (1 << 32) - 1, 1 << 32, (1 << 32) + 1, 1 << 55, MAX_WEIGHT]


def rows_on_the_way(sizes, entries):
    """The rows of a field after its encoding and after each step."""
    rows = encoded(Instance(tuple(sizes), fields.made_entries(entries)))
    while rows is not None:
        yield tuple(rows)
        pair = next_pair(sizes, rows)
        rows = resolve(sizes, rows, pair) if pair else None


def there_and_back(both, sizes, rows, spare):
    """Six words to five and these to six, with so many words past the rows, against the words of the same rows in either form; 16
    alone, where a weight is too wide."""
    six, five = (table_words(sizes, rows, fields.table_length(len(sizes), len(rows), spare, form), form) for form in (SIX, FIVE))
    if any(row.weight > FIVE_MAX_WEIGHT for row in rows):
        both.convert("to_five", six, [5] * len(five), Converted(WEIGHT_TOO_WIDE, 0, [5] * len(five)))
    else:
        both.convert("to_five", six, [5] * len(five), Converted(GOOD, len(rows), five))
        both.convert("to_six", five, [4] * len(six), Converted(GOOD, len(rows), six))


def small_fields(both):
    """Every small field after each step; tables that several fields come to are tried once."""
    tried = set()
    for sizes, entries in every_field():
        for rows in rows_on_the_way(sizes, entries):
            if (tuple(sizes), rows) not in tried:
                there_and_back(both, sizes, rows, len(tried) % 7)
                tried.add((tuple(sizes), rows))


def tables_of(field):
    """The six-word tables of a field on the way, in slices that end with their rows."""
    start = encode(fields.instance(*field), [0] * fields.table_length(len(field[0]), ROWS)).table
    return [table[:fields.table_length(len(field[0]), len(read_table(table).rows))] for table in stepped(start)[1]]


def numbers_of_six_word_calls(both, table, variables):
    """What the calls that take six-word rows answer, in targets with room."""
    return {both.step(table).number, both.run(table, 9, [9] * 9).number, both.plan(table, [9] * variables).number,
            both.complete(table, variables, [], [9] * variables).number, both.to_five(table, [9] * len(table)).number}


def refused_by_the_others(both):
    """A five-word table with rows by every call but the first conversion, and a six-word one by that: 9, before all else."""
    for field in SMALL_FIELDS + [GROWING, long_chain()]:
        for six in tables_of(field):
            sizes, rows = read_table(six)
            five = table_words(sizes, rows, fields.table_length(len(sizes), len(rows), form=FIVE), FIVE)
            due = BAD_TABLE if rows else GOOD
            for spare in range(0, 13, 3):
                numbers = numbers_of_six_word_calls(both, five + [0] * spare, len(sizes))
                require(numbers == {due}, f"{numbers} for {rows} in five words, due {due}")
                number = both.to_six(six + [0] * spare, [9] * len(six)).number
                require(number == due, f"{number} for {rows} in six words, due {due}")
                both.on_table(five + [0] * spare)


def faulty_source(numbers, form):
    """A table of three rows, in this form, to which these numbers apply."""
    weight = FIVE_MAX_WEIGHT + 1 if WEIGHT_TOO_WIDE in numbers else FIVE_MAX_WEIGHT
    table = fields.table([3, 2], f"4,1:1 0,2:{weight} empty:1", fields.table_length(2, 3, 2, form), form)
    return table[:-1] + [1] if BAD_TABLE in numbers else table


def refusals_in_order(both):
    """Every set of the refusals at once, by targets too short for the head, for the rows by a word or more, and long enough."""
    for convert, form, other in ((both.to_six, FIVE, SIX), (both.to_five, SIX, FIVE)):
        needed = fields.table_length(2, 3, form=other)
        order = ORDER if form == SIX else [number for number in ORDER if number != WEIGHT_TOO_WIDE]
        lengths = {TARGET_TOO_SHORT: [0, 1, 3], TABLE_FULL: [4, 9, needed - 6, needed - 1],
                   GOOD: [needed, needed + 1, needed + 40]}
        for chosen in product([False, True], repeat=len(order)):
            numbers = [number for number, applies in zip(order, chosen) if applies]
            size = next((number for number in (TARGET_TOO_SHORT, TABLE_FULL) if number in numbers), GOOD)
            for length in lengths[size]:
                answer = convert(faulty_source(numbers, form), [9] * length)
                require(answer.number == (numbers + [GOOD])[0], f"{answer.number} where {numbers} apply in {length} words")


def wide_weights(both):
    """Weights around the greatest of one word at each of four rows, and entries that come to them."""
    for weight, at in product(WEIGHTS, range(4)):
        rows = [Row((1 << row, 0), weight if row == at else 1) for row in range(4)]
        there_and_back(both, [5, 2], rows, at)
    for forbidden_total, cost in [(0, 65_535), (1, 0), (1, 1), (1, 4_094), (1, 4_095), (1, 4_096), (1, 65_535), (2, 0),
                                  (16, 65_520)]:
        entries = [fields.forbidden((0, 0))] * forbidden_total + [([(0, 0)], cost), ([(0, 1)], 3), ([], 1)]
        for rows in rows_on_the_way([2], entries):
            there_and_back(both, [2], rows, 1)


def forbidden_sums(both):
    """Forbidden entries of both values and a constant: each row fits one word until a step brings two of them together."""
    numbers = []
    entries = [fields.forbidden((0, 0)), fields.forbidden((0, 1)), fields.forbidden()]
    for table in tables_of(([2], entries)) + tables_of(NONE_LEFT):
        numbers.append(both.to_five(table, [9] * len(table)).number)
    require(numbers[:2] == [GOOD, WEIGHT_TOO_WIDE], f"{numbers} for forbidden entries brought together")


def targets(both):
    """Targets of every length up to a few words more than needed; the rest of a longer one becomes zero."""
    for field in SMALL_FIELDS + [GROWING, long_chain()]:
        for six in tables_of(field)[-2:]:
            sizes, rows = read_table(six)
            five = table_words(sizes, rows, fields.table_length(len(sizes), len(rows), form=FIVE), FIVE)
            for length in range(len(six) + 8):
                both.to_six(five, list(range(length)))
                both.to_five(six, list(range(length)))


def most_rows(both):
    """4,095 to 4,097 rows of either form, in targets a word short, just long enough, and longer than any table."""
    for row_total in (MAX_ROWS - 1, MAX_ROWS, MAX_ROWS + 1):
        rows = [Row((0, 1 + at // 254, 1 + at % 254), 1) for at in range(row_total)]
        for convert, form, other in ((both.to_six, FIVE, SIX), (both.to_five, SIX, FIVE)):
            source = table_words([4, 8, 8], rows, fields.table_length(3, row_total, row_total % 2, form), form)
            needed = fields.table_length(3, row_total, form=other)
            for length in (needed - 1, needed, needed + 100):
                convert(source, [9] * length)


def words_past_all_rows(both):
    """A slice may be longer than 4,096 rows take, in either form; it is held to zero up to its very end."""
    for convert, form in ((both.to_six, FIVE), (both.to_five, SIX)):
        source = fields.table([3], "6:2 1:5", fields.table_length(1, MAX_ROWS, 40, form), form)
        convert(source, [9] * 20)
        for at in (len(source) - 41, len(source) - 40, len(source) - 1):
            convert(source[:at] + [1] + source[at + 1:], [9] * 20)


def compare(both):
    small_fields(both)
    refused_by_the_others(both)
    refusals_in_order(both)
    wide_weights(both)
    forbidden_sums(both)
    targets(both)
    most_rows(both)
    words_past_all_rows(both)
