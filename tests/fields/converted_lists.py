"""Lists of calls on a table that is converted on the way, from the encoding or from a half-resolved table of either form: the steps
are those of a list without conversions, and the checker accepts them with room for the most rows that there ever were, and no
less."""

import random

import reference
from chosen import GROWING, TWO_LEFT, chain, long_chain, random_field
from different import require
from lists import SMALL_FIELDS
from records import recorded, stepped
from reference import fields
from reference.answers import BAD_TABLE, GOOD, TABLE_FULL, WEIGHT_TOO_WIDE
from reference.forms import FIVE, SIX
from reference.steps import DONE, STEPPED
from reference.tables import read_table, table_words

LISTS = 800
MOST_CALLS = 12


class Listed:
    """A list's table with its form and the step words since the encoding; every call is made by both sides."""

    def __init__(self, both, chance, table, form, derivation):
        self.both, self.chance = both, chance
        self.table, self.form, self.derivation = table, form, derivation
        self.conversions = 0

    def valid(self):
        """Whether the calls other than the first conversion take the table: it has six-word rows or none."""
        return self.form == SIX or not read_table(self.table, FIVE).rows

    def make_call(self):
        self.chance.choice([self.step, self.step, self.run, self.plan, self.convert, self.convert, self.convert_wrongly])()

    def step(self):
        answer = self.both.step(self.table)
        require(self.valid() or answer.number == BAD_TABLE, "a step in five-word rows")
        self.derivation += [answer.word] * (answer.outcome == STEPPED)
        self.table = answer.table

    def run(self, limit=2):
        answer = self.both.run(self.table, limit, [9] * limit)
        require(self.valid() or answer.number == BAD_TABLE, "a run in five-word rows")
        self.derivation += answer.derivation[:answer.steps]
        self.table = answer.table

    def plan(self):
        variables = len(read_table(self.table, self.form).sizes)
        numbers = {self.both.plan(self.table, [9] * variables).number,
                   self.both.complete(self.table, variables, [], [9] * variables).number}
        require(self.valid() or numbers == {BAD_TABLE}, "a plan or a completion from five-word rows")

    def convert(self, more=None):
        """Into a slice with room for fewer rows than there are, as many, or more; a good conversion hands its target on."""
        (sizes, rows), other = read_table(self.table, self.form), FIVE if self.form == SIX else SIX
        more = self.chance.choice([-1, 0, 0, 1, 2, 30]) if more is None else more
        length = fields.table_length(len(sizes), max(0, len(rows) + more), self.chance.randrange(5), other)
        answer = (self.both.to_five if self.form == SIX else self.both.to_six)(self.table, [9] * length)
        if answer.number == GOOD:
            self.table, self.form = answer.target, other
            self.conversions += 1
        return answer.number

    def convert_wrongly(self):
        """The conversion that the form is not for, which a table without rows alone passes."""
        rows = read_table(self.table, self.form).rows
        answer = (self.both.to_six if self.form == SIX else self.both.to_five)(self.table, [9] * 2 * len(self.table))
        require(answer.number == (BAD_TABLE if rows else GOOD), f"{answer.number} of the wrong conversion of {len(rows)} rows")

    def finish(self):
        """On to the end in six words; where the table runs full, there and back into a longer slice or, with a weight that is too
        wide for five words, copied into one."""
        if self.form == FIVE:
            require(self.convert(more=1) == GOOD, "no conversion with room")
        while self.both.run(self.table, 0, []).outcome != DONE:
            before = len(self.derivation)
            self.run(limit=40)
            if len(self.derivation) == before:
                self.make_room()

    def make_room(self):
        sizes, rows = read_table(self.table)
        if self.convert(more=0) == WEIGHT_TOO_WIDE:
            self.table = table_words(sizes, rows, fields.table_length(len(sizes), len(rows) + 9))
        else:
            require(self.convert(more=9) == GOOD, "no conversion with room")


def begun(both, chance, field, whole):
    """A list from the encoding, or from a half-resolved table of either form, with the words of the steps before it."""
    instance, variables = fields.instance(*field), len(field[0])
    steps = chance.choice([0, chance.randint(0, len(whole.derivation))])
    _, tables = stepped(reference.encode(instance, [0] * fields.table_length(variables, 400)).table)
    rows = read_table(tables[steps]).rows
    table = table_words(field[0], rows, fields.table_length(variables, len(rows), chance.choice([0, 5, 6, 200])))
    listed = Listed(both, chance, table, SIX, whole.derivation[:steps])
    if chance.random() < 0.4:
        # Last year's, unless a weight is too wide.
        listed.convert(more=chance.choice([0, 1]))
    return listed


def list_of_calls(both, chance, field):
    """A random list to its end; how many conversions it had."""
    whole = recorded(field)
    listed = begun(both, chance, field, whole)
    for _ in range(chance.randint(0, MOST_CALLS)):
        listed.make_call()
    listed.finish()
    require(listed.derivation == whole.derivation, f"other steps in a converted table of {field}")
    accepted_with_room(both, whole)
    return listed.conversions


def accepted_with_room(both, record):
    """The derivation in a work table with room for exactly the most rows that it had, and in one of a row less."""
    variables = reference.words.payload_of(record.instance[0])
    most = reference.most_rows(record.instance, record.derivation)
    for rows, due in [(most, GOOD), (most + 3, GOOD)] + [(most - 1, TABLE_FULL)] * (most > 0):
        for spare in (0, 5):
            length = fields.table_length(variables, rows, spare)
            number = both.check(record.instance, record.derivation, record.plan, record.cost, [9] * length).number
            require(number == due, f"{number} with room for {rows} rows, where {most} are the most")


def compare(both):
    chance = random.Random(11)
    conversions = 0
    for field in SMALL_FIELDS + [GROWING, TWO_LEFT, chain(chance, [3, 2, 2]), long_chain()]:
        conversions += sum(list_of_calls(both, chance, field) for _ in range(10))
    for _ in range(LISTS):
        conversions += list_of_calls(both, chance, random_field(chance))
    require(conversions > LISTS, f"only {conversions} conversions")
