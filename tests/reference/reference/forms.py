"""The two forms of a row: its weight behind the signs has two words or, in last year's tables, one (document 02, wish 5)."""

from typing import NamedTuple

from . import words
from .limits import FIVE_MAX_WEIGHT, FIVE_ROW_WORDS, MAX_WEIGHT, ROW_WORDS


class Form(NamedTuple):
    row_words: int
    max_weight: int
    weight_kinds: tuple     # of the words of a weight, that of the lowest bits first

    def weight_words(self, amount):
        return [words.word(kind, amount >> words.PAYLOAD_BITS * place & words.PAYLOAD_MASK)
                for place, kind in enumerate(self.weight_kinds)]

    def weight_of(self, taken):
        """The weight in these words, or None where they are no weight of this form."""
        if tuple(words.kind_of(w) for w in taken) != self.weight_kinds:
            return None
        return sum(words.payload_of(w) << words.PAYLOAD_BITS * place for place, w in enumerate(taken)) or None


SIX = Form(ROW_WORDS, MAX_WEIGHT, (words.WEIGHT, words.HIGH_WEIGHT))
FIVE = Form(FIVE_ROW_WORDS, FIVE_MAX_WEIGHT, (words.WEIGHT,))
