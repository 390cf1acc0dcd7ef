"""The limits of every format, in one place."""

MAX_VARIABLES = 12      # document 01: stations of a field, of which there may be none (document 02, wish 7)
MAX_SIZE = 8            # document 01: spots of a station
MAX_COST = 65_535
MAX_ENTRIES = 4_096
FORBIDDEN_WEIGHT = 268_431_361      # of a forbidden entry: one more than 4,096 times the greatest cost
MAX_COORDINATE = 1_000_000

# A row in a table: four words of signs and two of weight; in last year's tables one of weight.
SIGN_WORDS = 4
SIGNS_PER_WORD = 3
ROW_WORDS = 6
MAX_WEIGHT = (1 << 56) - 1
FIVE_ROW_WORDS = 5
FIVE_MAX_WEIGHT = (1 << 28) - 1
MAX_ROWS = 4_096
