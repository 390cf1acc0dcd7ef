/* The planner's calls for C: reading a field, planning it step by step, and checking a derivation. */
#ifndef GOTALHIM_H
#define GOTALHIM_H

#include <stddef.h>
#include <stdint.h>

/* The version of this interface. Another major version may change what is here; another minor one only adds to it. */
#define GOTALHIM_VERSION_MAJOR 4
#define GOTALHIM_VERSION_MINOR 0
#define GOTALHIM_VERSION_PATCH 0
#define GOTALHIM_VERSION "4.0.0"

#ifdef __cplusplus
extern "C" {
#endif

/*
 * Words. Everything is 32-bit words: the kind in the top four bits, the payload in the low 28, unnamed bits zero.
 *    1 head: number of variables n, 0 to 12 (stations)
 *    2 size: number of values of a variable, 1 to 8 (spots of a station)
 *    3 binding: variable in bits 8-11, value in bits 0-2
 *    4 cost: 0 to 65,535
 *    5 signs: index k in bits 24-27, the signs of variables 3k, 3k+1, 3k+2 in bits 0-7, 8-15, 16-23
 *    6 low 28 bits of a row's weight; in a row of five words the whole weight
 *    7 step: variable in bits 24-27, first row in bits 12-23, second row in bits 0-11
 *    8, 9 easting, northing: centimetres, two's complement of 28 bits, -1,000,000 to 1,000,000
 *   10 row count
 *   11 forbidden: payload 0
 *   12 high 28 bits of a row's weight, behind the low ones
 * Instance: head, n sizes, entries. An entry is 0 to 12 bindings, variables rising, then a cost or a forbidden word, which
 * forbids the combination. A forbidden entry costs GOTALHIM_FORBIDDEN_WEIGHT, which is more than all costs of an instance
 * together: a plan without a forbidden combination costs less than that, every other plan at least that.
 * Sheet: as an instance, but behind each size stand that many pairs of easting and northing.
 * No words at all are a sheet and an instance, too, with n = 0 and no entries; a table always has its head. With n = 0 every
 * entry has no bindings, so the one plan, of no bytes, costs them all.
 * Table: head, n sizes, row count, rows, then zeros to the end of the slice. A row is four sign words and the two words of
 * its weight, 1 to GOTALHIM_MAX_WEIGHT. In the five-word form, which version 2 had, a row is four sign words and one word
 * of kind 6 with its weight, 1 to GOTALHIM_FIVE_MAX_WEIGHT. A table with rows is valid in one form only, and only
 * gotalhim_to_six takes rows of five words: everywhere else a table has rows of six. Without rows both forms are the same.
 * Plan: n bytes, the value of each variable.
 *
 * Slices. A slice is a pointer and a length in elements. The pointer is not null, even where the length is 0, and is
 * aligned; the memory of a slice that a call may write overlaps no other slice of that call. Slices of any length and
 * any content are good arguments: no call reads or writes outside of them. For an empty slice, as that of no words, of a
 * plan with n = 0 or of no answer, pass any pointer of its type that is not null, as the address of a variable or of a
 * slice of the same call: nothing is read or written there. malloc(0) may give a null pointer.
 *
 * Answers. Every function returns a number: 0 for success, else that of the first test that fails. Further fields are
 * written to the front of the answer slice; fields that it has no room for are left out, elements behind them are kept.
 * On a refusal every field is 0 and no lent word changes, but for what is said at gotalhim_run and gotalhim_check.
 *
 * Calls are reentrant: they keep no state and have no memory of their own, so what a call does is fixed by its arguments,
 * and several may go on at the same time as long as no slice that one of them writes is lent to another. Every call ends.
 * gotalhim_step, gotalhim_run, gotalhim_drive and gotalhim_check need at most GOTALHIM_STACK_BYTES of stack and the others
 * at most half of that, besides what the C library's memset needs; no call takes more for a larger table or a longer list.
 */
#define GOTALHIM_STACK_BYTES 2048

/* The numbers. Among 1 to 5 the faulty word nearest the front decides; a set unnamed bit is 1, 2 or 3 by its place. */
enum gotalhim_number {
    GOTALHIM_GOOD = 0,
    GOTALHIM_BAD_HEAD = 1,          /* first word not a head, or n above 12 */
    GOTALHIM_BAD_VARIABLE = 2,      /* size or coordinate word missing, of a wrong kind or out of range */
    GOTALHIM_BAD_ENTRY = 3,         /* entry word of a wrong kind, unknown variable or value, variables not rising, a
                                       forbidden word with a payload other than 0, or neither cost nor forbidden word at
                                       the end */
    GOTALHIM_COST_TOO_HIGH = 4,     /* cost above 65,535 */
    GOTALHIM_TOO_MANY_ENTRIES = 5,  /* the 4,097th cost or forbidden word, if 3 and 4 do not apply to it; in a sheet the
                                       costs of travel between neighbouring variables are counted first */
    GOTALHIM_BAD_STEP = 6,          /* a step word that names no permitted pair */
    GOTALHIM_BAD_CLAIM = 7,         /* plan not exactly n bytes, a value out of range, or a cost that fails the claim */
    GOTALHIM_BAD_READOUT = 8,       /* variable not below n, position out of range, or plan not exactly n bytes or with a
                                       value out of range */
    GOTALHIM_BAD_TABLE = 9,         /* not a valid table */
    GOTALHIM_TARGET_TOO_SHORT = 10,
    GOTALHIM_WEIGHT_TOO_HIGH = 11,  /* a weight, or the cost of a completion, would be 2 to the 56th or more */
    GOTALHIM_TABLE_FULL = 12,       /* the finished encoding or step would need more rows than there is room for; or a
                                       target has no room for the rows of a conversion */
    GOTALHIM_PAIR_LEFT = 13,        /* plan or completion wanted while a pair is left */
    GOTALHIM_BAD_FIXED = 14,        /* k above n, not exactly n - k fixed values, or one out of range */
    GOTALHIM_FORBIDDEN = 15,        /* plan wanted, but the row without literals weighs GOTALHIM_FORBIDDEN_WEIGHT or more;
                                       then, in a table from an accepted instance, every plan has a forbidden combination */
    GOTALHIM_WEIGHT_TOO_WIDE = 16   /* rows of five words wanted, but one weighs more than GOTALHIM_FIVE_MAX_WEIGHT */
};

/* How a run ended, the first field of its answer. */
enum gotalhim_outcome {
    GOTALHIM_DONE = 0,              /* no pair is left */
    GOTALHIM_PAUSED = 1,            /* at the limit, or at the end of the slice */
    GOTALHIM_STOPPED = 2            /* by 11 or 12, which is the number returned */
};

#define GOTALHIM_MAX_VARIABLES 12
#define GOTALHIM_MAX_ROWS 4096
#define GOTALHIM_ROW_WORDS 6
#define GOTALHIM_FIVE_ROW_WORDS 5

/* What a forbidden entry costs, and the greatest weight of a row: one less than 2 to the 56th, in a row of five words one
 * less than 2 to the 28th. */
#define GOTALHIM_FORBIDDEN_WEIGHT UINT64_C(268431361)
#define GOTALHIM_MAX_WEIGHT UINT64_C(72057594037927935)
#define GOTALHIM_FIVE_MAX_WEIGHT UINT64_C(268435455)

/* The words of a table over so many variables with room for so many rows, of six words each and of five. */
#define GOTALHIM_TABLE_WORDS(variables, rows) GOTALHIM_WORDS_BY(GOTALHIM_ROW_WORDS, variables, rows)
#define GOTALHIM_FIVE_TABLE_WORDS(variables, rows) GOTALHIM_WORDS_BY(GOTALHIM_FIVE_ROW_WORDS, variables, rows)

/* The rows that a table over so many variables has room for in a slice of so many words, of six words each and of five.
 * Arguments are evaluated anew at each of their places. */
#define GOTALHIM_TABLE_ROWS(variables, words) GOTALHIM_ROWS_BY(GOTALHIM_ROW_WORDS, variables, words)
#define GOTALHIM_FIVE_TABLE_ROWS(variables, words) GOTALHIM_ROWS_BY(GOTALHIM_FIVE_ROW_WORDS, variables, words)

/* The same by the words of a row, for the macros above. */
#define GOTALHIM_WORDS_BY(row_words, variables, rows) ((size_t)(variables) + 2 + (row_words) * (size_t)(rows))
#define GOTALHIM_ROWS_BY(row_words, variables, words) \
    ((size_t)(words) < GOTALHIM_WORDS_BY(row_words, variables, 0) ? (size_t)0 \
     : (size_t)(words) < GOTALHIM_WORDS_BY(row_words, variables, GOTALHIM_MAX_ROWS) \
         ? ((size_t)(words) - GOTALHIM_WORDS_BY(row_words, variables, 0)) / (row_words) \
     : (size_t)GOTALHIM_MAX_ROWS)

/*
 * Makes the instance of a sheet: first an entry for each pair of values of neighbouring variables, which costs the
 * distance, then the sheet's own entries word for word. Every distance is the nearest whole metre, a half going up. With
 * n = 0 the instance has the words of the sheet, none for none.
 * Tests: 1 to 5 on the sheet; 10 if the instance is longer than the target.
 * Answer: the number of words written.
 * Memory: the instance in front of the target, the rest kept.
 */
uint32_t gotalhim_make(const uint32_t *sheet, size_t sheet_length,
                       uint32_t *target, size_t target_length,
                       uint64_t *answer, size_t answer_length);

/*
 * Encodes an instance as the rows of a table, whatever the slice held before.
 * Tests: 1 to 5 on the instance; 10 if the slice is shorter than n + 2 words; 12.
 * Answer: the number of rows.
 * Memory: the table, zero past its rows to the end of the slice.
 */
uint32_t gotalhim_encode(const uint32_t *instance, size_t instance_length,
                         uint32_t *table, size_t table_length,
                         uint64_t *answer, size_t answer_length);

/*
 * Makes the next step in a table: resolves the pair of rows of the lowest variable, then the lowest first row, then
 * the lowest second row.
 * Tests: 9; then done, if no pair is left; 11; 12.
 * Answer: 1 if no pair is left, else 0; then the step word, 0 if no step was made. Done is a success, with number 0.
 * Memory: the table after the step, or unchanged.
 */
uint32_t gotalhim_step(uint32_t *table, size_t table_length,
                       uint64_t *answer, size_t answer_length);

/*
 * Makes steps one after the other, and writes the word of each from the front of a slice.
 * Tests: 9; then before each step, in this order: done, if no pair is left; paused, if the limit or the end of the
 * slice is reached; 11; 12.
 * Answer: the outcome (enum gotalhim_outcome), the steps made, and the bound, which is the weight of the row without
 * literals in the table that the run leaves, 0 if there is none. Done and paused are successes, with number 0. Refused
 * with 9 all fields are 0; a run that 11 or 12 stops returns all its fields.
 * Memory: the table after the last step; the words of the steps made, the rest of the slice kept. This holds for a run
 * that 11 or 12 stops, too; refused with 9 nothing changes.
 */
uint32_t gotalhim_run(uint32_t *table, size_t table_length,
                      size_t limit,
                      uint32_t *derivation, size_t derivation_length,
                      uint64_t *answer, size_t answer_length);

/*
 * Rebuilds the plan from a table in which no pair is left. If the table comes from the encoding of an accepted instance
 * by any list of step calls, runs, plan calls and conversions, a plan that is written has the least cost and no forbidden
 * combination; with no pair left and room in the target, the number is 15 exactly if every plan has one.
 * Tests, in this order: 9; 10 if the target is shorter than n bytes; 13; 15 if the row without literals weighs
 * GOTALHIM_FORBIDDEN_WEIGHT or more, wherever the table comes from.
 * Memory: the plan in front of the target, the rest kept.
 */
uint32_t gotalhim_plan(const uint32_t *table, size_t table_length,
                       uint8_t *target, size_t target_length);

/*
 * Completes a plan of which the values of the variables from k to n - 1 are fixed, that of variable k standing first,
 * without new steps: rebuilds the values of the others from a table in which no pair is left. If the table comes from the
 * encoding of an accepted instance by any list of step calls, runs, plan calls and conversions, or is the work table that
 * gotalhim_check left of one, the plan that is written costs the answer, no plan with these fixed values costs less, and
 * 11 does not occur; the answer is GOTALHIM_FORBIDDEN_WEIGHT or more exactly if every plan with these fixed values has a
 * forbidden combination. With k = n no value is fixed: the plan is that of gotalhim_plan, and the answer is the weight of
 * the row without literals, 0 if there is none. The number is never 15: with k = n, where gotalhim_plan answers 15, the
 * plan is written all the same, with its cost.
 * Tests, in this order: 9; 10 if the target is shorter than n bytes; 14; 13; 11.
 * Answer: the weight of the rows without variables below k that the fixed values falsify.
 * Memory: all n bytes of the plan in front of the target, the fixed ones as given, the rest kept. As everywhere, the fixed
 * values must not lie in the target.
 */
uint32_t gotalhim_complete(const uint32_t *table, size_t table_length,
                           size_t k,
                           const uint8_t *fixed, size_t fixed_length,
                           uint8_t *target, size_t target_length,
                           uint64_t *answer, size_t answer_length);

/*
 * Turns a table with rows of five words into the one with rows of six: the same sizes and the same rows in their order.
 * So, for every plan, the rows that it falsifies weigh the same in both.
 * Tests, in this order: 9 if the source is no valid table with rows of five words; 10 if the target is shorter than n + 2
 * words; 12 if it has no room for the rows, of six words each.
 * Answer: the number of rows.
 * Memory: the whole target, zero past the rows. The source is only read; as everywhere, it must not lie in the target.
 */
uint32_t gotalhim_to_six(const uint32_t *source, size_t source_length,
                         uint32_t *target, size_t target_length,
                         uint64_t *answer, size_t answer_length);

/*
 * Turns a table with rows of six words into the one with rows of five: the same sizes and the same rows in their order.
 * There and back, either way round, gives the words of before in a slice as long as before.
 * Tests, in this order: 9; 10 if the target is shorter than n + 2 words; 16 if a row weighs more than
 * GOTALHIM_FIVE_MAX_WEIGHT; 12 if the target has no room for the rows, of five words each.
 * Answer: the number of rows.
 * Memory: the whole target, zero past the rows. The source is only read; as everywhere, it must not lie in the target.
 */
uint32_t gotalhim_to_five(const uint32_t *source, size_t source_length,
                          uint32_t *target, size_t target_length,
                          uint64_t *answer, size_t answer_length);

/*
 * Encodes an instance as gotalhim_encode does, and then makes the calls of a list of words, one after the other. A call
 * word has its kind in the top four bits:
 *    0 step
 *    1 run: its limit in bits 14-27, the length of its slice in bits 0-13
 *    2 plan: the length of its target in bits 0-27
 * Words of other kinds are passed over. The words of the steps made stand one behind the other from the front of the
 * derivation slice. A step is passed over where no place is left there. A run has the places behind the last word, as
 * many as its length asks for or as are left. A plan has the front of the target, as long as it asks for or as the
 * target is. A call of the list that is refused, as a plan is with 15, leaves memory as it says at that call, and the next
 * one is made; its number is not returned.
 * Tests: those of gotalhim_encode alone.
 * Answer: the number of steps made.
 * Memory: the table after the last call; the words of the steps made, the rest of the slice kept; the target as the
 * plans left it.
 * Proved wherever the number is 0: the table is valid, and the step words are the way to it from the encoding, each the
 * next step. For every plan, the weights of the rows that it falsifies add up to its cost, so the bound is above no
 * plan's cost. There are no more steps than a number fixed by the instance. While a pair is left, nothing but 12 stops
 * a further step. Once none is left, gotalhim_plan writes a plan of least cost, and the bound is that cost, or answers 15,
 * which it does exactly if every plan has a forbidden combination; a plan that it writes has none. gotalhim_complete writes
 * one of least cost among those with the fixed values.
 */
uint32_t gotalhim_drive(const uint32_t *instance, size_t instance_length,
                        uint32_t *table, size_t table_length,
                        const uint32_t *calls, size_t calls_length,
                        uint32_t *derivation, size_t derivation_length,
                        uint8_t *target, size_t target_length,
                        uint64_t *answer, size_t answer_length);

/*
 * Checks a derivation: encodes the instance in the work table, replays the step words, each any permitted pair on its
 * variable, and then requires that the claimed cost is the bound and is the plan's cost. Number 0 means that the claimed
 * cost is the least cost of the instance and that the plan has it, whoever made derivation, plan and claim. A forbidden
 * entry counts at its cost: an accepted claim of GOTALHIM_FORBIDDEN_WEIGHT or more shows that every plan has a forbidden
 * combination. The number is never 15; the plan may be that of gotalhim_complete with k = n. The step words, plan and
 * bound of a list of calls that left no pair are accepted in a work table as long as the list's; where the table was
 * converted on the way, in one of at least n + 2 words with room for the most rows that there ever were, from the
 * encoding on.
 * Tests: 1 to 5 on the instance; 10 if the slice is shorter than n + 2 words; 12 for the encoding; for each step word
 * in turn 6, 11, 12; then 7.
 * Answer: the steps replayed, also where a step word or the claim is refused.
 * Memory: the table after the last good step, also where a step word or the claim is refused; unchanged where the
 * encoding is.
 */
uint32_t gotalhim_check(const uint32_t *instance, size_t instance_length,
                        const uint32_t *derivation, size_t derivation_length,
                        const uint8_t *plan, size_t plan_length,
                        uint64_t claimed,
                        uint32_t *table, size_t table_length,
                        uint64_t *answer, size_t answer_length);

/*
 * The distance from a position, an easting word and a northing word, to the place of the plan's value of a variable: the
 * nearest whole metre, a half going up.
 * Tests: 1 to 5 on the sheet; 8, which with n = 0 always applies.
 * Answer: the metres.
 */
uint32_t gotalhim_readout(const uint32_t *sheet, size_t sheet_length,
                          const uint8_t *plan, size_t plan_length,
                          uint32_t variable, uint32_t easting, uint32_t northing,
                          uint64_t *answer, size_t answer_length);

/*
 * The cost of a plan: the sum of the entries all of whose bindings it has. It is GOTALHIM_FORBIDDEN_WEIGHT or more exactly
 * if one of them is forbidden.
 * Tests: 1 to 5 on the instance; 7 for a plan that is not n values in range.
 * Answer: the cost.
 */
uint32_t gotalhim_cost(const uint32_t *instance, size_t instance_length,
                       const uint8_t *plan, size_t plan_length,
                       uint64_t *answer, size_t answer_length);

#ifdef __cplusplus
}
#endif

#endif
