/* Prints what the header defines, and tries tables of exactly as many words as it says and of one fewer, completions,
 * forbidden combinations, conversions, fields without variables, and empty slices. */
#include <stdio.h>
#include <stdlib.h>
#include <string.h>

#include "gotalhim.h"

#define VALUE(name) printf("%s %lu\n", #name, (unsigned long)(name))

static void print_values(void)
{
    VALUE(GOTALHIM_VERSION_MAJOR);
    VALUE(GOTALHIM_VERSION_MINOR);
    VALUE(GOTALHIM_VERSION_PATCH);
    VALUE(GOTALHIM_STACK_BYTES);
    VALUE(GOTALHIM_GOOD);
    VALUE(GOTALHIM_BAD_HEAD);
    VALUE(GOTALHIM_BAD_VARIABLE);
    VALUE(GOTALHIM_BAD_ENTRY);
    VALUE(GOTALHIM_COST_TOO_HIGH);
    VALUE(GOTALHIM_TOO_MANY_ENTRIES);
    VALUE(GOTALHIM_BAD_STEP);
    VALUE(GOTALHIM_BAD_CLAIM);
    VALUE(GOTALHIM_BAD_READOUT);
    VALUE(GOTALHIM_BAD_TABLE);
    VALUE(GOTALHIM_TARGET_TOO_SHORT);
    VALUE(GOTALHIM_WEIGHT_TOO_HIGH);
    VALUE(GOTALHIM_TABLE_FULL);
    VALUE(GOTALHIM_PAIR_LEFT);
    VALUE(GOTALHIM_BAD_FIXED);
    VALUE(GOTALHIM_FORBIDDEN);
    VALUE(GOTALHIM_WEIGHT_TOO_WIDE);
    VALUE(GOTALHIM_DONE);
    VALUE(GOTALHIM_PAUSED);
    VALUE(GOTALHIM_STOPPED);
    VALUE(GOTALHIM_MAX_VARIABLES);
    VALUE(GOTALHIM_MAX_ROWS);
    VALUE(GOTALHIM_ROW_WORDS);
    VALUE(GOTALHIM_FIVE_ROW_WORDS);
    VALUE(GOTALHIM_FORBIDDEN_WEIGHT);
    VALUE(GOTALHIM_MAX_WEIGHT);
    VALUE(GOTALHIM_FIVE_MAX_WEIGHT);
    printf("GOTALHIM_VERSION %s\n", GOTALHIM_VERSION);
}

enum { VALUES = 8, INSTANCE_WORDS = 2 + GOTALHIM_MAX_VARIABLES * (1 + 2 * VALUES), ROWS = 2 * VALUES, STEPS = 50 };

/* Writes an instance with so many entries of cost 1, one for each value and then constant ones; returns its length. Its
 * encoding has a row for each value, and one for the constants together. */
static size_t write_instance(uint32_t *words, uint32_t variables, uint32_t entries)
{
    size_t length = 0;
    words[length++] = 1u << 28 | variables;
    for (uint32_t variable = 0; variable < variables; variable++)
        words[length++] = 2u << 28 | VALUES;
    for (uint32_t entry = 0; entry < entries; entry++) {
        if (entry < VALUES * variables)
            words[length++] = 3u << 28 | (entry / VALUES) << 8 | entry % VALUES;
        words[length++] = 4u << 28 | 1;
    }
    return length;
}

/* The number of an encoding in a table of so many words; 0 only where it answers that many rows. */
static uint32_t encoded(uint32_t variables, uint32_t rows, size_t words)
{
    uint32_t instance[INSTANCE_WORDS], *table = malloc((words + 1) * sizeof *table);
    uint64_t answer = 0;
    if (table == NULL)
        abort();
    uint32_t number = gotalhim_encode(instance, write_instance(instance, variables, rows), table, words, &answer, 1);
    free(table);
    return number == GOTALHIM_GOOD && answer != rows ? GOTALHIM_BAD_TABLE : number;
}

/* Whether the macros say how many words a table takes, and how many rows words have room for. */
static int agrees(uint32_t variables, uint32_t rows)
{
    size_t words = GOTALHIM_TABLE_WORDS(variables, rows);
    uint32_t shorter = rows == 0 ? GOTALHIM_TARGET_TOO_SHORT : GOTALHIM_TABLE_FULL;
    return encoded(variables, rows, words) == GOTALHIM_GOOD && encoded(variables, rows, words - 1) == shorter
        && GOTALHIM_TABLE_ROWS(variables, words) == rows
        && GOTALHIM_TABLE_ROWS(variables, words + GOTALHIM_ROW_WORDS - 1) == rows
        && GOTALHIM_TABLE_ROWS(variables, words - 1) == (rows == 0 ? 0 : rows - 1);
}

/* The number of a completion with these fixed values, in a field whose first variable has one value that costs 1. */
static uint32_t completed(uint32_t variables, size_t k, const uint8_t *fixed, size_t fixed_length,
                          uint8_t *plan, uint64_t *cost)
{
    uint32_t instance[INSTANCE_WORDS], table[GOTALHIM_TABLE_WORDS(GOTALHIM_MAX_VARIABLES, 1)];
    size_t words = GOTALHIM_TABLE_WORDS(variables, 1);
    gotalhim_encode(instance, write_instance(instance, variables, 1), table, words, cost, 1);
    return gotalhim_complete(table, words, k, fixed, fixed_length, plan, variables, cost, 1);
}

/* Whether values from k on are completed as the header says: the first variable gets its value 1, or costs 1 where it is
 * fixed at 0. */
static int completes(uint32_t variables, uint32_t k)
{
    const uint8_t fixed[GOTALHIM_MAX_VARIABLES + 1] = {0};
    uint8_t plan[GOTALHIM_MAX_VARIABLES] = {9};
    uint64_t cost = 9;
    return completed(variables, k, fixed, variables - k, plan, &cost) == GOTALHIM_GOOD
        && cost == (k == 0) && plan[0] == (k != 0)
        && completed(variables, k, fixed, variables - k + 1, plan, &cost) == GOTALHIM_BAD_FIXED && cost == 0
        && completed(variables, k + variables + 1, fixed, 0, plan, &cost) == GOTALHIM_BAD_FIXED;
}

/* Writes an instance whose first variable has so many forbidden values, from value 0 on, which costs 1 beside; returns its
 * length. */
static size_t write_forbidden(uint32_t *words, uint32_t variables, uint32_t forbidden)
{
    size_t length = write_instance(words, variables, 1);
    for (uint32_t value = 0; value < forbidden; value++) {
        words[length++] = 3u << 28 | value;
        words[length++] = 11u << 28;
    }
    return length;
}

/* Whether values are forbidden as the header says: the plan has the first that is good. Where all are forbidden there is no
 * plan but a completion, at the cost of a forbidden entry; the checker accepts either. */
static int forbids(uint32_t variables, uint32_t forbidden)
{
    uint32_t instance[INSTANCE_WORDS], table[GOTALHIM_TABLE_WORDS(GOTALHIM_MAX_VARIABLES, ROWS)], derivation[STEPS];
    uint64_t ran[3], cost = 9, weight = 9, replayed;
    uint8_t plan[GOTALHIM_MAX_VARIABLES] = {9}, best[GOTALHIM_MAX_VARIABLES];
    size_t length = write_forbidden(instance, variables, forbidden), words = GOTALHIM_TABLE_WORDS(variables, ROWS);
    int all = forbidden == VALUES;

    if (gotalhim_encode(instance, length, table, words, ran, 1) != GOTALHIM_GOOD
        || gotalhim_run(table, words, STEPS, derivation, STEPS, ran, 3) != GOTALHIM_GOOD || ran[0] != GOTALHIM_DONE
        || gotalhim_plan(table, words, plan, variables) != (all ? GOTALHIM_FORBIDDEN : GOTALHIM_GOOD)
        || gotalhim_complete(table, words, variables, plan, 0, best, variables, &weight, 1) != GOTALHIM_GOOD
        || gotalhim_cost(instance, length, best, variables, &cost, 1) != GOTALHIM_GOOD)
        return 0;
    return plan[0] == (all ? 9 : best[0]) && best[0] == (all || forbidden == 0 ? 1 : forbidden)
        && cost == (all ? GOTALHIM_FORBIDDEN_WEIGHT : 0) && weight == cost && ran[2] == cost
        && gotalhim_check(instance, length, derivation, ran[1], best, variables, cost, table, words, &replayed, 1)
               == GOTALHIM_GOOD;
}

/* Whether a plan with so many forbidden entries at each variable costs as many times the cost of one, in 64 bits. */
static int adds(uint32_t variables, uint32_t times)
{
    uint32_t instance[INSTANCE_WORDS];
    const uint8_t plan[GOTALHIM_MAX_VARIABLES] = {0};
    uint64_t cost = 9;
    size_t length = write_instance(instance, variables, 0);
    for (uint32_t entry = 0; entry < times * variables; entry++) {
        instance[length++] = 3u << 28 | (entry / times) << 8;
        instance[length++] = 11u << 28;
    }
    return gotalhim_cost(instance, length, plan, variables, &cost, 1) == GOTALHIM_GOOD
        && cost == times * variables * GOTALHIM_FORBIDDEN_WEIGHT;
}

/* The number of a conversion in a target of so many words; none that there is, where it answers other rows than it should. */
static uint32_t converted(uint32_t (*convert)(const uint32_t *, size_t, uint32_t *, size_t, uint64_t *, size_t),
                          const uint32_t *source, size_t words, uint32_t *target, size_t target_words, uint64_t rows)
{
    uint64_t answer = 99;
    uint32_t number = convert(source, words, target, target_words, &answer, 1);
    return answer == (number == GOTALHIM_GOOD ? rows : 0) ? number : UINT32_MAX;
}

/* Whether the macros say how many words a table takes in either form, by conversions there and back in targets of so many
 * words and of one fewer. */
static int turns(uint32_t variables, uint32_t rows)
{
    uint32_t instance[INSTANCE_WORDS], *six, *five, *again;
    size_t words = GOTALHIM_TABLE_WORDS(variables, rows), fewer = GOTALHIM_FIVE_TABLE_WORDS(variables, rows);
    uint32_t shorter = rows == 0 ? GOTALHIM_TARGET_TOO_SHORT : GOTALHIM_TABLE_FULL;
    uint32_t mistaken = rows == 0 ? GOTALHIM_GOOD : GOTALHIM_BAD_TABLE;
    uint64_t encoded_rows;
    int good;

    six = malloc(3 * words * sizeof *six);
    if (six == NULL)
        return 0;
    five = six + words;
    again = five + words;
    gotalhim_encode(instance, write_instance(instance, variables, rows), six, words, &encoded_rows, 1);
    good = converted(gotalhim_to_five, six, words, five, fewer, rows) == GOTALHIM_GOOD
        && converted(gotalhim_to_five, six, words, again, fewer - 1, rows) == shorter
        && converted(gotalhim_to_six, six, words, again, words, rows) == mistaken
        && converted(gotalhim_to_five, five, fewer, again, words, rows) == mistaken
        && converted(gotalhim_to_six, five, fewer, again, words - 1, rows) == shorter
        && converted(gotalhim_to_six, five, fewer, again, words, rows) == GOTALHIM_GOOD
        && memcmp(again, six, words * sizeof *six) == 0;
    free(six);
    return good
        && GOTALHIM_FIVE_TABLE_ROWS(variables, fewer) == rows
        && GOTALHIM_FIVE_TABLE_ROWS(variables, fewer + GOTALHIM_FIVE_ROW_WORDS - 1) == rows
        && GOTALHIM_FIVE_TABLE_ROWS(variables, fewer - 1) == (rows == 0 ? 0 : rows - 1);
}

/* Whether a row's weight is turned into five words up to the greatest that the header names: a forbidden value with a cost
 * beside comes to it, or to one more, which is too wide. */
static int narrows(uint32_t variables, uint32_t more)
{
    uint32_t instance[INSTANCE_WORDS], six[GOTALHIM_TABLE_WORDS(GOTALHIM_MAX_VARIABLES, 1)];
    uint32_t five[GOTALHIM_FIVE_TABLE_WORDS(GOTALHIM_MAX_VARIABLES, 1)];
    size_t words = GOTALHIM_TABLE_WORDS(variables, 1), fewer = GOTALHIM_FIVE_TABLE_WORDS(variables, 1);
    size_t length = write_forbidden(instance, variables, 1);
    uint64_t rows;
    instance[length++] = 3u << 28;
    instance[length++] = 4u << 28 | (uint32_t)(GOTALHIM_FIVE_MAX_WEIGHT - GOTALHIM_FORBIDDEN_WEIGHT - 1 + more);
    return gotalhim_encode(instance, length, six, words, &rows, 1) == GOTALHIM_GOOD && rows == 1
        && converted(gotalhim_to_five, six, words, five, fewer, 1) == (more ? GOTALHIM_WEIGHT_TOO_WIDE : GOTALHIM_GOOD)
        && converted(gotalhim_to_five, six, words, five, fewer - 1, 1)
               == (more ? GOTALHIM_WEIGHT_TOO_WIDE : GOTALHIM_TABLE_FULL);
}

/* A slice of no elements, which has its pointer from another. */
#define EMPTY(pointer) (pointer), 0

/* Whether a field without variables is planned and checked as the header says, in slices as short as they can be. Number 0
 * has no words, and each number above it a head of 0 and one constant cost less, of 1 each. */
static int plans_nothing(uint32_t variables, uint32_t number)
{
    uint32_t sheet[INSTANCE_WORDS], instance[INSTANCE_WORDS], table[GOTALHIM_TABLE_WORDS(0, 1)];
    uint64_t written = 9, rows = 9, ran[3] = {9, 9, 9}, weight = 9, cost = 9, replayed = 9;
    uint8_t plan[1] = {9};
    uint32_t total = number == 0 ? 0 : number - 1;
    size_t length = number == 0 ? 0 : write_instance(sheet, variables, total);
    size_t words = GOTALHIM_TABLE_WORDS(variables, total != 0);

    return gotalhim_make(sheet, length, instance, length, &written, 1) == GOTALHIM_GOOD && written == length
        && memcmp(instance, sheet, length * sizeof *sheet) == 0
        && gotalhim_encode(instance, length, table, words, &rows, 1) == GOTALHIM_GOOD && rows == (total != 0)
        && gotalhim_run(table, words, STEPS, EMPTY(table), ran, 3) == GOTALHIM_GOOD
        && ran[0] == GOTALHIM_DONE && ran[1] == 0 && ran[2] == total
        && gotalhim_plan(table, words, EMPTY(plan)) == GOTALHIM_GOOD
        && gotalhim_complete(table, words, 0, EMPTY(plan), EMPTY(plan), &weight, 1) == GOTALHIM_GOOD && weight == total
        && gotalhim_cost(instance, length, EMPTY(plan), &cost, 1) == GOTALHIM_GOOD && cost == total
        && gotalhim_check(instance, length, EMPTY(table), EMPTY(plan), total, table, words, &replayed, 1) == GOTALHIM_GOOD
        && replayed == 0 && plan[0] == 9;
}

/* Whether every call takes empty slices, all with the pointers of the same three variables, and leaves these alone. */
static int takes_nothing(void)
{
    uint32_t word = 9;
    uint64_t field = 9;
    uint8_t byte = 9;
    return gotalhim_make(EMPTY(&word), EMPTY(&word), EMPTY(&field)) == GOTALHIM_GOOD
        && gotalhim_cost(EMPTY(&word), EMPTY(&byte), EMPTY(&field)) == GOTALHIM_GOOD
        && gotalhim_readout(EMPTY(&word), EMPTY(&byte), 0, 8u << 28, 9u << 28, EMPTY(&field)) == GOTALHIM_BAD_READOUT
        && gotalhim_encode(EMPTY(&word), EMPTY(&word), EMPTY(&field)) == GOTALHIM_TARGET_TOO_SHORT
        && gotalhim_check(EMPTY(&word), EMPTY(&word), EMPTY(&byte), 0, EMPTY(&word), EMPTY(&field)) == GOTALHIM_TARGET_TOO_SHORT
        && gotalhim_drive(EMPTY(&word), EMPTY(&word), EMPTY(&word), EMPTY(&word), EMPTY(&byte), EMPTY(&field))
               == GOTALHIM_TARGET_TOO_SHORT
        && gotalhim_step(EMPTY(&word), EMPTY(&field)) == GOTALHIM_BAD_TABLE
        && gotalhim_run(EMPTY(&word), 1, EMPTY(&word), EMPTY(&field)) == GOTALHIM_BAD_TABLE
        && gotalhim_plan(EMPTY(&word), EMPTY(&byte)) == GOTALHIM_BAD_TABLE
        && gotalhim_complete(EMPTY(&word), 0, EMPTY(&byte), EMPTY(&byte), EMPTY(&field)) == GOTALHIM_BAD_TABLE
        && gotalhim_to_six(EMPTY(&word), EMPTY(&word), EMPTY(&field)) == GOTALHIM_BAD_TABLE
        && gotalhim_to_five(EMPTY(&word), EMPTY(&word), EMPTY(&field)) == GOTALHIM_BAD_TABLE
        && word == 9 && field == 9 && byte == 9;
}

/* Whether a trial holds for every number of variables in a range with each number up to so many and so many for each
 * variable; what does not is printed. */
static int each(int (*holds)(uint32_t, uint32_t), const char *what, uint32_t fewest_variables, uint32_t most_variables,
                uint32_t most, uint32_t for_each_variable)
{
    for (uint32_t variables = fewest_variables; variables <= most_variables; variables++)
        for (uint32_t number = 0; number <= most + for_each_variable * variables; number++)
            if (!holds(variables, number)) {
                printf("%s %u over %u variables: does not agree\n", what, (unsigned)number, (unsigned)variables);
                return 0;
            }
    return 1;
}

/* The rows that so many words have room for, over no variables, one and twelve, of six words each and of five. */
static void print_rows(size_t words)
{
    printf("rows of %lu words: %lu %lu %lu %lu %lu %lu\n", (unsigned long)words,
           (unsigned long)GOTALHIM_TABLE_ROWS(0, words), (unsigned long)GOTALHIM_TABLE_ROWS(1, words),
           (unsigned long)GOTALHIM_TABLE_ROWS(12, words), (unsigned long)GOTALHIM_FIVE_TABLE_ROWS(0, words),
           (unsigned long)GOTALHIM_FIVE_TABLE_ROWS(1, words), (unsigned long)GOTALHIM_FIVE_TABLE_ROWS(12, words));
}

int main(void)
{
    const uint32_t all = GOTALHIM_MAX_VARIABLES;
    print_values();
    if (!each(agrees, "rows of a table", 0, all, 1, VALUES) || !each(completes, "completions from", 1, all, 0, 1)
        || !each(forbids, "forbidden values", 1, all, VALUES, 0)
        || !each(adds, "forbidden entries of each variable", 0, all, 2, 0)
        || !each(turns, "rows of a converted table", 0, all, 1, VALUES)
        || !each(narrows, "weights too wide by", 1, all, 1, 0) || !each(plans_nothing, "a plan of no bytes", 0, 0, 4, 0))
        return 1;
    if (!takes_nothing()) {
        printf("empty slices: do not agree\n");
        return 1;
    }
    for (size_t words = 0; words < 30000; words += 100)
        print_rows(words);
    return 0;
}
