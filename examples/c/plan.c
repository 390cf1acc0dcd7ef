/* Plans a little field: two variables, the second with a near value that has a cost, a far one that has none, and one that is
 * forbidden. */
#include <inttypes.h>
#include <stdio.h>

#include "gotalhim.h"

enum { VARIABLES = 2, INSTANCE_WORDS = 100, STEPS = 50, TABLE_WORDS = GOTALHIM_TABLE_WORDS(VARIABLES, 20) };

static uint32_t word(uint32_t kind, int32_t payload)
{
    return kind << 28 | ((uint32_t)payload & 0x0FFFFFFF);
}

static int refused(const char *call, uint32_t number)
{
    if (number == GOTALHIM_FORBIDDEN)
        printf("%s: every plan has a forbidden combination\n", call);
    else if (number != GOTALHIM_GOOD)
        printf("%s: refused with %" PRIu32 "\n", call, number);
    return number != GOTALHIM_GOOD;
}

/* Writes the sheet and returns its length. */
static size_t write_sheet(uint32_t *sheet)
{
    const uint32_t words[] = {
        word(1, VARIABLES),
        word(2, 1), word(8, 0), word(9, 0),                               /* variable 0 at (0, 0) */
        word(2, 3), word(8, 300), word(9, 400), word(8, 600), word(9, 800), /* variable 1 at 5 m, at 10 m */
        word(8, 0), word(9, -200),                                        /* or at 2 m */
        word(3, 1 << 8 | 0), word(4, 9),                                  /* its value 0 costs 9 */
        word(3, 1 << 8 | 2), word(11, 0),                                 /* its value 2 is forbidden: a drain */
    };
    size_t length = sizeof words / sizeof words[0];
    for (size_t at = 0; at < length; at++)
        sheet[at] = words[at];
    return length;
}

int main(void)
{
    uint32_t sheet[20], instance[INSTANCE_WORDS], table[TABLE_WORDS], derivation[STEPS];
    uint64_t written, rows, ran[3], cost, replayed, metres;
    uint8_t plan[VARIABLES], completed[VARIABLES];
    const uint8_t fixed[] = {0};
    size_t length = write_sheet(sheet);

    if (refused("make", gotalhim_make(sheet, length, instance, INSTANCE_WORDS, &written, 1))
        || refused("encode", gotalhim_encode(instance, written, table, TABLE_WORDS, &rows, 1))
        || refused("run", gotalhim_run(table, TABLE_WORDS, STEPS, derivation, STEPS, ran, 3)))
        return 1;
    if (ran[0] != GOTALHIM_DONE) {
        printf("paused after %" PRIu64 " steps; no plan costs less than %" PRIu64 "\n", ran[1], ran[2]);
        return 1;
    }
    if (refused("plan", gotalhim_plan(table, TABLE_WORDS, plan, VARIABLES)))
        return 1;
    printf("cost %" PRIu64 " after %" PRIu64 " steps: values %u and %u\n",
           ran[2], ran[1], (unsigned)plan[0], (unsigned)plan[1]);

    /* The value of variable 1 is fixed already, at 0. */
    if (refused("complete", gotalhim_complete(table, TABLE_WORDS, 1, fixed, 1, completed, VARIABLES, &cost, 1)))
        return 1;
    printf("cost %" PRIu64 " once variable 1 is fixed at its value 0: values %u and %u\n",
           cost, (unsigned)completed[0], (unsigned)completed[1]);

    if (refused("check", gotalhim_check(instance, written, derivation, ran[1], plan, VARIABLES, ran[2],
                                        table, TABLE_WORDS, &replayed, 1))
        || refused("readout", gotalhim_readout(sheet, length, plan, VARIABLES, 1, word(8, 0), word(9, 100),
                                               &metres, 1)))
        return 1;
    printf("the derivation is accepted with %" PRIu64 " steps\n", replayed);
    printf("%" PRIu64 " metres from (0, 1 m) to the next sample\n", metres);
    return 0;
}
