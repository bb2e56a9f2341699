/* The loop whose instructions are counted, for events on a table of open transactions.
 *
 *   PROGRAM CASE ROUNDS
 *
 * Makes one call ROUNDS times, each on the same table of 64 transactions with IDs
 * of four octets (or on the empty one), which is copied anew before it. Prints the
 * answer. With NOTHING the call only returns. */
#include <stdio.h>
#include <stdlib.h>
#include <string.h>

#include "goldenskep.h"

/* Not taken into the loop, so that what is counted beside the call is the same. */
__attribute__((noinline)) static uint64_t call(goldenskep_table *table, long event, const uint8_t *ours, size_t n,
                                               const uint8_t *partner, size_t m)
{
    __asm__ volatile("" : : "r"(table), "r"(event), "r"(ours), "r"(n), "r"(partner), "r"(m) : "memory");
#ifdef NOTHING
    return 0;
#else
    return goldenskep_table_step(table, event, ours, n, partner, m);
#endif
}

static const struct one {
    const char *name;
    int opened;                           /* the event that filled the table, 0 for none */
    int event;
    int entry;                            /* whose ID is given; 64 is nobody's */
    size_t ours, partner;                 /* lengths of the IDs */
} cases[] = {
    { "bad-id", GOLDENSKEP_EVENT_BEGIN_SENT, GOLDENSKEP_EVENT_END_SENT, 0, 0, 0 },
    { "activates-first", GOLDENSKEP_EVENT_BEGIN_RECEIVED, GOLDENSKEP_EVENT_CONTINUE_SENT, 0, 4, 0 },
    { "learns-first", GOLDENSKEP_EVENT_BEGIN_SENT, GOLDENSKEP_EVENT_CONTINUE_RECEIVED, 0, 4, 4 },
    { "closes-first", GOLDENSKEP_EVENT_BEGIN_SENT, GOLDENSKEP_EVENT_END_RECEIVED, 0, 4, 0 },
    { "closes-last", GOLDENSKEP_EVENT_BEGIN_SENT, GOLDENSKEP_EVENT_END_RECEIVED, 63, 4, 0 },
    { "opens-first", 0, GOLDENSKEP_EVENT_BEGIN_RECEIVED, 64, 4, 4 },
    { "full", GOLDENSKEP_EVENT_BEGIN_SENT, GOLDENSKEP_EVENT_BEGIN_SENT, 64, 4, 0 },
};

static void set_id(uint8_t id[4], int entry)
{
    static const uint8_t front[3] = { 1, 2, 3 };

    memcpy(id, front, sizeof front);
    id[3] = (uint8_t)entry;
}

int main(int argc, char **argv)
{
    static goldenskep_table full, table;
    static const uint8_t partner[4] = { 9, 8, 7, 6 };
    const struct one *the = NULL;
    uint8_t id[4];
    uint64_t answer = 0;
    long rounds;

    for (size_t i = 0; argc == 3 && i < sizeof cases / sizeof *cases; i++)
        if (strcmp(cases[i].name, argv[1]) == 0)
            the = &cases[i];
    if (the == NULL) {
        fprintf(stderr, "usage: count_table CASE ROUNDS\n");
        return 2;
    }
    rounds = strtol(argv[2], NULL, 10);
    goldenskep_table_init(&full);
    for (int k = 0; the->opened != 0 && k < GOLDENSKEP_MAX_TRANSACTIONS; k++) {
        set_id(id, k);
        call(&full, the->opened, id, 4, partner, 4);
    }
    set_id(id, the->entry);
    while (rounds-- > 0) {
        memcpy(&table, &full, sizeof table);
        answer = call(&table, the->event, id, the->ours, partner, the->partner);
    }
    printf("%llx\n", (unsigned long long)answer);
    return 0;
}
