/* Events on a table of open transactions, from the files of tests/model/table_cases.py.
 *
 *   table FILE
 *
 * Each call is made three times: with all that it is lent at the end of a page,
 * at the start of one, and on a stack of 16 KiB with a guard below it. The
 * answer and the table, and the octets beside it, are held to what they must be,
 * and the deepest use of the stack is printed. The exit status is 1 if a call
 * differs, touches a guard or needs more stack. */
#include "goldenskep.h"
#include "guarded.h"

enum { STACK_SIZE = 16384, PAINT = 0xC5, MOST = 4096 };

#if !defined(__x86_64__)
#error "the library is x86-64"
#endif

struct event {
    uint8_t number;
    size_t table, ours, partner;          /* lengths */
    const uint8_t *before, *ours_at, *partner_at, *after;
    uint64_t answer;
};

static uint8_t *octets;
static size_t size, at = 8;

static const uint8_t *take(size_t count)
{
    const uint8_t *from = octets + at;

    if (count > size - at) {
        fprintf(stderr, "the file is cut off\n");
        exit(2);
    }
    at += count;
    return from;
}

static uint64_t take_number(size_t count)
{
    const uint8_t *from = take(count);
    uint64_t n = 0;

    while (count-- > 0)
        n = n << 8 | *from++;
    return n;
}

static const uint8_t *take_string(size_t *length)
{
    *length = (size_t)take_number(4);
    if (*length > MOST) {
        fprintf(stderr, "a string is too long\n");
        exit(2);
    }
    return take(*length);
}

/* The next event; 0 if there is none. */
static int next_event(struct event *the)
{
    const uint8_t *before = the->after;
    size_t length = the->table;

    if (at == size)
        return 0;
    if (take_number(1) == 1)
        before = take_string(&length);
    the->before = before;
    the->number = (uint8_t)take_number(1);
    the->ours_at = take_string(&the->ours);
    the->partner_at = take_string(&the->partner);
    the->answer = take_number(8);
    the->after = take_string(&the->table);
    if (before == NULL || the->table != length) {
        fprintf(stderr, "an event has no table before it, or one of another length\n");
        exit(2);
    }
    return 1;
}

static void read_file(const char *name)
{
    FILE *file = fopen(name, "rb");
    long end;

    if (file == NULL || fseek(file, 0, SEEK_END) != 0 || (end = ftell(file)) < 0) {
        perror(name);
        exit(2);
    }
    rewind(file);
    size = (size_t)end;
    octets = malloc(size + 1);
    if (octets == NULL || fread(octets, 1, size, file) != size || size < 8 || memcmp(octets, "GSKTABL1", 8) != 0) {
        fprintf(stderr, "%s is no file of events\n", name);
        exit(2);
    }
    fclose(file);
}

static struct arena table_arena, ours_arena, partner_arena, stack_arena;

/* A string that is only read. */
static const uint8_t *lend(const struct arena *arena, enum side side, const uint8_t *string, size_t length)
{
    uint8_t *to = place_in(arena, side, length);

    protect(arena, PROT_READ | PROT_WRITE);
    memcpy(to, string, length);
    protect(arena, PROT_READ);
    return to;
}

/* The call on a stack whose top is given: seven arguments, the last one on it. */
static uint64_t call_on(uint8_t *top, uint8_t *table, const struct event *the, const uint8_t *ours,
                        const uint8_t *partner)
{
    register uint64_t r8 __asm__("r8") = the->ours;
    register uint64_t r9 __asm__("r9") = (uint64_t)(uintptr_t)partner;
    uint64_t di = (uint64_t)(uintptr_t)table, si = the->table, dx = the->number, cx = (uint64_t)(uintptr_t)ours;
    uint64_t answer;

    __asm__ volatile("movq %%rsp, %%rbx\n\t"
                     "movq %[top], %%rsp\n\t"
                     "subq $8, %%rsp\n\t"
                     "pushq %[seventh]\n\t"
                     "call *%[function]\n\t"
                     "movq %%rbx, %%rsp"
                     : "=a"(answer), "+D"(di), "+S"(si), "+d"(dx), "+c"(cx), "+r"(r8), "+r"(r9)
                     : [top] "r"(top), [function] "r"((void *)goldenskep_transaction), [seventh] "r"((uint64_t)the->partner)
                     : "rbx", "r10", "r11", "cc", "memory", "xmm0", "xmm1", "xmm2", "xmm3", "xmm4",
                       "xmm5", "xmm6", "xmm7", "xmm8", "xmm9", "xmm10", "xmm11", "xmm12", "xmm13",
                       "xmm14", "xmm15");
    return answer;
}

/* The call, on this stack if it is given none; 0 if a guard was touched. */
static int guarded_call(uint8_t *top, uint8_t *table, const struct event *the, const uint8_t *ours,
                        const uint8_t *partner, uint64_t *answer)
{
    if (sigsetjmp(guard_touched, 1) != 0)
        return 0;
    *answer = top != NULL ? call_on(top, table, the, ours, partner)
                          : goldenskep_transaction(table, the->table, the->number, ours, the->ours, partner, the->partner);
    return 1;
}

/* One call: what differs, or NULL. */
static const char *differs(const struct event *the, enum side side, uint8_t *top)
{
    uint8_t *table = place_in(&table_arena, side, the->table);
    uint8_t *margin = margin_of(&table_arena, side, the->table);
    const uint8_t *ours = lend(&ours_arena, side, the->ours_at, the->ours);
    const uint8_t *partner = lend(&partner_arena, side, the->partner_at, the->partner);
    uint64_t answer;

    memcpy(table, the->before, the->table);
    memset(margin, MARGIN_OCTET, MARGIN);
    if (!guarded_call(top, table, the, ours, partner, &answer))
        return "touches what it may not, or needs more stack";
    if (answer != the->answer)
        return "has another answer";
    if (memcmp(table, the->after, the->table) != 0)
        return "leaves another table";
    for (size_t i = 0; i < MARGIN; i++)
        if (margin[i] != MARGIN_OCTET)
            return "writes beside the table";
    return NULL;
}

int main(int argc, char **argv)
{
    struct event the = { 0 };
    unsigned long count = 0, differ = 0, refused = 0;
    size_t deepest = 0;
    uint8_t *top;

    if (argc != 2) {
        fprintf(stderr, "usage: table FILE\n");
        return 2;
    }
    read_file(argv[1]);
    table_arena = make_arena(MOST);
    ours_arena = make_arena(MOST);
    partner_arena = make_arena(MOST);
    stack_arena = make_arena(STACK_SIZE);
    top = stack_arena.from + STACK_SIZE;
    memset(stack_arena.from, PAINT, STACK_SIZE);
    catch_touches();
    while (next_event(&the)) {
        const char *why = differs(&the, AT_END, NULL);
        uint8_t *deep = stack_arena.from;

        if (why == NULL)
            why = differs(&the, AT_START, NULL);
        if (why == NULL)
            why = differs(&the, AT_END, top);
        while (deep != top && *deep == PAINT)
            deep++;
        /* without the two places for the seventh argument, which are the caller's */
        if ((size_t)(top - deep) > deepest + 16)
            deepest = (size_t)(top - deep) - 16;
        memset(deep, PAINT, (size_t)(top - deep));
        if (why != NULL && differ++ < 10)
            printf("event %lu (number %d) %s\n", count, the.number, why);
        refused += goldenskep_answer_status(the.answer) != GOLDENSKEP_STATUS_DONE;
        count++;
    }
    printf("%lu events, %lu of them refused, at most %lu octets of stack, %lu differ\n", count, refused,
           (unsigned long)deepest, differ);
    return differ != 0 || count == 0;
}
