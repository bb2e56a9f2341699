/* Makes the calls of case files on a stack of 16 KiB, with a guard below it.
 *
 *   stack FILE...
 *
 * The stack is painted before each call; how much of it the call used, return
 * address and arguments included, is seen by where the paint is gone. Prints the deepest use of
 * each call; the exit status is 1 if one does not fit, or an answer differs. */
#include "guarded.h"
#include "cases.h"

enum { STACK_SIZE = 16384, PAINT = 0xC5 };

#if !defined(__x86_64__)
#error "the library is x86-64"
#endif

enum { IN_REGISTERS = 6, ON_STACK = 4 };

/* Calls function with six arguments in registers, the stack pointer at `top`;
 * further ones stand there. */
static uint64_t call_on(void *top, void *function, const uint64_t arguments[6])
{
    register uint64_t r8 __asm__("r8") = arguments[4];
    register uint64_t r9 __asm__("r9") = arguments[5];
    uint64_t di = arguments[0], si = arguments[1], dx = arguments[2], cx = arguments[3];
    uint64_t answer;

    __asm__ volatile("movq %%rsp, %%rbx\n\t"
                     "movq %[top], %%rsp\n\t"
                     "call *%[function]\n\t"
                     "movq %%rbx, %%rsp"
                     : "=a"(answer), "+D"(di), "+S"(si), "+d"(dx), "+c"(cx), "+r"(r8), "+r"(r9)
                     : [top] "r"(top), [function] "r"(function)
                     : "rbx", "r10", "r11", "cc", "memory", "xmm0", "xmm1", "xmm2", "xmm3", "xmm4",
                       "xmm5", "xmm6", "xmm7", "xmm8", "xmm9", "xmm10", "xmm11", "xmm12", "xmm13",
                       "xmm14", "xmm15");
    return answer;
}

#define ADDRESS(p) ((uint64_t)(uintptr_t)(p))

static uint64_t call_case(uint8_t *top, const struct one_case *the, uint8_t *c)
{
    const struct string a = the->a, b = the->b;
    uint64_t read[6] = { ADDRESS(a.at), a.len, ADDRESS(c), the->c.len, 0, 0 };
    uint64_t write[6] = { ADDRESS(a.at), a.len, ADDRESS(b.at), b.len, ADDRESS(c), the->c.len };
    uint64_t steer[6] = { ADDRESS(a.at), a.len, ADDRESS(b.at), b.len, 0, 0 };
    uint64_t unitdata[IN_REGISTERS + ON_STACK] = { 0, ADDRESS(b.at), b.len, ADDRESS(the->d.at), the->d.len,
                                                   ADDRESS(the->e.at), the->e.len, ADDRESS(c), the->c.len, 0 };

    switch (the->call) {
    case 'r':
        return call_on(top, (void *)goldenskep_read, read);
    case 'w':
        return call_on(top, (void *)goldenskep_write, write);
    case 's':
        return call_on(top, (void *)goldenskep_steer, steer);
    case 'u':
        return call_on(top, (void *)goldenskep_unitdata_read, read);
    case 'v':
        unitdata[0] = a.at[0];
        memcpy(top - ON_STACK * 8, unitdata + IN_REGISTERS, ON_STACK * 8);
        return call_on(top - ON_STACK * 8, (void *)goldenskep_unitdata_write, unitdata);
    default:
        return call_on(top, (void *)goldenskep_list, read);
    }
}

/* The same; 0 if the stack was too small. */
static int guarded_call(uint8_t *top, const struct one_case *the, uint8_t *c, uint64_t *answer)
{
    if (sigsetjmp(guard_touched, 1) != 0)
        return 0;
    *answer = call_case(top, the, c);
    return 1;
}

static const uint8_t painted[64] = {
#define P8 PAINT, PAINT, PAINT, PAINT, PAINT, PAINT, PAINT, PAINT
    P8, P8, P8, P8, P8, P8, P8, P8
};

/* The octets in use between `from` and `top`. */
static size_t used(const uint8_t *from, const uint8_t *top)
{
    while (top - from >= 64 && memcmp(from, painted, 64) == 0)
        from += 64;
    while (from != top && *from == PAINT)
        from++;
    return (size_t)(top - from);
}

int main(int argc, char **argv)
{
    unsigned long count[sizeof CALLS] = { 0 }, deepest_case[sizeof CALLS] = { 0 }, differ = 0;
    size_t deepest[sizeof CALLS] = { 0 };
    struct arena arena = make_arena(STACK_SIZE);
    uint8_t *from, *top;
    unsigned long number = 0;

    if (argc < 2) {
        fprintf(stderr, "usage: stack FILE...\n");
        return 2;
    }
    /* The guard is right below the stack. */
    from = arena.from;
    top = from + STACK_SIZE;
    memset(from, PAINT, STACK_SIZE);
    catch_touches();
    for (int i = 1; i < argc; i++) {
        struct case_file f = open_cases(argv[i]);
        struct one_case the;

        while (next_case(&f, &the)) {
            uint8_t *c = malloc(the.c.len + 1);
            size_t call = (size_t)(strchr(CALLS, the.call) - CALLS);
            uint64_t answer;
            size_t depth;

            if (c == NULL) {
                perror("malloc");
                return 2;
            }
            memcpy(c, the.c.at, the.c.len);
            if (!guarded_call(top, &the, c, &answer)) {
                printf("case %lu (%s): more than %d octets of stack\n", number, call_name(the.call),
                       STACK_SIZE);
                return 1;
            }
            if (answer != the.answer || memcmp(c, the.after.at, the.c.len) != 0) {
                printf("case %lu (%s) differs\n", number, call_name(the.call));
                differ++;
            }
            depth = used(from, top);
            memset(top - depth, PAINT, depth);
            count[call]++;
            if (depth > deepest[call]) {
                deepest[call] = depth;
                deepest_case[call] = number;
            }
            free(c);
            number++;
        }
        free(f.octets);
    }
    for (size_t call = 0; CALLS[call] != '\0'; call++)
        if (count[call] > 0)
            printf("%-14s %7lu calls, at most %5lu octets of stack (case %lu)\n", call_name(CALLS[call]),
                   count[call], (unsigned long)deepest[call], deepest_case[call]);
    printf("%lu calls on a stack of %d octets, %lu differ\n", number, STACK_SIZE, differ);
    return differ != 0 || number == 0;
}
