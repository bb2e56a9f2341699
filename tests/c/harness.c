/* Replays case files through the library.
 *
 *   harness FILE...
 *
 * Each case is called with all its strings ending at a guard page, then with all
 * of them beginning behind one, then, if some are empty, with these as NULL.
 * Answer and lent buffer are compared with the file's, octet for octet. The last
 * lines say how many cases of each function and how many calls were compared, and
 * how many differ; the exit status is 1 if any does. */
#include "guarded.h"
#include "cases.h"

enum { SHOWN = 20 };

static unsigned long calls, differ;

static void report(const char *file, unsigned long number, const struct one_case *the,
                   const char *placed, const char *what)
{
    differ++;
    if (differ <= SHOWN)
        printf("%s: case %lu (%s, %s): %s\n", file, number, call_name(the->call), placed, what);
}

/* Makes the call; 0 if it touched what was not lent. */
static int guarded_call(const struct one_case *the, uint8_t *const at[STRINGS], uint64_t *answer)
{
    if (sigsetjmp(guard_touched, 1) != 0)
        return 0;
    *answer = make_call(the, at);
    return 1;
}

static void compare(const char *file, unsigned long number, const struct one_case *the,
                    struct arena arenas[STRINGS], enum side side, int null_empty)
{
    static const char *const names[2] = { "ending at a guard", "behind a guard" };
    const char *placed = null_empty ? "empty as NULL" : names[side];
    const struct string *strings[STRINGS] = { &the->a, &the->b, &the->c, &the->d, &the->e };
    uint8_t *at[STRINGS];
    uint8_t *margin = margin_of(&arenas[2], side, the->c.len);
    uint64_t answer;
    char text[160];
    int untouched;

    for (int i = 0; i < STRINGS; i++) {
        at[i] = place_in(&arenas[i], side, strings[i]->len);
        if (strings[i]->len > 0)
            memcpy(at[i], strings[i]->at, strings[i]->len);
        else if (null_empty)
            at[i] = NULL;
    }
    memset(margin, MARGIN_OCTET, MARGIN);
    for (int i = 0; i < STRINGS; i++)
        if (i != 2)
            protect(&arenas[i], PROT_READ);
    calls++;
    untouched = guarded_call(the, at, &answer);
    for (int i = 0; i < STRINGS; i++)
        protect(&arenas[i], PROT_READ | PROT_WRITE);

    if (!untouched) {
        report(file, number, the, placed, "touched what was not lent");
        return;
    }
    if (answer != the->answer) {
        snprintf(text, sizeof text, "answer %016llX, must be %016llX", (unsigned long long)answer,
                 (unsigned long long)the->answer);
        report(file, number, the, placed, text);
        return;
    }
    for (size_t i = 0; i < the->c.len; i++)
        if (at[2][i] != the->after.at[i]) {
            snprintf(text, sizeof text, "octet %lu of the buffer is %02X, must be %02X",
                     (unsigned long)i, at[2][i], the->after.at[i]);
            report(file, number, the, placed, text);
            return;
        }
    for (size_t i = 0; i < MARGIN; i++)
        if (margin[i] != MARGIN_OCTET) {
            report(file, number, the, placed, "wrote beside the buffer");
            return;
        }
}

/* Arenas that every string of the file fits. */
static void make_arenas(const char *name, struct arena arenas[STRINGS])
{
    struct case_file f = open_cases(name);
    struct one_case the;
    size_t most[STRINGS] = { 0 };

    while (next_case(&f, &the)) {
        size_t lengths[STRINGS] = { the.a.len, the.b.len, the.c.len, the.d.len, the.e.len };

        for (int i = 0; i < STRINGS; i++)
            most[i] = lengths[i] > most[i] ? lengths[i] : most[i];
    }
    free(f.octets);
    for (int i = 0; i < STRINGS; i++)
        arenas[i] = make_arena(most[i]);
}

int main(int argc, char **argv)
{
    unsigned long cases = 0, of[sizeof CALLS] = { 0 };

    if (argc < 2) {
        fprintf(stderr, "usage: harness FILE...\n");
        return 2;
    }
    catch_touches();
    for (int i = 1; i < argc; i++) {
        struct arena arenas[STRINGS];
        struct case_file f;
        struct one_case the;
        unsigned long number = 0;

        make_arenas(argv[i], arenas);
        f = open_cases(argv[i]);
        while (next_case(&f, &the)) {
            compare(argv[i], number, &the, arenas, AT_END, 0);
            compare(argv[i], number, &the, arenas, AT_START, 0);
            if (the.a.len == 0 || the.b.len == 0 || the.c.len == 0 || the.d.len == 0 || the.e.len == 0)
                compare(argv[i], number, &the, arenas, AT_END, 1);
            of[strchr(CALLS, the.call) - CALLS]++;
            number++;
        }
        free(f.octets);
        cases += number;
    }
    printf("cases of");
    for (size_t call = 0; CALLS[call] != '\0'; call++)
        printf("%s %s %lu", call == 0 ? "" : ",", call_name(CALLS[call]), of[call]);
    printf("\n");
    printf("%lu cases, %lu calls compared, %lu differ\n", cases, calls, differ);
    return differ != 0 || cases == 0;
}
