/* The loop whose instructions are counted, for reading, writing and steering, and for unitdata.
 *
 *   PROGRAM CASES ROUNDS CALL [CLASS]
 *
 * The cases of that call (r, w, s, u, v) whose message is readable or was written, all
 * or those whose message is nearest to CLASS octets among 20, 60, 120 and 250, are
 * called ROUNDS times. The buffers are not cleared in between. Prints how many
 * calls and octets of message one round has, and how many differ in their answer.
 *
 * READ, WRITE, STEER, READ_UNITDATA and WRITE_UNITDATA name the functions; with
 * NOTHING they only return. */
#include "cases.h"
#include "classes.h"

#ifdef NOTHING
static uint64_t nothing_read(const uint8_t *a, size_t n, uint8_t *b, size_t m)
{
    (void)a, (void)n, (void)b, (void)m;
    return 0;
}

static uint64_t nothing_write(const uint8_t *a, size_t n, const uint8_t *b, size_t m, uint8_t *c, size_t l)
{
    (void)a, (void)n, (void)b, (void)m, (void)c, (void)l;
    return 0;
}

static uint64_t nothing_steer(const uint8_t *a, size_t n, const uint8_t *b, size_t m)
{
    (void)a, (void)n, (void)b, (void)m;
    return 0;
}

static uint64_t nothing_read_unitdata(const uint8_t *a, size_t n)
{
    (void)a, (void)n;
    return 0;
}

static uint64_t nothing_write_unitdata(uint8_t o, const uint8_t *a, size_t n, const uint8_t *b, size_t m,
                                       const uint8_t *d, size_t k, uint8_t *c, size_t l)
{
    (void)o, (void)a, (void)n, (void)b, (void)m, (void)d, (void)k, (void)c, (void)l;
    return 0;
}
#define READ nothing_read
#define WRITE nothing_write
#define STEER nothing_steer
#define READ_UNITDATA nothing_read_unitdata
#define WRITE_UNITDATA nothing_write_unitdata
#endif

uint64_t READ(const uint8_t *, size_t, uint8_t *, size_t);
uint64_t WRITE(const uint8_t *, size_t, const uint8_t *, size_t, uint8_t *, size_t);
uint64_t STEER(const uint8_t *, size_t, const uint8_t *, size_t);
uint64_t READ_UNITDATA(const uint8_t *, size_t);
uint64_t WRITE_UNITDATA(uint8_t, const uint8_t *, size_t, const uint8_t *, size_t, const uint8_t *, size_t, uint8_t *,
                        size_t);

/* Volatile, so that the calls can be neither merged nor left out. */
static uint64_t (*volatile read_call)(const uint8_t *, size_t, uint8_t *, size_t) = READ;
static uint64_t (*volatile write_call)(const uint8_t *, size_t, const uint8_t *, size_t, uint8_t *, size_t) = WRITE;
static uint64_t (*volatile steer_call)(const uint8_t *, size_t, const uint8_t *, size_t) = STEER;
static uint64_t (*volatile read_unitdata_call)(const uint8_t *, size_t) = READ_UNITDATA;
static uint64_t (*volatile write_unitdata_call)(uint8_t, const uint8_t *, size_t, const uint8_t *, size_t,
                                                const uint8_t *, size_t, uint8_t *, size_t) = WRITE_UNITDATA;

enum { MAX_CASES = 100000, ROOM = 65536 };

static struct one_case cases[MAX_CASES];
static uint8_t room[ROOM];

int main(int argc, char **argv)
{
    size_t count = 0, octets = 0;
    unsigned long differ = 0;
    struct case_file file;
    struct one_case the;
    long rounds, class;
    char call;

    if (argc != 4 && argc != 5) {
        fprintf(stderr, "usage: %s CASES ROUNDS CALL [CLASS]\n", argv[0]);
        return 2;
    }
    file = open_cases(argv[1]);
    rounds = atol(argv[2]);
    call = argv[3][0];
    class = argc == 5 ? atol(argv[4]) : 0;
    while (next_case(&file, &the)) {
        int status = goldenskep_answer_status(the.answer);
        size_t len = the.call == 'w' || the.call == 'v' ? goldenskep_answer_length(the.answer) : the.a.len;

        if (the.call != call || (status != GOLDENSKEP_STATUS_DONE && status != GOLDENSKEP_STATUS_NO_RULE) ||
            (class != 0 && class != nearest_class(len)) || the.c.len > ROOM || count == MAX_CASES)
            continue;
        cases[count++] = the;
        octets += len;
    }

    for (long round = 0; round < rounds; round++)
        for (size_t i = 0; i < count; i++) {
            const struct one_case *p = &cases[i];
            uint64_t answer;

            if (call == 'r')
                answer = read_call(p->a.at, p->a.len, room, p->c.len);
            else if (call == 'w')
                answer = write_call(p->a.at, p->a.len, p->b.at, p->b.len, room, p->c.len);
            else if (call == 's')
                answer = steer_call(p->a.at, p->a.len, p->b.at, p->b.len);
            else if (call == 'u')
                answer = read_unitdata_call(p->a.at, p->a.len);
            else
                answer = write_unitdata_call(p->a.at[0], p->b.at, p->b.len, p->d.at, p->d.len, p->e.at, p->e.len,
                                             room, p->c.len);
            differ += answer != p->answer;
        }

    printf("%lu calls %lu octets %lu differ\n", (unsigned long)count, (unsigned long)octets,
           rounds > 0 ? differ / (unsigned long)rounds : 0);
    return 0;
}
