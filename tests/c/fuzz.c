/* Compares the library with the plain C implementation on altered cases.
 *
 *   fuzz SEED ROUNDS FILE...
 *
 * Each round takes a case of the files, alters its strings and makes the call
 * with both. The library's strings end at a guard page or begin behind one. The
 * same seed gives the same rounds. The last line says how many calls were
 * compared and how many differ; the exit status is 1 if any does. */
#include "guarded.h"
#include "cases.h"
#include "plain_layout.h"

enum { ROOM = 4096, SHOWN = 10, MAX_NESTING = 40 };

struct altered {
    size_t len;
    uint8_t at[ROOM];
};

static uint64_t state;

static uint64_t next_random(void)
{
    state ^= state << 13;
    state ^= state >> 7;
    state ^= state << 17;
    return state * UINT64_C(0x2545F4914F6CDD1D) >> 16;
}

static size_t below(size_t bound)
{
    return (size_t)(next_random() % bound);
}

/* Octets that mean something somewhere, more often than others. */
static uint8_t some_octet(void)
{
    static const uint8_t telling[] = {
        0x00, 0x01, 0x02, 0x03, 0x04, 0x05, 0x06, 0x07, 0x08, 0x10, 0x11, 0x1F, 0x20, 0x28, 0x30, 0x3F,
        0x48, 0x49, 0x4A, 0x60, 0x61, 0x62, 0x64, 0x65, 0x67, 0x6B, 0x6C, 0x7F, 0x80, 0x81, 0x82, 0x83,
        0x84, 0x9F, 0xA0, 0xA1, 0xA2, 0xA3, 0xA4, 0xA7, 0xBE, 0xBF, 0xFE, 0xFF
    };

    return below(3) ? telling[below(sizeof telling)] : (uint8_t)next_random();
}

static void take(struct altered *to, struct string from)
{
    to->len = from.len < ROOM ? from.len : ROOM;
    memcpy(to->at, from.at, to->len);
}

/* Adds `change` to the definite lengths of all constructors around `place`, so
 * that an octet put in or taken out does not end the reading at the first of them. */
static void mend_lengths(struct altered *m, size_t place, int change)
{
    size_t p = 0, end = m->len;

    for (int depth = 0; depth < MAX_NESTING && p + 2 <= end && p < place; depth++) {
        size_t length_at = p + 1, from, n;

        if ((m->at[p] & 0x1F) == 0x1F)
            while (length_at < end && m->at[length_at++] >= 0x80)
                continue;
        if (length_at >= end)
            return;
        n = m->at[length_at];
        if (n == 0x81 && length_at + 1 < end)
            n = m->at[++length_at];
        else if (n > 0x80)
            return;
        from = length_at + 1;
        if (n == 0x80 && m->at[length_at - 1] != 0x81) {
            if ((m->at[p] & 0x20) == 0)
                return;
            p = from;
        } else if (place >= from + n) {
            p = from + n;
        } else {
            m->at[length_at] = (uint8_t)(n + (size_t)change);
            if ((m->at[p] & 0x20) == 0)
                return;
            p = from;
            end = from + n < end ? from + n : end;
        }
    }
}

static void insert(struct altered *m, size_t place, const uint8_t *octets, size_t n, int mend)
{
    uint8_t copy[64];

    if (n > sizeof copy || m->len + n > ROOM)
        return;
    memcpy(copy, octets, n);
    if (mend)
        mend_lengths(m, place, (int)n);
    memmove(m->at + place + n, m->at + place, m->len - place);
    memcpy(m->at + place, copy, n);
    m->len += n;
}

static void take_out(struct altered *m, size_t place, size_t n, int mend)
{
    if (n > m->len - place)
        n = m->len - place;
    if (mend)
        mend_lengths(m, place, -(int)n);
    memmove(m->at + place, m->at + place + n, m->len - place - n);
    m->len -= n;
}

static void alter_message(struct altered *m)
{
    for (size_t times = below(4); times > 0; times--) {
        size_t place = below(m->len + 1);
        int mend = below(4) != 0;
        uint8_t octet = some_octet();

        switch (below(8)) {
        case 0:
            insert(m, place, &octet, 1, mend);
            break;
        case 1:
            take_out(m, place, 1 + below(3), mend);
            break;
        case 2:
            if (place < m->len)
                insert(m, below(m->len + 1), m->at + place, 1 + below(m->len - place), mend);
            break;
        case 3:
            if (below(4) == 0)
                m->len = place;
            break;
        case 4:
            if (place < m->len)
                m->at[place] ^= (uint8_t)(1u << below(8));
            break;
        default:
            if (place < m->len)
                m->at[place] = octet;
            break;
        }
    }
}

/* Choices and numbers of a record, one at a time; places and lengths by little. */
static void alter_record(struct altered *r, size_t material_len)
{
    static const uint8_t head_choices[] = { 0, 1, 2, 3, 7, 40, 41, 42, 43 };
    static const uint8_t row_choices[] = { 0, 1, 2, 3, 4, 5, 6, 7, 11 };

    for (size_t times = below(3); times > 0 && r->len >= GOLDENSKEP_RECORD_SIZE; times--) {
        size_t row = 44 + 24 * below(below(4) ? 3 : 16);
        size_t spans[6] = { 8, 16, 24, 32, row + 8, row + 16 };
        uint8_t *span = r->at + spans[below(6)];

        switch (below(5)) {
        case 0:
            r->at[head_choices[below(sizeof head_choices)]] = (uint8_t)below(9);
            break;
        case 1:
            r->at[head_choices[below(sizeof head_choices)]] = some_octet();
            break;
        case 2:
            r->at[row + row_choices[below(sizeof row_choices)]] = below(2) ? some_octet() : (uint8_t)below(9);
            break;
        case 3:
            span[3] = (uint8_t)(below(3) ? below(material_len + 2) : next_random());
            break;
        default:
            span[7] = (uint8_t)(span[7] + below(5) - 2);
            if (below(30) == 0)
                span[4 * below(2)] = 0xFF;
            break;
        }
    }
    if (below(50) == 0)
        r->len = below(2) ? GOLDENSKEP_RECORD_SIZE - 1 : GOLDENSKEP_RECORD_SIZE + below(20);
}

static void alter_rules(struct altered *r)
{
    for (size_t times = below(3); times > 0 && r->len > 0; times--)
        r->at[below(r->len)] = some_octet();
    if (below(8) == 0)
        r->len = below(r->len + 1);
}

/* Pointers and length octets of a unitdata, one at a time. */
static void alter_unitdata(struct altered *m)
{
    for (size_t times = below(3); times > 0 && m->len > 0; times--) {
        size_t pointer = 2 + below(3);
        size_t place = below(m->len);

        if (below(3) != 0 && pointer < m->len) {
            place = pointer;
            if (below(2) && pointer + m->at[pointer] < m->len)
                place = pointer + m->at[pointer];
        }
        switch (below(4)) {
        case 0:
            m->at[place] = (uint8_t)below(12);
            break;
        case 1:
            m->at[place] = some_octet();
            break;
        case 2:
            m->at[place] = (uint8_t)(m->at[place] + below(5) - 2);
            break;
        default:
            if (below(4) == 0)
                m->len = below(m->len + 1);
            break;
        }
    }
}

/* Its length near a bound. */
static void alter_length(struct altered *s)
{
    static const size_t bounds[] = { 0, 1, 125, 126, 127, 251, 252, 253, 255, 256 };

    if (below(4) == 0) {
        size_t len = bounds[below(sizeof bounds / sizeof *bounds)];

        for (size_t i = s->len; i < len; i++)
            s->at[i] = (uint8_t)next_random();
        s->len = len;
    }
}

static uint64_t call_plain(char call, const struct altered strings[STRINGS], struct altered *c)
{
    const struct altered *a = &strings[0], *b = &strings[1];

    switch (call) {
    case 'r':
        return plain_read_layout(a->at, a->len, c->at, c->len);
    case 'w':
        return plain_write_layout(a->at, a->len, b->at, b->len, c->at, c->len);
    case 's':
        return plain_steer_layout(a->at, a->len, b->at, b->len);
    case 'u':
        return plain_unitdata_read(a->at, a->len);
    case 'v':
        return plain_unitdata_write(a->at[0], b->at, b->len, strings[3].at, strings[3].len, strings[4].at,
                                    strings[4].len, c->at, c->len);
    default:
        return plain_list_layout(a->at, a->len, c->at, c->len);
    }
}

static int guarded_call(const struct one_case *the, uint8_t *const at[STRINGS], uint64_t *answer)
{
    if (sigsetjmp(guard_touched, 1) != 0)
        return 0;
    *answer = make_call(the, at);
    return 1;
}

static void print_hex(const char *name, const struct altered *s)
{
    printf("  %s ", name);
    for (size_t i = 0; i < s->len; i++)
        printf("%02X", s->at[i]);
    printf("\n");
}

static unsigned long done, refused;

/* One round: 1 if the two agree. */
static int compare(char call, const struct arena arenas[STRINGS], struct altered strings[STRINGS])
{
    static struct altered plain;
    struct one_case the;
    enum side side = below(2) ? AT_END : AT_START;
    uint8_t *at[STRINGS];
    uint64_t answer = 0, wanted;
    int untouched, same = 1;

    plain = strings[2];
    wanted = call_plain(call, strings, &plain);
    the.call = call;
    the.a.len = strings[0].len;
    the.b.len = strings[1].len;
    the.c.len = strings[2].len;
    the.d.len = strings[3].len;
    the.e.len = strings[4].len;
    for (int i = 0; i < STRINGS; i++) {
        at[i] = place_in(&arenas[i], side, strings[i].len);
        memcpy(at[i], strings[i].at, strings[i].len);
    }
    memset(margin_of(&arenas[2], side, strings[2].len), MARGIN_OCTET, MARGIN);
    untouched = guarded_call(&the, at, &answer);
    for (int i = 0; i < STRINGS; i++)
        same &= memcmp(at[i], i == 2 ? plain.at : strings[i].at, strings[i].len) == 0;
    if (untouched && answer == wanted && same) {
        const uint8_t *margin = margin_of(&arenas[2], side, strings[2].len);
        int clean = 1;

        for (int i = 0; i < MARGIN; i++)
            clean &= margin[i] == MARGIN_OCTET;
        if (clean) {
            *(goldenskep_answer_is_done(answer) ? &done : &refused) += 1;
            return 1;
        }
    }
    printf("%s: %s, answer %016llX, plain %016llX\n", call_name(call),
           untouched ? "differs" : "touched what was not lent", (unsigned long long)answer,
           (unsigned long long)wanted);
    for (int i = 0; i < STRINGS; i++)
        if (i != 2)
            print_hex((const char *[STRINGS]){ "a", "b", "c", "d", "e" }[i], &strings[i]);
    return 0;
}

int main(int argc, char **argv)
{
    static struct altered strings[STRINGS];
    unsigned long rounds, differ = 0;
    struct one_case *cases = NULL;
    size_t count = 0, space = 0;
    struct arena arenas[STRINGS];

    if (argc < 4) {
        fprintf(stderr, "usage: fuzz SEED ROUNDS FILE...\n");
        return 2;
    }
    state = strtoull(argv[1], NULL, 10) * UINT64_C(0x9E3779B97F4A7C15) + 1;
    rounds = strtoul(argv[2], NULL, 10);
    for (int i = 3; i < argc; i++) {
        struct case_file f = open_cases(argv[i]);
        struct one_case the;

        while (next_case(&f, &the)) {
            if (count == space) {
                space = space ? 2 * space : 1024;
                cases = realloc(cases, space * sizeof *cases);
                if (cases == NULL) {
                    perror("realloc");
                    return 2;
                }
            }
            cases[count++] = the;
        }
    }
    if (count == 0) {
        fprintf(stderr, "no cases\n");
        return 2;
    }
    for (int i = 0; i < STRINGS; i++)
        arenas[i] = make_arena(ROOM);
    catch_touches();

    for (unsigned long round = 0; round < rounds && differ < SHOWN; round++) {
        const struct one_case *from = &cases[below(count)];
        char call = from->call;

        take(&strings[0], from->a);
        take(&strings[1], from->b);
        take(&strings[2], from->c);
        take(&strings[3], from->d);
        take(&strings[4], from->e);
        if (call == 'u') {
            alter_unitdata(&strings[0]);
        } else if (call == 'v') {
            alter_length(&strings[1]);
            alter_length(&strings[3]);
            alter_length(&strings[4]);
        } else if (call == 'w') {
            if (below(3) == 0)
                alter_message(&strings[1]);
            alter_record(&strings[0], strings[1].len);
        } else {
            alter_message(&strings[0]);
            /* What one call makes of a message, the others are asked as well. */
            if (call == 's')
                alter_rules(&strings[1]);
            else if (below(4) == 0)
                call = call == 'r' ? 'l' : 'r';
        }
        for (size_t i = 0; i < strings[2].len; i++)
            strings[2].at[i] = (uint8_t)next_random();
        differ += !compare(call, arenas, strings);
    }
    printf("%lu calls compared with plain C (%lu done, %lu refused), %lu differ\n", done + refused + differ, done,
           refused, differ);
    return differ != 0 || done + refused == 0;
}
