/* Case files: calls with what each must answer.
 *
 * The file begins with "GSKCASE1". Then each case, numbers with the most
 * significant octet first: the call (one octet: r read, w write, s steer, l
 * list, u read a unitdata, v write one); three strings a, b and c, of v also d
 * and e, each as its length (4 octets) and its octets; the answer (8 octets); c
 * as it must be afterwards, as many octets as c.
 *
 *        a        b         c       d        e
 *   r    message            record
 *   w    record   material  output
 *   s    message  rules
 *   l    message            output
 *   u    message
 *   v    class    called    output  calling  data */
#ifndef CASES_H
#define CASES_H

#include <stdint.h>
#include <stdio.h>
#include <stdlib.h>
#include <string.h>

#include "goldenskep.h"

enum { STRINGS = 5 };

#define CALLS "rwsluv"

struct string {
    const uint8_t *at;
    size_t len;
};

struct one_case {
    char call;
    struct string a, b, c, d, e, after;
    uint64_t answer;
};

struct case_file {
    const char *name;
    uint8_t *octets;
    size_t size;
    size_t at;
};

static void case_file_broken(const struct case_file *f, const char *why)
{
    fprintf(stderr, "%s: %s at octet %lu\n", f->name, why, (unsigned long)f->at);
    exit(2);
}

static struct case_file open_cases(const char *name)
{
    struct case_file f = { name, NULL, 0, 8 };
    FILE *file = fopen(name, "rb");
    long size;

    if (file == NULL || fseek(file, 0, SEEK_END) != 0 || (size = ftell(file)) < 0) {
        perror(name);
        exit(2);
    }
    rewind(file);
    f.size = (size_t)size;
    f.octets = malloc(f.size + 1);
    if (f.octets == NULL || fread(f.octets, 1, f.size, file) != f.size) {
        perror(name);
        exit(2);
    }
    fclose(file);
    if (f.size < 8 || memcmp(f.octets, "GSKCASE1", 8) != 0) {
        f.at = 0;
        case_file_broken(&f, "not a case file");
    }
    return f;
}

static uint64_t take_number(struct case_file *f, size_t octets)
{
    uint64_t n = 0;

    if (octets > f->size - f->at)
        case_file_broken(f, "cut off");
    while (octets-- > 0)
        n = n << 8 | f->octets[f->at++];
    return n;
}

static struct string take_octets(struct case_file *f, size_t len)
{
    struct string s = { f->octets + f->at, len };

    if (len > f->size - f->at)
        case_file_broken(f, "cut off");
    f->at += len;
    return s;
}

/* The next case; 0 if there is none. */
static int next_case(struct case_file *f, struct one_case *to)
{
    if (f->at == f->size)
        return 0;
    to->call = (char)take_number(f, 1);
    if (to->call == '\0' || strchr(CALLS, to->call) == NULL)
        case_file_broken(f, "no such call");
    to->a = take_octets(f, (size_t)take_number(f, 4));
    to->b = take_octets(f, (size_t)take_number(f, 4));
    to->c = take_octets(f, (size_t)take_number(f, 4));
    to->d = take_octets(f, to->call == 'v' ? (size_t)take_number(f, 4) : 0);
    to->e = take_octets(f, to->call == 'v' ? (size_t)take_number(f, 4) : 0);
    to->answer = take_number(f, 8);
    to->after = take_octets(f, to->c.len);
    return 1;
}

/* Makes the call of a case with its strings at these places. */
static inline uint64_t make_call(const struct one_case *the, uint8_t *const at[STRINGS])
{
    const uint8_t *a = at[0], *b = at[1];
    uint8_t *c = at[2];

    switch (the->call) {
    case 'r':
        return goldenskep_read(a, the->a.len, c, the->c.len);
    case 'w':
        return goldenskep_write(a, the->a.len, b, the->b.len, c, the->c.len);
    case 's':
        return goldenskep_steer(a, the->a.len, b, the->b.len);
    case 'u':
        return goldenskep_unitdata_read(a, the->a.len);
    case 'v':
        return goldenskep_unitdata_write(a[0], b, the->b.len, at[3], the->d.len, at[4], the->e.len, c,
                                         the->c.len);
    default:
        return goldenskep_list(a, the->a.len, c, the->c.len);
    }
}

static inline const char *call_name(char call)
{
    switch (call) {
    case 'r': return "read";
    case 'w': return "write";
    case 's': return "steer";
    case 'u': return "unitdata read";
    case 'v': return "unitdata write";
    default: return "list";
    }
}

#endif
