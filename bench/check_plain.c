/* Runs plain_read() over a file of vectors and compares.
 *
 *   check_plain VECTORS      each "> HEX" against the lines behind it
 *   check_plain -d VECTORS   one line with every value of each accepted record
 *
 * The message lies in a block of exactly its length and record and refusal are
 * filled with A5 before each call, so that a read past the end is seen by a
 * sanitizer and a value never written by the comparison. */
#include "plain.h"

#include <stdarg.h>
#include <stdio.h>
#include <stdlib.h>
#include <string.h>

enum { LINE_ROOM = 16384, TEXT_ROOM = 16384 };

struct text {
    size_t len;
    char at[TEXT_ROOM];
};

static void add(struct text *t, const char *format, ...)
{
    va_list values;
    int n;

    va_start(values, format);
    n = vsnprintf(t->at + t->len, TEXT_ROOM - t->len, format, values);
    va_end(values);
    if (n < 0 || (size_t)n >= TEXT_ROOM - t->len) {
        fprintf(stderr, "text too long\n");
        exit(2);
    }
    t->len += (size_t)n;
}

static void add_hex(struct text *t, const uint8_t *msg, struct plain_span s)
{
    for (unsigned i = 0; i < s.len; i++)
        add(t, "%02X", msg[s.place + i]);
}

static void add_hex_or_dash(struct text *t, const uint8_t *msg, struct plain_span s)
{
    if (s.len == 0)
        add(t, "-");
    else
        add_hex(t, msg, s);
}

static const char *message_name(int kind)
{
    switch (kind) {
    case PLAIN_UNIDIRECTIONAL: return "unidirectional";
    case PLAIN_BEGIN: return "begin";
    case PLAIN_END: return "end";
    case PLAIN_CONTINUE: return "continue";
    case PLAIN_ABORT: return "abort";
    default: return "?";
    }
}

static const char *dialogue_name(int kind)
{
    switch (kind) {
    case PLAIN_DIALOGUE_NONE: return "none";
    case PLAIN_DIALOGUE_REQUEST: return "request";
    case PLAIN_DIALOGUE_RESPONSE: return "response";
    case PLAIN_DIALOGUE_ABORT: return "abort";
    case PLAIN_DIALOGUE_UNI: return "uni";
    case PLAIN_DIALOGUE_OTHER: return "other";
    case PLAIN_DIALOGUE_CAUSE: return "cause";
    default: return "?";
    }
}

static const char *component_name(int kind)
{
    switch (kind) {
    case PLAIN_INVOKE: return "invoke";
    case PLAIN_LAST: return "last";
    case PLAIN_ERROR: return "error";
    case PLAIN_REJECT: return "reject";
    case PLAIN_NOT_LAST: return "notlast";
    default: return "?";
    }
}

/* ---- the listing ---- */

static void list_row(struct text *t, const uint8_t *msg, unsigned index,
                     const struct plain_row *row)
{
    add(t, "%u %s ", index, component_name(row->kind));
    if (row->has_invoke)
        add(t, "%d ", row->invoke);
    else
        add(t, "null ");
    if (row->has_linked)
        add(t, "%d ", row->linked);
    else
        add(t, "- ");
    switch (row->code_kind) {
    case PLAIN_CODE_NONE:
        add(t, "- ");
        break;
    case PLAIN_CODE_LOCAL:
        add(t, "local:%ld ", (long)row->code.local);
        break;
    case PLAIN_CODE_GLOBAL:
        add(t, "global:");
        add_hex(t, msg, row->code.global);
        add(t, " ");
        break;
    default:
        add(t, "problem:%d:%d ", row->code_kind - PLAIN_CODE_PROBLEM, row->problem);
        break;
    }
    if (!row->has_parameter)
        add(t, "-\n");
    else
        add(t, "%d+%d\n", row->parameter.place, row->parameter.len);
}

static void list_record(struct text *t, const uint8_t *msg, size_t len,
                        const struct plain_record *record)
{
    add(t, "%s %lu ", message_name(record->kind), (unsigned long)len);
    add_hex_or_dash(t, msg, record->orig);
    add(t, " ");
    add_hex_or_dash(t, msg, record->dest);
    add(t, " %s", dialogue_name(record->dialogue.kind));
    if (record->dialogue.kind == PLAIN_DIALOGUE_CAUSE)
        add(t, ":%d", record->dialogue.cause);
    add(t, " %d\n", record->count);
    for (unsigned i = 0; i < record->count; i++)
        list_row(t, msg, i, &record->rows[i]);
}

static void list_refusal(struct text *t, const uint8_t *msg, const struct plain_refusal *no)
{
    add(t, "refused %d %d ", no->number, no->place);
    if (no->is_problem)
        add(t, "problem %d component %d\n", no->answer, no->component);
    else
        add(t, "cause %d\n", no->answer);
    add(t, "orig ");
    add_hex_or_dash(t, msg, no->orig);
    if (no->has_invoke)
        add(t, " invoke %d\n", no->invoke);
    else
        add(t, " invoke -\n");
}

/* ---- every value of a record, as JSON ---- */

/* Strings as [place, "HEX"]. */
static void dump_span(struct text *t, const uint8_t *msg, struct plain_span s)
{
    add(t, "[%d, \"", s.place);
    add_hex(t, msg, s);
    add(t, "\"]");
}

static void dump_dialogue(struct text *t, const uint8_t *msg, const struct plain_dialogue *d)
{
    if (d->kind == PLAIN_DIALOGUE_NONE) {
        add(t, "null");
        return;
    }
    add(t, "{\"pdu\": \"%s\"", dialogue_name(d->kind));
    switch (d->kind) {
    case PLAIN_DIALOGUE_CAUSE:
        add(t, ", \"cause\": %d}", d->cause);
        return;
    case PLAIN_DIALOGUE_OTHER:
        add(t, ", \"name\": ");
        dump_span(t, msg, d->name);
        add(t, ", \"form\": \"%02X\", \"octets\": ", d->form);
        dump_span(t, msg, d->octets);
        add(t, "}");
        return;
    case PLAIN_DIALOGUE_ABORT:
        add(t, ", \"source\": %d", d->source);
        break;
    case PLAIN_DIALOGUE_RESPONSE:
        add(t, ", \"result\": %d, \"source\": \"%s\", \"diag\": %d", d->result,
            d->source == 0xA1 ? "user" : d->source == 0xA2 ? "provider" : "?",
            d->diagnostic);
        /* fall through */
    default:
        add(t, ", \"acn\": ");
        dump_span(t, msg, d->name);
        break;
    }
    add(t, ", \"ui\": ");
    if (d->has_user_info)
        dump_span(t, msg, d->user_info);
    else
        add(t, "null");
    add(t, "}");
}

static void dump_row(struct text *t, const uint8_t *msg, const struct plain_row *row)
{
    add(t, "{\"kind\": \"%s\", \"id\": ", component_name(row->kind));
    if (row->has_invoke)
        add(t, "%d", row->invoke);
    else
        add(t, "null");
    add(t, ", \"linked\": ");
    if (row->has_linked)
        add(t, "%d", row->linked);
    else
        add(t, "null");
    add(t, ", \"code\": ");
    switch (row->code_kind) {
    case PLAIN_CODE_LOCAL:
        add(t, "[\"local\", %ld]", (long)row->code.local);
        break;
    case PLAIN_CODE_GLOBAL:
        add(t, "[\"global\", ");
        dump_span(t, msg, row->code.global);
        add(t, "]");
        break;
    case PLAIN_CODE_NONE:
        add(t, "null");
        break;
    default:
        add(t, "[\"problem\", %d, %d]", row->code_kind - PLAIN_CODE_PROBLEM, row->problem);
        break;
    }
    add(t, ", \"param\": ");
    if (!row->has_parameter)
        add(t, "null");
    else
        dump_span(t, msg, row->parameter);
    add(t, "}");
}

static void dump_record(struct text *t, const uint8_t *msg, const struct plain_record *record)
{
    add(t, "{\"kind\": \"%s\", \"otid\": ", message_name(record->kind));
    if (record->orig.len == 0)
        add(t, "null");
    else
        dump_span(t, msg, record->orig);
    add(t, ", \"dtid\": ");
    if (record->dest.len == 0)
        add(t, "null");
    else
        dump_span(t, msg, record->dest);
    add(t, ", \"dialogue\": ");
    dump_dialogue(t, msg, &record->dialogue);
    add(t, ", \"components\": [");
    for (unsigned i = 0; i < record->count; i++) {
        if (i > 0)
            add(t, ", ");
        dump_row(t, msg, &record->rows[i]);
    }
    add(t, "]}");
}

/* ---- the vectors ---- */

static int digit(char c)
{
    if (c >= '0' && c <= '9')
        return c - '0';
    if (c >= 'A' && c <= 'F')
        return c - 'A' + 10;
    return -1;
}

/* The octets of a line of hex, in a block of exactly their length. */
static uint8_t *octets(const char *hex, size_t *len)
{
    uint8_t *at;
    size_t n = 0;

    while (digit(hex[2 * n]) >= 0 && digit(hex[2 * n + 1]) >= 0)
        n++;
    if (hex[2 * n] != '\n' && hex[2 * n] != '\0') {
        fprintf(stderr, "not hex: %s\n", hex);
        exit(2);
    }
    at = malloc(n);
    if (at == NULL && n > 0) {
        perror("malloc");
        exit(2);
    }
    for (size_t i = 0; i < n; i++)
        at[i] = (uint8_t)(digit(hex[2 * i]) * 16 + digit(hex[2 * i + 1]));
    *len = n;
    return at;
}

static void answer(struct text *t, const char *hex, int dump)
{
    static struct plain_record record;
    static struct plain_refusal no;
    size_t len;
    uint8_t *msg = octets(hex, &len);
    int number;

    memset(&record, 0xA5, sizeof record);
    memset(&no, 0xA5, sizeof no);
    t->len = 0;
    t->at[0] = '\0';
    number = plain_read(msg, len, &record, &no);
    if (number == 0 && dump) {
        add(t, "{\"message\": \"%.*s\", \"record\": ", (int)(2 * len), hex);
        dump_record(t, msg, &record);
        add(t, "}\n");
    } else if (number == 0) {
        list_record(t, msg, len, &record);
    } else if (!dump) {
        if (number != no.number)
            add(t, "returned %d\n", number);
        list_refusal(t, msg, &no);
    }
    free(msg);
}

int main(int argc, char **argv)
{
    static char line[LINE_ROOM], hex[LINE_ROOM];
    static struct text got, wanted;
    int dump = argc == 3 && strcmp(argv[1], "-d") == 0;
    unsigned long compared = 0, differ = 0;
    int under_way = 0, more;
    FILE *file;

    if (argc != 2 && !dump) {
        fprintf(stderr, "usage: check_plain [-d] VECTORS\n");
        return 2;
    }
    file = fopen(argv[argc - 1], "r");
    if (file == NULL) {
        perror(argv[argc - 1]);
        return 2;
    }
    do {
        more = fgets(line, sizeof line, file) != NULL;
        if (more && line[0] != '>') {
            add(&wanted, "%s", line);
            continue;
        }
        if (under_way) {
            answer(&got, hex, dump);
            if (dump) {
                fputs(got.at, stdout);
            } else {
                compared++;
                if (strcmp(got.at, wanted.at) != 0) {
                    differ++;
                    printf("> %swanted:\n%sgot:\n%s", hex, wanted.at, got.at);
                }
            }
        }
        if (more) {
            const char *from = line + 1;

            while (*from == ' ')
                from++;
            strcpy(hex, from);
            wanted.len = 0;
            wanted.at[0] = '\0';
            under_way = 1;
        }
    } while (more);
    fclose(file);
    if (!dump)
        printf("%lu compared, %lu differ\n", compared, differ);
    return differ != 0;
}
