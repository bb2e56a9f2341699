/* The listing in plain C. */
#include "plain_layout.h"

#include <string.h>

enum { LISTING_SIZE = 1153 };

struct text {
    size_t len;
    uint8_t at[LISTING_SIZE];
};

static void add(struct text *t, const char *words)
{
    while (*words != '\0')
        t->at[t->len++] = (uint8_t)*words++;
}

static void add_number(struct text *t, long n)
{
    char digits[24];
    size_t i = sizeof digits;
    unsigned long left = n < 0 ? 0ul - (unsigned long)n : (unsigned long)n;

    digits[--i] = '\0';
    do
        digits[--i] = (char)('0' + left % 10);
    while ((left /= 10) != 0);
    if (n < 0)
        digits[--i] = '-';
    add(t, digits + i);
}

static void add_hex(struct text *t, const uint8_t *msg, struct plain_span s)
{
    for (unsigned i = 0; i < s.len; i++) {
        char pair[3] = { "0123456789ABCDEF"[msg[s.place + i] >> 4],
                         "0123456789ABCDEF"[msg[s.place + i] & 15], '\0' };

        add(t, pair);
    }
}

static void add_id(struct text *t, const uint8_t *msg, struct plain_span s)
{
    if (s.len == 0)
        add(t, "-");
    add_hex(t, msg, s);
    add(t, " ");
}

static const char *kind_words(int kind)
{
    switch (kind) {
    case PLAIN_UNIDIRECTIONAL: return "unidirectional ";
    case PLAIN_BEGIN: return "begin ";
    case PLAIN_END: return "end ";
    case PLAIN_CONTINUE: return "continue ";
    default: return "abort ";
    }
}

static const char *component_words(int kind)
{
    switch (kind) {
    case PLAIN_INVOKE: return " invoke ";
    case PLAIN_LAST: return " last ";
    case PLAIN_ERROR: return " error ";
    case PLAIN_REJECT: return " reject ";
    default: return " notlast ";
    }
}

static const char *dialogue_words(int kind)
{
    switch (kind) {
    case PLAIN_DIALOGUE_NONE: return "none";
    case PLAIN_DIALOGUE_REQUEST: return "request";
    case PLAIN_DIALOGUE_RESPONSE: return "response";
    case PLAIN_DIALOGUE_ABORT: return "abort";
    case PLAIN_DIALOGUE_UNI: return "uni";
    case PLAIN_DIALOGUE_OTHER: return "other";
    default: return "cause:";
    }
}

static void add_code(struct text *t, const uint8_t *msg, const struct plain_row *row)
{
    switch (row->code_kind) {
    case PLAIN_CODE_LOCAL:
        add(t, "local:");
        add_number(t, row->code.local);
        break;
    case PLAIN_CODE_GLOBAL:
        add(t, "global:");
        add_hex(t, msg, row->code.global);
        break;
    case PLAIN_CODE_NONE:
        add(t, "-");
        break;
    default:
        add(t, "problem:");
        add_number(t, row->code_kind - PLAIN_CODE_PROBLEM);
        add(t, ":");
        add_number(t, row->problem);
        break;
    }
}

static void add_row(struct text *t, const uint8_t *msg, unsigned index, const struct plain_row *row)
{
    add_number(t, (long)index);
    add(t, component_words(row->kind));
    if (row->has_invoke)
        add_number(t, row->invoke);
    else
        add(t, "null");
    add(t, " ");
    if (row->has_linked)
        add_number(t, row->linked);
    else
        add(t, "-");
    add(t, " ");
    add_code(t, msg, row);
    add(t, " ");
    if (row->has_parameter) {
        add_number(t, row->parameter.place);
        add(t, "+");
        add_number(t, row->parameter.len);
    } else {
        add(t, "-");
    }
    add(t, "\n");
}

static void add_record(struct text *t, const uint8_t *msg, size_t len, const struct plain_record *read)
{
    add(t, kind_words(read->kind));
    add_number(t, (long)len);
    add(t, " ");
    add_id(t, msg, read->orig);
    add_id(t, msg, read->dest);
    add(t, dialogue_words(read->dialogue.kind));
    if (read->dialogue.kind == PLAIN_DIALOGUE_CAUSE)
        add_number(t, read->dialogue.cause);
    add(t, " ");
    add_number(t, read->count);
    add(t, "\n");
    for (unsigned k = 0; k < read->count; k++)
        add_row(t, msg, k, &read->rows[k]);
}

static void add_refusal(struct text *t, const struct plain_refusal *no)
{
    add(t, "refused ");
    add_number(t, no->number);
    add(t, " ");
    add_number(t, no->place);
    add(t, no->is_problem ? " problem " : " cause ");
    add_number(t, no->answer);
    if (no->is_problem) {
        add(t, " component ");
        add_number(t, no->component);
    }
    add(t, "\n");
}

uint64_t plain_list_layout(const uint8_t *message, size_t message_len,
                           uint8_t *out, size_t out_len)
{
    struct plain_record read;
    struct plain_refusal no;
    struct text t;

    t.len = 0;
    if (plain_read(message, message_len, &read, &no) == 0)
        add_record(&t, message, message_len, &read);
    else
        add_refusal(&t, &no);
    if (t.len > out_len)
        return STATUS_NO_ROOM;
    memcpy(out, t.at, t.len);
    return (uint64_t)t.len << 8;
}
