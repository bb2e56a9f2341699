/* The plain reader with its record in the library's layout. A refusal leaves
 * the room untouched, so the record is put there once the message is read. */
#include "plain_layout.h"

#include <string.h>

/* A span where zeros stand: place and length in a message fit one octet. */
static inline void put_span(uint8_t *p, struct plain_span s)
{
    p[3] = s.place;
    p[7] = s.len;
}

static inline void put_dialogue(uint8_t *head, const struct plain_dialogue *d)
{
    switch (d->kind) {
    case PLAIN_DIALOGUE_NONE:
        return;
    case PLAIN_DIALOGUE_CAUSE:
        head[3] = LAYOUT_CAUSE;
        head[41] = d->cause;
        return;
    case PLAIN_DIALOGUE_OTHER:
        head[3] = d->form == 0x81 ? LAYOUT_OCTETS : LAYOUT_ELEMENT;
        put_span(head + 24, d->name);
        put_span(head + 32, d->octets);
        return;
    case PLAIN_DIALOGUE_ABORT:
        head[3] = LAYOUT_ABORT;
        head[41] = d->source;
        break;
    case PLAIN_DIALOGUE_RESPONSE:
        head[3] = LAYOUT_RESPONSE;
        head[41] = d->result;
        head[42] = d->source;
        head[43] = d->diagnostic;
        put_span(head + 24, d->name);
        break;
    default:
        head[3] = d->kind == PLAIN_DIALOGUE_UNI ? LAYOUT_UNI : LAYOUT_REQUEST;
        put_span(head + 24, d->name);
        break;
    }
    if (d->has_user_info) {
        head[40] = 1;
        put_span(head + 32, d->user_info);
    }
}

static inline void put_row(uint8_t *to, const struct plain_row *row)
{
    memcpy(to, row, 8);
    memset(to + 8, 0, ROW_SIZE - 8);
    if (row->code_kind == PLAIN_CODE_LOCAL)
        put4(to + 8, (uint32_t)row->code.local);
    else
        put_span(to + 8, row->code.global);
    put_span(to + 16, row->parameter);
}

uint64_t plain_read_layout(const uint8_t *message, size_t message_len,
                           uint8_t *record, size_t record_len)
{
    struct plain_record read;
    struct plain_refusal no;

    if (record_len < RECORD_SIZE)
        return STATUS_NO_ROOM;
    if (plain_read(message, message_len, &read, &no) != 0)
        return refused_answer(&no);
    memset(record, 0, HEAD_SIZE);
    record[0] = read.kind;
    record[7] = read.count;
    if (read.orig.len != 0) {
        record[1] = 1;
        put_span(record + 8, read.orig);
    }
    if (read.dest.len != 0) {
        record[2] = 1;
        put_span(record + 16, read.dest);
    }
    put_dialogue(record, &read.dialogue);
    for (unsigned k = 0; k < read.count; k++)
        put_row(record + HEAD_SIZE + ROW_SIZE * k, &read.rows[k]);
    return 0;
}

uint32_t plain_layout(void)
{
    return (uint32_t)LAYOUT_VERSION << 24 | (uint32_t)RULE_SIZE << 16 | RECORD_SIZE;
}
