/* Reading, writing, steering and listing in plain C on the octets of the
 * library's layout, unitdata, and a table of open transactions: the same
 * signatures and the same answers. */
#ifndef PLAIN_LAYOUT_H
#define PLAIN_LAYOUT_H

#include "plain.h"

enum {
    LAYOUT_VERSION = 2,
    RECORD_SIZE = 428,
    RULE_SIZE = 12,
    HEAD_SIZE = 44,
    ROW_SIZE = 24,
    TABLE_SIZE = 768
};

/* What a record's dialogue octet may say. */
enum {
    LAYOUT_NONE,
    LAYOUT_CAUSE,
    LAYOUT_REQUEST,
    LAYOUT_RESPONSE,
    LAYOUT_ABORT,
    LAYOUT_UNI,
    LAYOUT_ELEMENT,
    LAYOUT_OCTETS
};

enum { STATUS_NO_ROOM = 25, STATUS_NO_RULE = 64 };

uint64_t plain_read_layout(const uint8_t *message, size_t message_len,
                           uint8_t *record, size_t record_len);
uint64_t plain_write_layout(const uint8_t *record, size_t record_len,
                            const uint8_t *material, size_t material_len,
                            uint8_t *out, size_t out_len);
uint64_t plain_steer_layout(const uint8_t *message, size_t message_len,
                            const uint8_t *rules, size_t rules_len);
uint64_t plain_list_layout(const uint8_t *message, size_t message_len,
                           uint8_t *out, size_t out_len);
uint32_t plain_layout(void);
uint64_t plain_unitdata_read(const uint8_t *message, size_t message_len);
uint64_t plain_unitdata_write(uint8_t protocol_class, const uint8_t *called, size_t called_len,
                              const uint8_t *calling, size_t calling_len, const uint8_t *data, size_t data_len,
                              uint8_t *out, size_t out_len);
uint64_t plain_transaction(uint8_t *table, size_t table_len, uint8_t event, const uint8_t *ours, size_t ours_len,
                           const uint8_t *partner, size_t partner_len);

/* A refused reading as an answer. */
static inline uint64_t refused_answer(const struct plain_refusal *no)
{
    uint64_t answer = no->number | (uint64_t)no->place << 8 | (uint64_t)no->orig.place << 24 |
                      (uint64_t)no->orig.len << 40 | (uint64_t)no->is_problem << 44 |
                      (uint64_t)no->answer << 45;

    if (no->is_problem)
        answer |= (uint64_t)no->component << 48 | (uint64_t)no->has_invoke << 55 |
                  (uint64_t)(uint8_t)no->invoke << 56;
    return answer;
}

static inline uint32_t get4(const uint8_t *p)
{
    return (uint32_t)p[0] << 24 | (uint32_t)p[1] << 16 | (uint32_t)p[2] << 8 | p[3];
}

static inline void put4(uint8_t *p, uint32_t n)
{
    p[0] = (uint8_t)(n >> 24);
    p[1] = (uint8_t)(n >> 16);
    p[2] = (uint8_t)(n >> 8);
    p[3] = (uint8_t)n;
}

#endif
