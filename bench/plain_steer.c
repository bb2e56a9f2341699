/* Steering in plain C: the link of the first rule that fits. */
#include "plain_layout.h"

uint64_t plain_steer_layout(const uint8_t *message, size_t message_len,
                            const uint8_t *rules, size_t rules_len)
{
    struct plain_record read;
    struct plain_refusal no;
    const struct plain_row *first = read.rows;
    int has_code;

    if (plain_read(message, message_len, &read, &no) != 0)
        return refused_answer(&no);
    /* Row 0 is not written where there is no component: ask the count first. */
    has_code = read.count > 0 && first->kind == PLAIN_INVOKE && first->code_kind == PLAIN_CODE_LOCAL;
    for (; rules_len >= RULE_SIZE; rules += RULE_SIZE, rules_len -= RULE_SIZE) {
        if (rules[0] != 0 && rules[0] != read.kind)
            continue;
        if (rules[1] == 0 ||
            (rules[1] == 1 && has_code && get4(rules + 4) == (uint32_t)first->code.local))
            return (uint64_t)get4(rules + 8) << 32;
    }
    return STATUS_NO_RULE;
}
