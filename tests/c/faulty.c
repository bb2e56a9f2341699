/* Deliberate faults, laid over the library with the linker's --wrap: the tests
 * must notice each. FAULT in the environment names it. */
#include "goldenskep.h"

#include <stdlib.h>
#include <string.h>

uint64_t __real_goldenskep_read(const uint8_t *, size_t, uint8_t *, size_t);
uint64_t __real_goldenskep_write(const uint8_t *, size_t, const uint8_t *, size_t, uint8_t *, size_t);
uint64_t __real_goldenskep_steer(const uint8_t *, size_t, const uint8_t *, size_t);
uint64_t __real_goldenskep_list(const uint8_t *, size_t, uint8_t *, size_t);
uint64_t __real_goldenskep_unitdata_read(const uint8_t *, size_t);
uint64_t __real_goldenskep_unitdata_write(uint8_t, const uint8_t *, size_t, const uint8_t *, size_t, const uint8_t *,
                                          size_t, uint8_t *, size_t);
uint64_t __real_goldenskep_transaction(uint8_t *, size_t, uint8_t, const uint8_t *, size_t, const uint8_t *, size_t);
uint64_t __wrap_goldenskep_read(const uint8_t *, size_t, uint8_t *, size_t);
uint64_t __wrap_goldenskep_write(const uint8_t *, size_t, const uint8_t *, size_t, uint8_t *, size_t);
uint64_t __wrap_goldenskep_steer(const uint8_t *, size_t, const uint8_t *, size_t);
uint64_t __wrap_goldenskep_list(const uint8_t *, size_t, uint8_t *, size_t);
uint64_t __wrap_goldenskep_unitdata_read(const uint8_t *, size_t);
uint64_t __wrap_goldenskep_unitdata_write(uint8_t, const uint8_t *, size_t, const uint8_t *, size_t, const uint8_t *,
                                          size_t, uint8_t *, size_t);
uint64_t __wrap_goldenskep_transaction(uint8_t *, size_t, uint8_t, const uint8_t *, size_t, const uint8_t *, size_t);

static int is(const char *fault)
{
    const char *named = getenv("FAULT");

    return named != NULL && strcmp(named, fault) == 0;
}

/* Volatile, so that a read whose octet is of no use is not left out. */
static uint8_t look(const uint8_t *at)
{
    return *(const volatile uint8_t *)at;
}

static void deep(void)
{
    volatile uint8_t room[20000];

    for (size_t i = sizeof room; i-- > 0;)
        room[i] = (uint8_t)i;
}

uint64_t __wrap_goldenskep_read(const uint8_t *message, size_t message_len, uint8_t *record, size_t record_len)
{
    uint64_t answer = __real_goldenskep_read(message, message_len, record, record_len);

    if (is("place") && goldenskep_answer_is_unreadable(answer))
        answer ^= 1 << 8;
    if (is("refusal-writes") && goldenskep_answer_is_unreadable(answer))
        record[0] ^= 1;
    if (is("rest-of-room") && answer == 0 && record[7] < GOLDENSKEP_MAX_COMPONENTS)
        record[GOLDENSKEP_RECORD_SIZE - 1] ^= 1;
    if (is("reads-behind"))
        look(message + message_len);
    if (is("reads-before"))
        look(message - 1);
    if (is("writes-message") && message_len > 0)
        *(volatile uint8_t *)(uintptr_t)message = look(message);
    if (is("null") && message_len == 0)
        look(message);
    if (is("deep"))
        deep();
    return answer;
}

uint64_t __wrap_goldenskep_write(const uint8_t *record, size_t record_len, const uint8_t *material,
                                 size_t material_len, uint8_t *out, size_t out_len)
{
    uint64_t answer = __real_goldenskep_write(record, record_len, material, material_len, out, out_len);
    size_t length = goldenskep_answer_length(answer);

    if (is("past-length") && goldenskep_answer_is_done(answer) && length < out_len)
        out[length] ^= 1;
    if (is("unwritten") && goldenskep_answer_is_done(answer))
        out[length - 1] ^= 1;
    if (is("writes-behind"))
        out[out_len] ^= 1;
    if (is("writes-before"))
        out[-1] ^= 1;
    return answer;
}

uint64_t __wrap_goldenskep_steer(const uint8_t *message, size_t message_len, const uint8_t *rules, size_t rules_len)
{
    uint64_t answer = __real_goldenskep_steer(message, message_len, rules, rules_len);

    if (is("link") && goldenskep_answer_is_done(answer))
        answer ^= (uint64_t)1 << 63;
    return answer;
}

uint64_t __wrap_goldenskep_list(const uint8_t *message, size_t message_len, uint8_t *out, size_t out_len)
{
    uint64_t answer = __real_goldenskep_list(message, message_len, out, out_len);

    if (is("listing") && goldenskep_answer_is_done(answer))
        out[0] ^= 0x20;
    return answer;
}

uint64_t __wrap_goldenskep_unitdata_read(const uint8_t *message, size_t message_len)
{
    uint64_t answer = __real_goldenskep_unitdata_read(message, message_len);

    if (is("unitdata-place") && goldenskep_answer_is_done(answer))
        answer ^= (uint64_t)1 << 42;
    if (is("unitdata-order") && goldenskep_answer_status(answer) == GOLDENSKEP_STATUS_UNITDATA_OVERLAP)
        answer ^= GOLDENSKEP_STATUS_UNITDATA_OVERLAP ^ GOLDENSKEP_STATUS_UNITDATA_PAST_END;
    if (is("unitdata-behind"))
        look(message + message_len);
    return answer;
}

uint64_t __wrap_goldenskep_unitdata_write(uint8_t protocol_class, const uint8_t *called, size_t called_len,
                                          const uint8_t *calling, size_t calling_len, const uint8_t *data,
                                          size_t data_len, uint8_t *out, size_t out_len)
{
    uint64_t answer = __real_goldenskep_unitdata_write(protocol_class, called, called_len, calling, calling_len,
                                                       data, data_len, out, out_len);

    if (is("unitdata-class") && goldenskep_answer_is_done(answer))
        out[1] ^= 1;
    if (is("unitdata-refusal-writes") && !goldenskep_answer_is_done(answer) && out_len > 0)
        out[0] ^= 1;
    if (is("unitdata-calling"))
        look(calling + calling_len);
    return answer;
}

uint64_t __wrap_goldenskep_transaction(uint8_t *table, size_t table_len, uint8_t event, const uint8_t *ours,
                                       size_t ours_len, const uint8_t *partner, size_t partner_len)
{
    uint64_t answer = __real_goldenskep_transaction(table, table_len, event, ours, ours_len, partner, partner_len);

    if (is("entry") && goldenskep_answer_is_done(answer))
        answer ^= 1 << 16;
    if (is("refusal-writes") && goldenskep_answer_status(answer) >= GOLDENSKEP_STATUS_ID)
        table[0] ^= 1;
    if (is("reads-behind"))
        look(ours + ours_len);
    if (is("reads-before"))
        look(partner - 1);
    if (is("writes-behind"))
        table[table_len] ^= 1;
    if (is("writes-before"))
        table[-1] ^= 1;
    if (is("deep"))
        deep();
    return answer;
}
