/* The plain C implementation under the library's names: what the tests are tried with. */
#include "goldenskep.h"
#include "plain_layout.h"

uint64_t goldenskep_read(const uint8_t *message, size_t message_len, uint8_t *record, size_t record_len)
{
    return plain_read_layout(message, message_len, record, record_len);
}

uint64_t goldenskep_write(const uint8_t *record, size_t record_len, const uint8_t *material,
                          size_t material_len, uint8_t *out, size_t out_len)
{
    return plain_write_layout(record, record_len, material, material_len, out, out_len);
}

uint64_t goldenskep_steer(const uint8_t *message, size_t message_len, const uint8_t *rules, size_t rules_len)
{
    return plain_steer_layout(message, message_len, rules, rules_len);
}

uint64_t goldenskep_list(const uint8_t *message, size_t message_len, uint8_t *out, size_t out_len)
{
    return plain_list_layout(message, message_len, out, out_len);
}

uint64_t goldenskep_unitdata_read(const uint8_t *message, size_t message_len)
{
    return plain_unitdata_read(message, message_len);
}

uint64_t goldenskep_unitdata_write(uint8_t protocol_class, const uint8_t *called, size_t called_len,
                                   const uint8_t *calling, size_t calling_len, const uint8_t *data, size_t data_len,
                                   uint8_t *out, size_t out_len)
{
    return plain_unitdata_write(protocol_class, called, called_len, calling, calling_len, data, data_len, out,
                                out_len);
}

uint64_t goldenskep_transaction(uint8_t *table, size_t table_len, uint8_t event, const uint8_t *ours,
                                size_t ours_len, const uint8_t *partner, size_t partner_len)
{
    return plain_transaction(table, table_len, event, ours, ours_len, partner, partner_len);
}

uint32_t goldenskep_layout(void)
{
    return plain_layout();
}
