/* SCCP unitdata in plain C: read and written. */
#include "plain_layout.h"

#include <string.h>

enum { UNITDATA = 0x09, HEAD = 5, MOST_IN_ADDRESSES = 252, MOST_DATA = 255 };

struct part {
    size_t from; /* its length octet */
    size_t to;   /* behind its last octet */
};

/* The part that the pointer at `at` names; 0 if it passes the end. */
static int find_part(const uint8_t *message, size_t message_len, size_t at, struct part *part)
{
    if (at >= message_len)
        return 0;
    part->from = at + message[at];
    if (part->from >= message_len)
        return 0;
    part->to = part->from + 1 + message[part->from];
    return part->to <= message_len;
}

static int overlap(struct part one, struct part other)
{
    return one.from < other.to && other.from < one.to;
}

static uint64_t told(struct part part, int bit)
{
    return ((uint64_t)(part.from + 1) | (uint64_t)(part.to - part.from - 1) << 9) << bit;
}

uint64_t plain_unitdata_read(const uint8_t *message, size_t message_len)
{
    struct part called, calling, data;

    if (message_len == 0 || message[0] != UNITDATA)
        return 31;
    if (!find_part(message, message_len, 2, &called) || !find_part(message, message_len, 3, &calling) ||
        !find_part(message, message_len, 4, &data))
        return 32;
    if (called.from < HEAD || calling.from < HEAD || data.from < HEAD || overlap(called, calling) ||
        overlap(called, data) || overlap(calling, data))
        return 33;
    if (called.to == called.from + 1 || calling.to == calling.from + 1)
        return 34;
    return told(called, 8) | told(calling, 25) | told(data, 42);
}

static uint8_t *put_part(uint8_t *to, const uint8_t *octets, size_t len)
{
    *to++ = (uint8_t)len;
    if (len > 0)
        memcpy(to, octets, len);
    return to + len;
}

uint64_t plain_unitdata_write(uint8_t protocol_class, const uint8_t *called, size_t called_len,
                              const uint8_t *calling, size_t calling_len, const uint8_t *data, size_t data_len,
                              uint8_t *out, size_t out_len)
{
    size_t size;

    if (called_len == 0 || calling_len == 0 || called_len > MOST_IN_ADDRESSES ||
        calling_len > MOST_IN_ADDRESSES - called_len || data_len > MOST_DATA)
        return 35;
    size = HEAD + 3 + called_len + calling_len + data_len;
    if (size > out_len)
        return STATUS_NO_ROOM;
    out[0] = UNITDATA;
    out[1] = protocol_class;
    out[2] = 3;
    out[3] = (uint8_t)(3 + called_len);
    out[4] = (uint8_t)(3 + called_len + calling_len);
    out = put_part(out + HEAD, called, called_len);
    out = put_part(out, calling, calling_len);
    put_part(out, data, data_len);
    return (uint64_t)size << 8;
}
