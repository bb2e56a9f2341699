/* The plain writer under the counting loop, over the record that the plain reader
 * lays out of each message; with NOTHING it only returns. */
#include "plain_layout.h"

#ifdef NOTHING
static uint64_t nothing(const uint8_t *a, size_t n, const uint8_t *b, size_t m, uint8_t *c, size_t l)
{
    (void)a, (void)n, (void)b, (void)m, (void)c, (void)l;
    return 0;
}
#define WRITE nothing
#else
#define WRITE plain_write_layout
#endif

int run_reader(const uint8_t *msg, size_t len);

static uint64_t (*volatile writer)(const uint8_t *, size_t, const uint8_t *, size_t, uint8_t *, size_t) = WRITE;
static uint8_t record[RECORD_SIZE], out[PLAIN_MAX_MESSAGE];

int run_reader(const uint8_t *msg, size_t len)
{
    plain_read_layout(msg, len, record, sizeof record);
    return (uint8_t)writer(record, sizeof record, msg, len, out, sizeof out);
}
