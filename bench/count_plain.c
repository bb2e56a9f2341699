/* The plain reader under the counting loop. */
#include "plain.h"

int run_reader(const uint8_t *msg, size_t len);

static struct plain_record record;
static struct plain_refusal refusal;

int run_reader(const uint8_t *msg, size_t len)
{
    return plain_read(msg, len, &record, &refusal);
}
