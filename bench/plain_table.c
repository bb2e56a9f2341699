/* A table of open transactions in plain C: one event, changed in place. */
#include "plain_layout.h"

#include <string.h>

enum { ENTRIES = 64, ENTRY_SIZE = 12, OURS = 4, PARTNER = 8, MOST_IN_ID = 4 };

enum { IDLE, INITIATION_SENT, INITIATION_RECEIVED, ACTIVE };

enum {
    BEGIN_SENT = 1,
    BEGIN_RECEIVED,
    CONTINUE_SENT,
    CONTINUE_RECEIVED,
    END_SENT,
    END_RECEIVED,
    ABORT_SENT,
    ABORT_RECEIVED,
    LOCAL_CLOSE
};

enum { OPENED = 1, KEPT, CLOSED };

static int is_id(size_t len)
{
    return len >= 1 && len <= MOST_IN_ID;
}

/* Octets 4 to 7 or 8 to 11 of an entry: an ID, then zeros. */
static void put_id(uint8_t *to, const uint8_t *id, size_t len)
{
    memset(to, 0, MOST_IN_ID);
    memcpy(to, id, len);
}

static int is_free(const uint8_t *entry)
{
    return entry[0] < INITIATION_SENT || entry[0] > ACTIVE;
}

/* The entry under this ID, which is followed by zeros, or 64. */
static int find(const uint8_t *table, const uint8_t *id, size_t len)
{
    int k;

    for (k = 0; k < ENTRIES; k++) {
        const uint8_t *entry = table + ENTRY_SIZE * k;

        if (memcmp(entry + OURS, id, MOST_IN_ID) == 0 && entry[1] == len && !is_free(entry))
            break;
    }
    return k;
}

/* The first free entry, or 64. */
static int find_room(const uint8_t *table)
{
    int k;

    for (k = 0; k < ENTRIES; k++)
        if (is_free(table + ENTRY_SIZE * k))
            break;
    return k;
}

static uint64_t done(int deed, int k)
{
    return (uint64_t)deed << 8 | (uint64_t)k << 16;
}

static uint64_t closed(uint8_t *entry, int k)
{
    memset(entry, 0, ENTRY_SIZE);
    return done(CLOSED, k);
}

/* An event of the transaction in this entry. */
static uint64_t step(uint8_t *entry, int k, uint8_t event, const uint8_t *partner, size_t partner_len)
{
    switch (event) {
    case CONTINUE_SENT:
        if (entry[0] == INITIATION_SENT)
            return 42;
        entry[0] = ACTIVE;
        return done(KEPT, k);
    case CONTINUE_RECEIVED:
        if (entry[0] == INITIATION_RECEIVED)
            return 42;
        if (entry[0] == INITIATION_SENT) {
            entry[0] = ACTIVE;
            entry[2] = (uint8_t)partner_len;
            entry[3] = 0;
            put_id(entry + PARTNER, partner, partner_len);
        }
        return done(KEPT, k);
    case END_SENT:
    case ABORT_SENT:
        return entry[0] == INITIATION_SENT ? 42 : closed(entry, k);
    case END_RECEIVED:
    case ABORT_RECEIVED:
        return entry[0] == INITIATION_RECEIVED ? 42 : closed(entry, k);
    case LOCAL_CLOSE:
        return closed(entry, k);
    default:
        return 42;
    }
}

uint64_t plain_transaction(uint8_t *table, size_t table_len, uint8_t event, const uint8_t *ours, size_t ours_len,
                           const uint8_t *partner, size_t partner_len)
{
    int brings_partner = event == BEGIN_RECEIVED || event == CONTINUE_RECEIVED;
    uint8_t id[MOST_IN_ID];
    uint8_t *entry;
    int k;

    if (table_len < TABLE_SIZE)
        return STATUS_NO_ROOM;
    if (!is_id(ours_len) || (brings_partner && !is_id(partner_len)))
        return 40;
    put_id(id, ours, ours_len);
    k = find(table, id, ours_len);
    if (event != BEGIN_SENT && event != BEGIN_RECEIVED)
        return k == ENTRIES ? 41 : step(table + ENTRY_SIZE * k, k, event, partner, partner_len);
    if (k != ENTRIES)
        return 41;
    k = find_room(table);
    if (k == ENTRIES)
        return 43;
    entry = table + ENTRY_SIZE * k;
    memset(entry, 0, ENTRY_SIZE);
    entry[0] = event == BEGIN_SENT ? INITIATION_SENT : INITIATION_RECEIVED;
    entry[1] = (uint8_t)ours_len;
    memcpy(entry + OURS, id, MOST_IN_ID);
    if (brings_partner) {
        entry[2] = (uint8_t)partner_len;
        put_id(entry + PARTNER, partner, partner_len);
    }
    return done(OPENED, k);
}
