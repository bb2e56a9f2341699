/* What host.c is lent, and what it does. */
#ifndef HOST_H
#define HOST_H

#include "goldenskep.h"

enum { HOST_RULES = 3 };

struct host {
    goldenskep_rule *rules;       /* as many as it has */
    goldenskep_record *record;
    uint8_t *material;
    size_t material_room;
    uint8_t *out;
    size_t out_room;
};

/* Sets the rules. */
void host_begin(const struct host *host);

/* Prints what becomes of one message. */
void host_take(const struct host *host, const uint8_t *message, size_t length);

#endif
