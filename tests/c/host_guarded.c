/* Runs host.c with its messages and rooms between guard pages.
 *
 *   host_guarded end|start MESSAGES
 *
 * All that is lent ends at a guard page, or begins behind one; messages and rules
 * may not be written, and the octets beside a room stay as they were. The exit
 * status is 1 if one of these does not hold. */
#include "guarded.h"
#include "host.h"
#include "lines.h"

enum { MESSAGE_ROOM = 1024, MATERIAL_ROOM = GOLDENSKEP_MAX_MESSAGE + 4, ROOMS = 3 };

static struct arena messages, rules, rooms[ROOMS];
static const size_t sizes[ROOMS] = { sizeof(goldenskep_record), MATERIAL_ROOM, GOLDENSKEP_MAX_MESSAGE };

/* Makes the call; 0 if it touched what was not lent. */
static int guarded_take(const struct host *host, const uint8_t *message, size_t length)
{
    if (sigsetjmp(guard_touched, 1) != 0)
        return 0;
    host_take(host, message, length);
    return 1;
}

static int margins_stay(enum side side)
{
    int stay = 1;

    for (int i = 0; i < ROOMS; i++)
        for (size_t j = 0; j < MARGIN; j++)
            stay &= margin_of(&rooms[i], side, sizes[i])[j] == MARGIN_OCTET;
    return stay;
}

int main(int argc, char **argv)
{
    static uint8_t message[MESSAGE_ROOM];
    struct host host;
    enum side side;
    FILE *file;
    int n;

    if (argc != 3 || (strcmp(argv[1], "end") != 0 && strcmp(argv[1], "start") != 0)) {
        fprintf(stderr, "usage: host_guarded end|start MESSAGES\n");
        return 2;
    }
    side = strcmp(argv[1], "end") == 0 ? AT_END : AT_START;
    messages = make_arena(MESSAGE_ROOM);
    rules = make_arena(HOST_RULES * sizeof(goldenskep_rule));
    for (int i = 0; i < ROOMS; i++) {
        rooms[i] = make_arena(sizes[i]);
        memset(rooms[i].from, MARGIN_OCTET, (size_t)(rooms[i].to - rooms[i].from));
    }
    host.rules = (void *)place_in(&rules, side, HOST_RULES * sizeof(goldenskep_rule));
    host.record = (void *)place_in(&rooms[0], side, sizes[0]);
    host.material = place_in(&rooms[1], side, sizes[1]);
    host.material_room = sizes[1];
    host.out = place_in(&rooms[2], side, sizes[2]);
    host.out_room = sizes[2];
    catch_touches();
    host_begin(&host);
    protect(&rules, PROT_READ);
    file = open_or_stdin(argv[2]);
    while ((n = next_message(file, message, sizeof message)) >= 0) {
        uint8_t *at = place_in(&messages, side, (size_t)n);
        int untouched;

        memcpy(at, message, (size_t)n);
        protect(&messages, PROT_READ);
        untouched = guarded_take(&host, at, (size_t)n);
        protect(&messages, PROT_READ | PROT_WRITE);
        if (!untouched || !margins_stay(side)) {
            printf("touched what was not lent\n");
            return 1;
        }
    }
    return 0;
}
