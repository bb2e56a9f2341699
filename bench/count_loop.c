/* The loop whose instructions are counted, for any reader.
 *
 *   PROGRAM MESSAGES ROUNDS [CLASS]
 *
 * MESSAGES is the file that messages.py writes. All its messages, or those
 * whose length is nearest to CLASS among 20, 60, 120 and 250, are read ROUNDS
 * times. Prints how many messages and octets one round has.
 *
 * A reader provides run_reader(), which returns 0 for an accepted message. */
#include <stdint.h>
#include <stdio.h>
#include <stdlib.h>

#include "classes.h"

int run_reader(const uint8_t *msg, size_t len);

enum { MAX_MESSAGES = 20000, MAX_OCTETS = 4000000 };

static uint8_t room[MAX_OCTETS];
static struct {
    const uint8_t *at;
    size_t len;
} messages[MAX_MESSAGES];

/* Volatile, so that the calls can be neither merged nor left out. */
static int (*volatile reader)(const uint8_t *, size_t) = run_reader;

int main(int argc, char **argv)
{
    size_t size, count = 0, octets = 0;
    long rounds, class = 0;
    unsigned long refused = 0;
    FILE *file;

    if (argc != 3 && argc != 4) {
        fprintf(stderr, "usage: %s MESSAGES ROUNDS [CLASS]\n", argv[0]);
        return 2;
    }
    rounds = atol(argv[2]);
    if (argc == 4)
        class = atol(argv[3]);
    file = fopen(argv[1], "rb");
    if (file == NULL) {
        perror(argv[1]);
        return 2;
    }
    size = fread(room, 1, sizeof room, file);
    fclose(file);
    for (size_t at = 0; at + 2 <= size;) {
        size_t len = (size_t)room[at] * 256 + room[at + 1];

        at += 2;
        if (len > size - at || count == MAX_MESSAGES) {
            fprintf(stderr, "%s: cut off, or too many messages\n", argv[1]);
            return 2;
        }
        if (class == 0 || class == nearest_class(len)) {
            messages[count].at = room + at;
            messages[count].len = len;
            count++;
            octets += len;
        }
        at += len;
    }

    for (long round = 0; round < rounds; round++)
        for (size_t i = 0; i < count; i++)
            if (reader(messages[i].at, messages[i].len) != 0)
                refused++;

    printf("%lu messages %lu octets %lu refused\n", (unsigned long)count,
           (unsigned long)octets, rounds > 0 ? refused / (unsigned long)rounds : 0);
    return 0;
}
