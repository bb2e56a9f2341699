/* Reads messages one by one, with marks around each call.
 *
 *   worst FILE
 *
 * FILE has each message as its length (2 octets, the most significant first) and
 * its octets. A mark is a system call that does nothing, getppid: the plug-in
 * icount.c, told so, prints how many instructions were run up to each. Of each
 * message there are three, and between the first two a function is called that
 * only returns: what it costs is no cost of the reading. Prints the status of
 * each reading. */
#include <stdint.h>
#include <stdio.h>
#include <unistd.h>

#include "goldenskep.h"

static uint64_t only_return(const uint8_t *message, size_t len, uint8_t *record, size_t room)
{
    (void)message, (void)len, (void)record, (void)room;
    return 0;
}

/* Volatile, so that the calls can be neither merged nor left out. */
static uint64_t (*volatile calls[2])(const uint8_t *, size_t, uint8_t *, size_t) = { only_return, goldenskep_read };

int main(int argc, char **argv)
{
    static uint8_t message[65536], record[GOLDENSKEP_RECORD_SIZE];
    FILE *file = argc == 2 ? fopen(argv[1], "rb") : NULL;
    int high;

    if (file == NULL) {
        fprintf(stderr, "usage: worst FILE\n");
        return 2;
    }
    while ((high = getc(file)) != EOF) {
        size_t len = (size_t)high << 8;
        uint64_t answer = 0;

        len += (size_t)getc(file);
        if (fread(message, 1, len, file) != len)
            return 2;
        getppid();
        for (int i = 0; i < 2; i++) {
            answer = calls[i](message, len, record, sizeof record);
            getppid();
        }
        printf("%d\n", goldenskep_answer_status(answer));
    }
    return 0;
}
