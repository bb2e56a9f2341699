/* Answers unreadable messages.
 *
 *   answer [MESSAGES]
 *
 * Prints for each message that it is readable, or the octets to send back, or
 * that nothing is sent.
 *
 * The refusal of a reading says what to send: an Abort with a P-Abort cause, or a
 * Reject of the component at fault. It goes to the sender's own transaction, so
 * the originating ID of the refused message becomes the destination ID of the
 * answer:
 *
 *   - Without an originating ID there is no one to answer, and the message is
 *     just discarded. That holds for End, Abort and Unidirectional, which have
 *     none; for a Begin or Continue whose fault comes before or in it; and for a
 *     message too long (7), in which none is looked for.
 *   - An unknown type of message (8) is answered with an Abort, cause 0, if it
 *     is a constructor in which a sound 48 stands first: its contents are the ID.
 *   - An Abort is sent as it is.
 *   - A Reject is sent in an End: a host that keeps the transaction would send
 *     it in a Continue with its own originating ID, which this program has not.
 *   - A fault in a Reject is answered as one in any other component. Q.774 leaves
 *     that to the host. */
#include "goldenskep.h"
#include "lines.h"

enum { MESSAGE_ROOM = 1024 };

/* The record to send in answer to a refused message; its originating ID is the
 * only string, so the message itself is the material. */
static void build_answer(goldenskep_record *record, uint64_t answer)
{
    if (goldenskep_answer_is_reject(answer)) {
        int k;

        goldenskep_record_init(record, GOLDENSKEP_MESSAGE_END);
        k = goldenskep_add_reject(record, GOLDENSKEP_PROBLEM_TYPE_GENERAL, goldenskep_answer_problem(answer));
        if (goldenskep_answer_has_invoke_id(answer))
            goldenskep_component_set_invoke_id(record, k, goldenskep_answer_invoke_id(answer));
    } else {
        goldenskep_record_init(record, GOLDENSKEP_MESSAGE_ABORT);
        goldenskep_record_set_cause(record, goldenskep_answer_cause(answer));
    }
    goldenskep_record_set_dest(record, goldenskep_answer_orig(answer));
}

static void answer_message(const uint8_t *message, size_t n)
{
    uint8_t out[GOLDENSKEP_MAX_MESSAGE];
    goldenskep_record record;
    uint64_t answer = goldenskep_read_record(message, n, &record);
    uint64_t written;

    if (goldenskep_answer_is_done(answer)) {
        printf("readable\n");
        return;
    }
    if (!goldenskep_answer_has_orig(answer)) {
        printf("nothing is sent, as no originating ID was read\n");
        return;
    }
    build_answer(&record, answer);
    written = goldenskep_write_record(&record, message, n, out, sizeof out);
    if (!goldenskep_answer_is_done(written)) {
        printf("not written: %s\n", goldenskep_status_words(goldenskep_answer_status(written)));
        return;
    }
    printf("send ");
    print_octets(out, goldenskep_answer_length(written));
    printf("\n");
}

int main(int argc, char **argv)
{
    static uint8_t message[MESSAGE_ROOM];
    FILE *file;
    int n;

    if (argc > 2) {
        fprintf(stderr, "usage: answer [MESSAGES]\n");
        return 2;
    }
    if (!goldenskep_header_fits()) {
        fprintf(stderr, "header and library are not of one layout\n");
        return 2;
    }
    file = open_or_stdin(argv[1]);
    while ((n = next_message(file, message, sizeof message)) >= 0)
        answer_message(message, (size_t)n);
    return 0;
}
