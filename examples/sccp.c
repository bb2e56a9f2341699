/* Takes SCCP unitdata from the line, steers what they carry and answers.
 *
 *   sccp [UNITDATA]
 *
 * Prints for each unitdata where its data goes, and the unitdata to send back, if
 * any: to the calling address, from the called address. Data is answered so:
 *
 *   - an Invoke of a Begin or Continue, by an End with an empty Return Result
 *     Last: this host has nothing to tell
 *   - an unreadable message whose originating ID was read, by the Abort or
 *     Reject that the refusal names
 *   - all else, and a unitdata that is none, not at all. */
#include "goldenskep.h"
#include "lines.h"

enum { UNITDATA_ROOM = 1024, RULES = 2 };

static goldenskep_rule rules[RULES];

/* An End to whom the message came from. */
static void begin_answer(goldenskep_record *to, goldenskep_span orig)
{
    goldenskep_record_init(to, GOLDENSKEP_MESSAGE_END);
    goldenskep_record_set_dest(to, orig);
}

/* The record to send in answer to a message that was read; 0 if none is sent. */
static int answer_read(const goldenskep_record *from, goldenskep_record *to)
{
    if (!goldenskep_record_has_orig(from) ||
        goldenskep_component_kind(from, 0) != GOLDENSKEP_COMPONENT_INVOKE)
        return 0;
    begin_answer(to, goldenskep_record_orig(from));
    goldenskep_add_return_result_last(to, goldenskep_component_invoke_id(from, 0));
    return 1;
}

/* The same for a message that was refused. */
static int answer_refused(uint64_t answer, goldenskep_record *to)
{
    int k;

    if (!goldenskep_answer_has_orig(answer))
        return 0;
    begin_answer(to, goldenskep_answer_orig(answer));
    if (goldenskep_answer_is_reject(answer)) {
        k = goldenskep_add_reject(to, GOLDENSKEP_PROBLEM_TYPE_GENERAL, goldenskep_answer_problem(answer));
        if (goldenskep_answer_has_invoke_id(answer))
            goldenskep_component_set_invoke_id(to, k, goldenskep_answer_invoke_id(answer));
    } else {
        goldenskep_record_set_kind(to, GOLDENSKEP_MESSAGE_ABORT);
        goldenskep_record_set_cause(to, goldenskep_answer_cause(answer));
    }
    return 1;
}

static void print_steered(uint64_t answer)
{
    if (goldenskep_answer_is_done(answer))
        printf("link %lu", (unsigned long)goldenskep_answer_link(answer));
    else
        printf("%s", goldenskep_status_words(goldenskep_answer_status(answer)));
}

static void take_unitdata(const uint8_t *unitdata, size_t n)
{
    uint8_t message[GOLDENSKEP_MAX_MESSAGE], out[GOLDENSKEP_UNITDATA_SIZE];
    uint64_t parts = goldenskep_unitdata_read(unitdata, n);
    goldenskep_record read, sent;
    goldenskep_span data;
    uint64_t answer, written;
    int answers;

    if (!goldenskep_answer_is_done(parts)) {
        printf("%s\n", goldenskep_status_words(goldenskep_answer_status(parts)));
        return;
    }
    data = goldenskep_unitdata_data(parts);
    print_steered(goldenskep_steer_rules(unitdata + data.place, data.length, rules, RULES));
    answer = goldenskep_read_record(unitdata + data.place, data.length, &read);
    answers = goldenskep_answer_is_done(answer) ? answer_read(&read, &sent) : answer_refused(answer, &sent);
    if (!answers) {
        printf("; nothing is sent\n");
        return;
    }
    /* the message that came is the material: the answer's only string is its ID */
    written = goldenskep_write_record(&sent, unitdata + data.place, data.length, message, sizeof message);
    if (goldenskep_answer_is_done(written))
        written = goldenskep_unitdata_write_back(unitdata, parts, message, goldenskep_answer_length(written), out,
                                                 sizeof out);
    if (!goldenskep_answer_is_done(written)) {
        printf("; not written: %s\n", goldenskep_status_words(goldenskep_answer_status(written)));
        return;
    }
    printf("; send ");
    print_octets(out, goldenskep_answer_length(written));
    printf("\n");
}

int main(int argc, char **argv)
{
    static uint8_t unitdata[UNITDATA_ROOM];
    FILE *file;
    int n;

    if (argc > 2) {
        fprintf(stderr, "usage: sccp [UNITDATA]\n");
        return 2;
    }
    if (!goldenskep_header_fits()) {
        fprintf(stderr, "header and library are not of one layout\n");
        return 2;
    }
    goldenskep_rule_set_code(&rules[0], GOLDENSKEP_MESSAGE_BEGIN, 45, 3);
    goldenskep_rule_set(&rules[1], GOLDENSKEP_MESSAGE_ANY, 9);
    file = open_or_stdin(argv[1]);
    while ((n = next_message(file, unitdata, sizeof unitdata)) >= 0)
        take_unitdata(unitdata, (size_t)n);
    return 0;
}
