/* A host, written from goldenskep.h alone. It steers a message and prints it with
 * the names of all that it has, puts another parameter into it and writes it
 * again; a message that is unreadable it answers. */
#include "host.h"

#include <inttypes.h>
#include <stdio.h>

static void print_octets(const char *before, const uint8_t *octets, size_t length)
{
    size_t i;

    printf("%s", before);
    for (i = 0; i < length; i++)
        printf("%02X", octets[i]);
}

/* A string of a message that was read. */
static void print_string(const char *before, const uint8_t *message, goldenskep_span span)
{
    print_octets(before, message + span.place, span.length);
}

static void print_dialogue(const uint8_t *message, const goldenskep_record *record)
{
    const int kind = goldenskep_record_dialogue_kind(record);
    const int source = goldenskep_record_diagnostic_source(record);

    printf("    %s", goldenskep_dialogue_kind_words(kind));
    if (goldenskep_record_name(record).length > 0)
        print_string(" ", message, goldenskep_record_name(record));
    if (kind == GOLDENSKEP_DIALOGUE_CAUSE)
        printf(": %s", goldenskep_cause_words(goldenskep_record_cause(record)));
    if (kind == GOLDENSKEP_DIALOGUE_RESPONSE)
        printf(", %s, %s: %s", goldenskep_result_words(goldenskep_record_result(record)),
               goldenskep_diagnostic_source_words(source),
               goldenskep_diagnostic_words(source, goldenskep_record_diagnostic(record)));
    if (kind == GOLDENSKEP_DIALOGUE_ABORT)
        printf(" by %s", goldenskep_abort_source_words(goldenskep_record_abort_source(record)));
    if (kind == GOLDENSKEP_DIALOGUE_ELEMENT)
        print_string(": ", message, goldenskep_record_element(record));
    if (kind == GOLDENSKEP_DIALOGUE_OCTETS)
        print_string(": ", message, goldenskep_record_octets(record));
    if (goldenskep_record_has_user_info(record))
        print_string(", user information:", message, goldenskep_record_user_info(record));
    printf("\n");
}

static void print_component(const uint8_t *message, const goldenskep_record *record, int k)
{
    const int kind = goldenskep_component_kind(record, k);
    const int type = goldenskep_component_problem_type(record, k);

    printf("    %d %s", k, goldenskep_component_kind_words(kind));
    if (goldenskep_component_has_invoke_id(record, k))
        printf(" %d", goldenskep_component_invoke_id(record, k));
    if (goldenskep_component_has_linked_id(record, k))
        printf(", linked ID %d", goldenskep_component_linked_id(record, k));
    if (kind == GOLDENSKEP_COMPONENT_REJECT) {
        printf(", %s: %s\n", goldenskep_problem_type_words(type),
               goldenskep_problem_words(type, goldenskep_component_problem(record, k)));
        return;
    }
    printf(", %s", goldenskep_code_kind_words(goldenskep_component_code_kind(record, k)));
    if (goldenskep_component_code_kind(record, k) == GOLDENSKEP_CODE_LOCAL)
        printf(" %" PRId32, goldenskep_component_local_code(record, k));
    if (goldenskep_component_code_kind(record, k) == GOLDENSKEP_CODE_GLOBAL)
        print_string(" ", message, goldenskep_component_global_code(record, k));
    if (goldenskep_component_has_parameter(record, k))
        print_string(", parameter ", message, goldenskep_component_parameter(record, k));
    printf("\n");
}

static void write_out(const struct host *host, const char *before, size_t material_length)
{
    const uint64_t answer =
        goldenskep_write_record(host->record, host->material, material_length, host->out, host->out_room);

    if (goldenskep_answer_is_done(answer))
        print_octets(before, host->out, goldenskep_answer_length(answer));
    else
        printf("    not written: %s", goldenskep_status_words(goldenskep_answer_status(answer)));
    printf("\n");
}

/* Another parameter for each component that has one. */
static void change(const struct host *host, const uint8_t *message, size_t length)
{
    static const uint8_t element[] = { 0x04, 0x02, 0xCA, 0xFE };
    goldenskep_span span;
    size_t used = 0;
    int k;

    /* the message first, so that the record's strings stand where they stood */
    goldenskep_append(host->material, host->material_room, &used, message, length);
    span = goldenskep_append(host->material, host->material_room, &used, element, sizeof element);
    for (k = 0; k < goldenskep_record_count(host->record); k++)
        if (goldenskep_component_has_parameter(host->record, k))
            goldenskep_component_set_parameter(host->record, k, span);
    write_out(host, "    changed: ", used);
}

static void refuse(const struct host *host, const uint8_t *message, uint64_t answer)
{
    const goldenskep_span orig = goldenskep_answer_orig(answer);
    size_t used = 0;
    int k;

    printf("refused at %zu: %s\n", goldenskep_answer_place(answer),
           goldenskep_status_words(goldenskep_answer_status(answer)));
    if (!goldenskep_answer_has_orig(answer)) {
        printf("    nothing is sent\n");
        return;
    }
    if (goldenskep_answer_is_reject(answer)) {
        goldenskep_record_init(host->record, GOLDENSKEP_MESSAGE_END);
        k = goldenskep_add_reject(host->record, GOLDENSKEP_PROBLEM_TYPE_GENERAL, goldenskep_answer_problem(answer));
        if (goldenskep_answer_has_invoke_id(answer))
            goldenskep_component_set_invoke_id(host->record, k, goldenskep_answer_invoke_id(answer));
    } else {
        goldenskep_record_init(host->record, GOLDENSKEP_MESSAGE_ABORT);
        goldenskep_record_set_cause(host->record, goldenskep_answer_cause(answer));
    }
    goldenskep_record_set_dest(host->record, goldenskep_append(host->material, host->material_room, &used,
                                                               message + orig.place, orig.length));
    write_out(host, "    sent: ", used);
}

void host_begin(const struct host *host)
{
    goldenskep_rule_set_code(&host->rules[0], GOLDENSKEP_MESSAGE_BEGIN, 45, 3);
    goldenskep_rule_set(&host->rules[1], GOLDENSKEP_MESSAGE_CONTINUE, 7);
    goldenskep_rule_set_code(&host->rules[2], GOLDENSKEP_MESSAGE_ANY, -1, 9);
}

void host_take(const struct host *host, const uint8_t *message, size_t length)
{
    const uint64_t answer = goldenskep_read_record(message, length, host->record);
    const uint64_t steered = goldenskep_steer_rules(message, length, host->rules, HOST_RULES);
    int k;

    if (!goldenskep_answer_is_done(answer)) {
        refuse(host, message, answer);
        return;
    }
    printf("%s", goldenskep_message_kind_words(goldenskep_record_kind(host->record)));
    if (goldenskep_record_has_orig(host->record))
        print_string(" from ", message, goldenskep_record_orig(host->record));
    if (goldenskep_record_has_dest(host->record))
        print_string(" to ", message, goldenskep_record_dest(host->record));
    if (goldenskep_answer_is_done(steered))
        printf(", link %" PRIu32 "\n", goldenskep_answer_link(steered));
    else
        printf(", %s\n", goldenskep_status_words(goldenskep_answer_status(steered)));
    print_dialogue(message, host->record);
    for (k = 0; k < goldenskep_record_count(host->record); k++)
        print_component(message, host->record, k);
    change(host, message, length);
}
