/* goldenskep.h: its constants, accessors and builders, with the library behind
 * them. C99, and C++11 (header.cpp). */
#include "goldenskep.h"
#include "check.h"

#include <limits.h>

#ifdef __cplusplus
#define LANGUAGE "C++"
#else
#define LANGUAGE "C"
#endif

static goldenskep_record record;
static uint8_t material[256];
static size_t used;
static uint8_t message[GOLDENSKEP_MAX_MESSAGE];
static size_t length;

/* Appends the octets of hex to the material. */
static goldenskep_span lay(const char *hex)
{
    uint8_t octets[256];

    return goldenskep_append(material, sizeof material, &used, octets,
                             octets_of(hex, octets, sizeof octets));
}

static void begin_record(long kind)
{
    used = 0;
    memset(&record, 0xEE, sizeof record);
    goldenskep_record_init(&record, kind);
}

/* Writes the record: the status. */
static int write_record(void)
{
    uint64_t answer = goldenskep_write_record(&record, material, used, message, sizeof message);

    length = goldenskep_answer_is_done(answer) ? goldenskep_answer_length(answer) : 0;
    return goldenskep_answer_status(answer);
}

/* Is the message just these octets? */
static int is_message(const char *hex)
{
    uint8_t octets[256];
    size_t n = octets_of(hex, octets, sizeof octets);

    return n == length && memcmp(octets, message, n) == 0;
}

/* Reads the message that was written: 1 if done. */
static int read_back(void)
{
    memset(&record, 0, sizeof record);
    return goldenskep_read_record(message, length, &record) == GOLDENSKEP_STATUS_DONE;
}

/* Do the octets of a span, in the message, read so? */
static int is_string(goldenskep_span span, const char *hex)
{
    uint8_t octets[256];
    size_t n = octets_of(hex, octets, sizeof octets);

    return span.length == n && span.place + n <= length && memcmp(message + span.place, octets, n) == 0;
}

static void check_layout(void)
{
    CHECK(GOLDENSKEP_RECORD_SIZE == 428);
    CHECK(GOLDENSKEP_RULE_SIZE == 12);
    CHECK(GOLDENSKEP_LAYOUT == 0x020C01ACu);
    CHECK(goldenskep_layout() == GOLDENSKEP_LAYOUT);
    CHECK(goldenskep_header_fits() == 1);
    CHECK(sizeof(goldenskep_record) == GOLDENSKEP_RECORD_SIZE && sizeof(goldenskep_rule) == GOLDENSKEP_RULE_SIZE);
}

static void check_version(void)
{
    char version[32];

    snprintf(version, sizeof version, "%d.%d.%d", GOLDENSKEP_VERSION_MAJOR, GOLDENSKEP_VERSION_MINOR,
             GOLDENSKEP_VERSION_PATCH);
    CHECK(strcmp(version, GOLDENSKEP_VERSION) == 0);
}

static void check_answer(void)
{
    /* Every field at its largest, and all others 0. */
    CHECK(goldenskep_answer_status(0xFFu) == 255);
    CHECK(goldenskep_answer_place(0xFFFF00u) == 65535);
    CHECK(goldenskep_answer_length(0xFFFF00u) == 65535);
    CHECK(goldenskep_answer_orig(UINT64_C(0xFFFF000000)).place == 65535);
    CHECK(goldenskep_answer_orig(UINT64_C(0xFFFF000000)).length == 0);
    CHECK(goldenskep_answer_orig(UINT64_C(0xF0000000000)).length == 15);
    CHECK(goldenskep_answer_has_orig(UINT64_C(0x10000000000)) == 1);
    CHECK(goldenskep_answer_has_orig(~UINT64_C(0xF0000000000)) == 0);
    CHECK(goldenskep_answer_is_reject(UINT64_C(1) << 44) == 1);
    CHECK(goldenskep_answer_is_reject(~(UINT64_C(1) << 44)) == 0);
    CHECK(goldenskep_answer_cause(UINT64_C(7) << 45) == 7);
    CHECK(goldenskep_answer_cause(~(UINT64_C(7) << 45)) == 0);
    CHECK(goldenskep_answer_problem(UINT64_C(7) << 45) == 7);
    CHECK(goldenskep_answer_component(UINT64_C(127) << 48) == 127);
    CHECK(goldenskep_answer_component(~(UINT64_C(127) << 48)) == 0);
    CHECK(goldenskep_answer_has_invoke_id(UINT64_C(1) << 55) == 1);
    CHECK(goldenskep_answer_has_invoke_id(~(UINT64_C(1) << 55)) == 0);
    CHECK(goldenskep_answer_invoke_id(UINT64_C(0x7F) << 56) == 127);
    CHECK(goldenskep_answer_invoke_id(UINT64_C(0x80) << 56) == -128);
    CHECK(goldenskep_answer_invoke_id(UINT64_C(0xFF) << 56) == -1);
    CHECK(goldenskep_answer_link(UINT64_C(0xFFFFFFFF00000000)) == 4294967295u);
    CHECK(goldenskep_answer_link(UINT64_C(0xFFFFFFFF)) == 0);
    CHECK(goldenskep_answer_is_done(UINT64_C(0xFFFFFFFFFFFFFF00)));
    CHECK(!goldenskep_answer_is_done(GOLDENSKEP_STATUS_NO_RULE));
    CHECK(!goldenskep_answer_is_unreadable(0) && goldenskep_answer_is_unreadable(1));
    CHECK(goldenskep_answer_is_unreadable(16) && !goldenskep_answer_is_unreadable(17));
    CHECK(!goldenskep_answer_is_unreadable(GOLDENSKEP_STATUS_ROOM));
    CHECK(!goldenskep_answer_is_unreadable(GOLDENSKEP_STATUS_NO_RULE));
}

/* A refusal of each sort, from the library. */
static void check_refusals(void)
{
    uint8_t octets[300];
    uint64_t answer;
    size_t n;

    n = octets_of("62 00", octets, sizeof octets);
    memset(&record, 0xEE, sizeof record);
    answer = goldenskep_read_record(octets, n, &record);
    CHECK(goldenskep_answer_status(answer) == GOLDENSKEP_STATUS_MISSING);
    CHECK(goldenskep_answer_place(answer) == 2);
    CHECK(!goldenskep_answer_has_orig(answer));
    CHECK(!goldenskep_answer_is_reject(answer));
    CHECK(goldenskep_answer_cause(answer) == GOLDENSKEP_CAUSE_INCORRECT_TRANSACTION_PORTION);
    CHECK(record.octets[0] == 0xEE && record.octets[GOLDENSKEP_RECORD_SIZE - 1] == 0xEE);

    /* Component 1, whose code is missing, has invoke ID -2. */
    n = octets_of("62 13 48 02 05 06 6C 0D A1 06 02 01 01 02 01 2D A1 03 02 01 FE", octets, sizeof octets);
    answer = goldenskep_read_record(octets, n, &record);
    CHECK(goldenskep_answer_status(answer) == GOLDENSKEP_STATUS_MISSING);
    CHECK(goldenskep_answer_place(answer) == 21);
    CHECK(goldenskep_answer_has_orig(answer));
    CHECK(goldenskep_answer_orig(answer).place == 4 && goldenskep_answer_orig(answer).length == 2);
    CHECK(goldenskep_answer_is_reject(answer));
    CHECK(goldenskep_answer_problem(answer) == GOLDENSKEP_GENERAL_PROBLEM_MISTYPED_COMPONENT);
    CHECK(goldenskep_answer_component(answer) == 1);
    CHECK(goldenskep_answer_has_invoke_id(answer));
    CHECK(goldenskep_answer_invoke_id(answer) == -2);
    CHECK(goldenskep_steer(octets, n, NULL, 0) == answer);

    memset(octets, 0, sizeof octets);
    answer = goldenskep_read_record(octets, 256, &record);
    CHECK(goldenskep_answer_status(answer) == GOLDENSKEP_STATUS_TOO_LONG);
    CHECK(goldenskep_answer_place(answer) == 255);
    CHECK(goldenskep_answer_cause(answer) == GOLDENSKEP_CAUSE_BADLY_FORMATTED_TRANSACTION_PORTION);

    CHECK(goldenskep_read(NULL, 0, record.octets, GOLDENSKEP_RECORD_SIZE - 1) == GOLDENSKEP_STATUS_ROOM);
    CHECK(goldenskep_read(NULL, 0, NULL, 0) == GOLDENSKEP_STATUS_ROOM);
    CHECK(goldenskep_write(NULL, 0, NULL, 0, NULL, 0) == GOLDENSKEP_STATUS_PARTS);
    CHECK(goldenskep_answer_status(goldenskep_steer(NULL, 0, NULL, 0)) == GOLDENSKEP_STATUS_CUT_OFF);
    CHECK(goldenskep_list(NULL, 0, NULL, 0) == GOLDENSKEP_STATUS_ROOM);
}

/* An Invoke with linked ID 2: every octet of its record, and there and back. */
static void check_linked_invoke(void)
{
    static const char *const octets = "62 13 48 01 05 6C 0E A1 0C 02 01 01 80 01 02 02 01 2D 04 01 07";
    uint8_t wanted[GOLDENSKEP_RECORD_SIZE];
    int k;

    begin_record(GOLDENSKEP_MESSAGE_BEGIN);
    goldenskep_record_set_orig(&record, lay("05"));
    k = goldenskep_add_invoke(&record, 1, 45);
    CHECK(k == 0);
    goldenskep_component_set_linked_id(&record, 0, 2);
    goldenskep_component_set_parameter(&record, 0, lay("04 01 07"));

    memset(wanted, 0, sizeof wanted);
    octets_of("62010000 00000001 00000000 00000001", wanted, 16);
    octets_of("A101010102020100 0000002D 00000000 00000001 00000003", wanted + 44, 24);
    CHECK(memcmp(&record, wanted, sizeof wanted) == 0);
    CHECK(write_record() == GOLDENSKEP_STATUS_DONE);
    CHECK(is_message(octets));

    CHECK(read_back());
    octets_of("62010000 00000001 00000004 00000001", wanted, 16);
    octets_of("A101010102020100 0000002D 00000000 00000012 00000003", wanted + 44, 24);
    CHECK(memcmp(&record, wanted, sizeof wanted) == 0);
    CHECK(goldenskep_record_kind(&record) == GOLDENSKEP_MESSAGE_BEGIN);
    CHECK(goldenskep_record_has_orig(&record));
    CHECK(is_string(goldenskep_record_orig(&record), "05"));
    CHECK(!goldenskep_record_has_dest(&record));
    CHECK(goldenskep_record_dialogue_kind(&record) == GOLDENSKEP_DIALOGUE_NONE);
    CHECK(goldenskep_record_count(&record) == 1);
    CHECK(goldenskep_component_kind(&record, 0) == GOLDENSKEP_COMPONENT_INVOKE);
    CHECK(goldenskep_component_has_invoke_id(&record, 0) && goldenskep_component_invoke_id(&record, 0) == 1);
    CHECK(goldenskep_component_has_linked_id(&record, 0) && goldenskep_component_linked_id(&record, 0) == 2);
    CHECK(goldenskep_component_code_kind(&record, 0) == GOLDENSKEP_CODE_LOCAL);
    CHECK(goldenskep_component_local_code(&record, 0) == 45);
    CHECK(goldenskep_component_has_parameter(&record, 0));
    CHECK(goldenskep_component_parameter(&record, 0).place == 18);
    CHECK(is_string(goldenskep_component_parameter(&record, 0), "04 01 07"));

    /* A message is material for its own record. */
    goldenskep_component_clear_linked_id(&record, 0);
    memcpy(material, message, length);
    used = length;
    CHECK(write_record() == GOLDENSKEP_STATUS_DONE);
    CHECK(is_message("62 10 48 01 05 6C 0B A1 09 02 01 01 02 01 2D 04 01 07"));
    goldenskep_component_clear_parameter(&record, 0);
    CHECK(write_record() == GOLDENSKEP_STATUS_DONE);
    CHECK(is_message("62 0D 48 01 05 6C 08 A1 06 02 01 01 02 01 2D"));
    goldenskep_component_clear_code(&record, 0);
    CHECK(write_record() == GOLDENSKEP_STATUS_PARTS);
}

static void check_components(void)
{
    begin_record(GOLDENSKEP_MESSAGE_CONTINUE);
    goldenskep_record_set_orig(&record, lay("01 02 03 04"));
    goldenskep_record_set_dest(&record, lay("0A 0B"));
    CHECK(goldenskep_add_invoke(&record, -128, -2147483647 - 1) == 0);
    CHECK(goldenskep_add_invoke(&record, 127, 0) == 1);
    goldenskep_component_set_global_code(&record, 1, lay("2A 03"));
    goldenskep_component_set_linked_id(&record, 1, -1);
    CHECK(goldenskep_add_return_result_last(&record, 3) == 2);
    CHECK(goldenskep_add_return_result_not_last(&record, 4) == 3);
    goldenskep_component_set_local_code(&record, 3, 128);
    goldenskep_component_set_parameter(&record, 3, lay("30 00"));
    CHECK(goldenskep_add_return_error(&record, 5, -129) == 4);
    CHECK(goldenskep_add_reject(&record, GOLDENSKEP_PROBLEM_TYPE_INVOKE, 7) == 5);
    CHECK(goldenskep_add_reject(&record, GOLDENSKEP_PROBLEM_TYPE_RETURN_ERROR, 4) == 6);
    goldenskep_component_set_invoke_id(&record, 6, -6);
    CHECK(write_record() == GOLDENSKEP_STATUS_DONE);
    CHECK(is_message("65 4D 48 04 01 02 03 04 49 02 0A 0B 6C 41 A1 09 02 01 80 02 04 80 00 00 00"
                     "A1 0A 02 01 7F 80 01 FF 06 02 2A 03 A2 03 02 01 03"
                     "A7 0B 02 01 04 30 06 02 02 00 80 30 00 A3 07 02 01 05 02 02 FF 7F"
                     "A4 05 05 00 81 01 07 A4 06 02 01 FA 83 01 04"));
    CHECK(read_back());
    CHECK(goldenskep_record_kind(&record) == GOLDENSKEP_MESSAGE_CONTINUE);
    CHECK(is_string(goldenskep_record_orig(&record), "01 02 03 04"));
    CHECK(goldenskep_record_has_dest(&record) && is_string(goldenskep_record_dest(&record), "0A 0B"));
    CHECK(goldenskep_record_count(&record) == 7);
    CHECK(goldenskep_component_invoke_id(&record, 0) == -128);
    CHECK(goldenskep_component_local_code(&record, 0) == -2147483647 - 1);
    CHECK(!goldenskep_component_has_linked_id(&record, 0) && !goldenskep_component_has_parameter(&record, 0));
    CHECK(goldenskep_component_invoke_id(&record, 1) == 127 && goldenskep_component_linked_id(&record, 1) == -1);
    CHECK(goldenskep_component_code_kind(&record, 1) == GOLDENSKEP_CODE_GLOBAL);
    CHECK(is_string(goldenskep_component_global_code(&record, 1), "2A 03"));
    CHECK(goldenskep_component_kind(&record, 2) == GOLDENSKEP_COMPONENT_RETURN_RESULT_LAST);
    CHECK(goldenskep_component_code_kind(&record, 2) == GOLDENSKEP_CODE_NONE);
    CHECK(!goldenskep_component_has_parameter(&record, 2));
    CHECK(goldenskep_component_kind(&record, 3) == GOLDENSKEP_COMPONENT_RETURN_RESULT_NOT_LAST);
    CHECK(goldenskep_component_local_code(&record, 3) == 128);
    CHECK(is_string(goldenskep_component_parameter(&record, 3), "30 00"));
    CHECK(goldenskep_component_kind(&record, 4) == GOLDENSKEP_COMPONENT_RETURN_ERROR);
    CHECK(goldenskep_component_local_code(&record, 4) == -129);
    CHECK(goldenskep_component_kind(&record, 5) == GOLDENSKEP_COMPONENT_REJECT);
    CHECK(!goldenskep_component_has_invoke_id(&record, 5));
    CHECK(goldenskep_component_problem_type(&record, 5) == GOLDENSKEP_PROBLEM_TYPE_INVOKE);
    CHECK(goldenskep_component_problem(&record, 5) == 7);
    CHECK(goldenskep_component_has_invoke_id(&record, 6) && goldenskep_component_invoke_id(&record, 6) == -6);
    CHECK(goldenskep_component_problem_type(&record, 6) == GOLDENSKEP_PROBLEM_TYPE_RETURN_ERROR);
    CHECK(goldenskep_component_problem(&record, 6) == 4);
    goldenskep_component_set_null_invoke_id(&record, 6);
    CHECK(!goldenskep_component_has_invoke_id(&record, 6) && goldenskep_component_invoke_id(&record, 6) == 0);
    goldenskep_component_set_problem(&record, 6, GOLDENSKEP_PROBLEM_TYPE_RETURN_RESULT, 2);
    memcpy(material, message, length);
    used = length;
    CHECK(write_record() == GOLDENSKEP_STATUS_DONE);
    CHECK(length == 78 && memcmp(message + 73, "\x05\x00\x82\x01\x02", 5) == 0);

    /* Sixteen go in and are written, a seventeenth does not. */
    begin_record(GOLDENSKEP_MESSAGE_UNIDIRECTIONAL);
    CHECK(write_record() == GOLDENSKEP_STATUS_PARTS);
    for (int k = 0; k < 16; k++)
        CHECK(goldenskep_add_return_result_last(&record, k) == k);
    CHECK(goldenskep_add_invoke(&record, 1, 1) == -1);
    CHECK(goldenskep_add_return_result_last(&record, 1) == -1);
    CHECK(goldenskep_add_return_result_not_last(&record, 1) == -1);
    CHECK(goldenskep_add_return_error(&record, 1, 1) == -1);
    CHECK(goldenskep_add_reject(&record, GOLDENSKEP_PROBLEM_TYPE_GENERAL, 0) == -1);
    CHECK(goldenskep_record_count(&record) == 16);
    CHECK(write_record() == GOLDENSKEP_STATUS_DONE && length == 84);
    CHECK(read_back() && goldenskep_component_invoke_id(&record, 15) == 15);
}

static void check_dialogues(void)
{
    begin_record(GOLDENSKEP_MESSAGE_ABORT);
    goldenskep_record_set_dest(&record, lay("05"));
    goldenskep_record_set_cause(&record, GOLDENSKEP_CAUSE_RESOURCE_LIMITATION);
    CHECK(write_record() == GOLDENSKEP_STATUS_DONE);
    CHECK(is_message("67 06 49 01 05 4A 01 04"));
    CHECK(read_back());
    CHECK(goldenskep_record_dialogue_kind(&record) == GOLDENSKEP_DIALOGUE_CAUSE);
    CHECK(goldenskep_record_cause(&record) == GOLDENSKEP_CAUSE_RESOURCE_LIMITATION);

    begin_record(GOLDENSKEP_MESSAGE_BEGIN);
    goldenskep_record_set_orig(&record, lay("05"));
    goldenskep_record_set_request(&record, lay("04 00 00 01 00 01 03"));
    CHECK(write_record() == GOLDENSKEP_STATUS_DONE);
    CHECK(is_message("62 1F 48 01 05 6B 1A 28 18 06 07 00 11 86 05 01 01 01 A0 0D 60 0B A1 09 06 07"
                     "04 00 00 01 00 01 03"));
    CHECK(read_back());
    CHECK(goldenskep_record_dialogue_kind(&record) == GOLDENSKEP_DIALOGUE_REQUEST);
    CHECK(is_string(goldenskep_record_name(&record), "04 00 00 01 00 01 03"));
    CHECK(!goldenskep_record_has_user_info(&record));

    begin_record(GOLDENSKEP_MESSAGE_END);
    goldenskep_record_set_dest(&record, lay("05"));
    goldenskep_record_set_response(&record, lay("2A"), 1, GOLDENSKEP_DIAGNOSTIC_SOURCE_PROVIDER, 2);
    goldenskep_record_set_user_info(&record, lay("28 00 28 02 05 00"));
    CHECK(write_record() == GOLDENSKEP_STATUS_DONE);
    CHECK(is_message("64 2D 49 01 05 6B 28 28 26 06 07 00 11 86 05 01 01 01 A0 1B 61 19 A1 03 06 01 2A"
                     "A2 03 02 01 01 A3 05 A2 03 02 01 02 BE 06 28 00 28 02 05 00"));
    CHECK(read_back());
    CHECK(goldenskep_record_dialogue_kind(&record) == GOLDENSKEP_DIALOGUE_RESPONSE);
    CHECK(goldenskep_record_result(&record) == 1);
    CHECK(goldenskep_record_diagnostic_source(&record) == GOLDENSKEP_DIAGNOSTIC_SOURCE_PROVIDER);
    CHECK(goldenskep_record_diagnostic(&record) == 2);
    CHECK(goldenskep_record_has_user_info(&record));
    CHECK(is_string(goldenskep_record_user_info(&record), "28 00 28 02 05 00"));
    goldenskep_record_clear_user_info(&record);
    CHECK(!goldenskep_record_has_user_info(&record));
    CHECK(goldenskep_record_user_info(&record).place == 0 && goldenskep_record_user_info(&record).length == 0);

    begin_record(GOLDENSKEP_MESSAGE_ABORT);
    goldenskep_record_set_dest(&record, lay("05"));
    goldenskep_record_set_dialogue_abort(&record, 1);
    goldenskep_record_set_user_info(&record, goldenskep_span_at(0, 0));
    CHECK(write_record() == GOLDENSKEP_STATUS_DONE);
    CHECK(is_message("67 19 49 01 05 6B 14 28 12 06 07 00 11 86 05 01 01 01 A0 07 64 05 80 01 01 BE 00"));
    CHECK(read_back());
    CHECK(goldenskep_record_dialogue_kind(&record) == GOLDENSKEP_DIALOGUE_ABORT);
    CHECK(goldenskep_record_abort_source(&record) == 1);
    CHECK(goldenskep_record_has_user_info(&record) && goldenskep_record_user_info(&record).length == 0);

    begin_record(GOLDENSKEP_MESSAGE_UNIDIRECTIONAL);
    goldenskep_record_set_unidialogue(&record, lay("2A 03"));
    goldenskep_add_return_result_last(&record, 1);
    CHECK(write_record() == GOLDENSKEP_STATUS_DONE);
    CHECK(is_message("61 1E 6B 15 28 13 06 07 00 11 86 05 01 02 01 A0 08 60 06 A1 04 06 02 2A 03"
                     "6C 05 A2 03 02 01 01"));
    CHECK(read_back());
    CHECK(goldenskep_record_dialogue_kind(&record) == GOLDENSKEP_DIALOGUE_UNI);
    CHECK(is_string(goldenskep_record_name(&record), "2A 03"));

    begin_record(GOLDENSKEP_MESSAGE_END);
    goldenskep_record_set_dest(&record, lay("05"));
    goldenskep_record_set_element(&record, lay("2A"), lay("04 00"));
    CHECK(write_record() == GOLDENSKEP_STATUS_DONE);
    CHECK(is_message("64 0E 49 01 05 6B 09 28 07 06 01 2A A0 02 04 00"));
    CHECK(read_back());
    CHECK(goldenskep_record_dialogue_kind(&record) == GOLDENSKEP_DIALOGUE_ELEMENT);
    CHECK(is_string(goldenskep_record_name(&record), "2A"));
    CHECK(is_string(goldenskep_record_element(&record), "04 00"));

    begin_record(GOLDENSKEP_MESSAGE_END);
    goldenskep_record_set_dest(&record, lay("05"));
    goldenskep_record_set_octets(&record, lay("2A"), lay("FF FF"));
    CHECK(write_record() == GOLDENSKEP_STATUS_DONE);
    CHECK(is_message("64 0E 49 01 05 6B 09 28 07 06 01 2A 81 02 FF FF"));
    CHECK(read_back());
    CHECK(goldenskep_record_dialogue_kind(&record) == GOLDENSKEP_DIALOGUE_OCTETS);
    CHECK(is_string(goldenskep_record_octets(&record), "FF FF"));
    goldenskep_record_clear_dialogue(&record);
    CHECK(goldenskep_record_dialogue_kind(&record) == GOLDENSKEP_DIALOGUE_NONE);
    CHECK(goldenskep_record_name(&record).place == 0 && goldenskep_record_octets(&record).place == 0);
}

/* What the builders leave to the writer to refuse. */
static void check_write_refusals(void)
{
    uint8_t octets[2] = { 1, 2 };
    goldenskep_span span;

    begin_record(GOLDENSKEP_MESSAGE_BEGIN);
    CHECK(write_record() == GOLDENSKEP_STATUS_PARTS);
    goldenskep_record_set_orig(&record, goldenskep_span_at(0, 5));
    CHECK(write_record() == GOLDENSKEP_STATUS_RANGE);
    goldenskep_record_set_orig(&record, goldenskep_span_at(0, 1));
    CHECK(write_record() == GOLDENSKEP_STATUS_PAST_MATERIAL);
    goldenskep_record_set_orig(&record, lay("05"));
    CHECK(write_record() == GOLDENSKEP_STATUS_DONE && length == 5);
    CHECK(goldenskep_write_record(&record, material, used, message, 4) == GOLDENSKEP_STATUS_ROOM);
    goldenskep_add_invoke(&record, 1, 1);
    goldenskep_component_set_parameter(&record, 0, lay("04 02 07"));
    CHECK(write_record() == GOLDENSKEP_STATUS_MALFORMED);
    goldenskep_record_set_kind(&record, GOLDENSKEP_MESSAGE_END);
    CHECK(goldenskep_record_kind(&record) == GOLDENSKEP_MESSAGE_END);
    CHECK(write_record() == GOLDENSKEP_STATUS_PARTS);
    goldenskep_record_clear_orig(&record);
    CHECK(!goldenskep_record_has_orig(&record) && goldenskep_record_orig(&record).length == 0);
    goldenskep_record_set_dest(&record, goldenskep_span_at(0, 1));
    goldenskep_component_clear_parameter(&record, 0);
    CHECK(write_record() == GOLDENSKEP_STATUS_DONE);
    goldenskep_record_clear_dest(&record);
    CHECK(!goldenskep_record_has_dest(&record));

    /* What no longer fits the material is not appended, and refused if used. */
    used = sizeof material - 1;
    span = goldenskep_append(material, sizeof material, &used, octets, 2);
    CHECK(used == sizeof material - 1);
    goldenskep_record_set_dest(&record, span);
    CHECK(write_record() == GOLDENSKEP_STATUS_RANGE);
    goldenskep_record_set_dest(&record, goldenskep_span_at(0, 1));
    goldenskep_component_set_parameter(&record, 0, span);
    CHECK(write_record() == GOLDENSKEP_STATUS_PAST_MATERIAL);
    span = goldenskep_append(material, sizeof material, &used, octets, 1);
    CHECK(used == sizeof material && span.place == sizeof material - 1 && span.length == 1);
    span = goldenskep_append(material, sizeof material, &used, NULL, 0);
    CHECK(used == sizeof material && span.place == sizeof material && span.length == 0);
}

static void check_rules(void)
{
    goldenskep_rule rules[3];
    uint8_t wanted[3 * GOLDENSKEP_RULE_SIZE];
    uint8_t octets[32];
    size_t n;

    memset(rules, 0xEE, sizeof rules);
    goldenskep_rule_set_code(&rules[0], GOLDENSKEP_MESSAGE_BEGIN, 45, 3);
    goldenskep_rule_set_code(&rules[1], GOLDENSKEP_MESSAGE_ANY, -2, 4294967295u);
    goldenskep_rule_set(&rules[2], GOLDENSKEP_MESSAGE_END, 9);
    octets_of("62010000 0000002D 00000003 00010000 FFFFFFFE FFFFFFFF 64000000 00000000 00000009",
              wanted, sizeof wanted);
    CHECK(memcmp(rules, wanted, sizeof wanted) == 0);
    CHECK(goldenskep_rule_kind(&rules[0]) == GOLDENSKEP_MESSAGE_BEGIN);
    CHECK(goldenskep_rule_kind(&rules[1]) == GOLDENSKEP_MESSAGE_ANY);
    CHECK(goldenskep_rule_has_code(&rules[1]) && !goldenskep_rule_has_code(&rules[2]));
    CHECK(goldenskep_rule_code(&rules[0]) == 45 && goldenskep_rule_code(&rules[1]) == -2);
    CHECK(goldenskep_rule_link(&rules[1]) == 4294967295u && goldenskep_rule_link(&rules[2]) == 9);

    n = octets_of("62 13 48 01 05 6C 0E A1 0C 02 01 01 80 01 02 02 01 2D 04 01 07", octets, sizeof octets);
    CHECK(goldenskep_answer_is_done(goldenskep_steer_rules(octets, n, rules, 3)));
    CHECK(goldenskep_answer_link(goldenskep_steer_rules(octets, n, rules, 3)) == 3);
    CHECK(goldenskep_steer_rules(octets, n, rules + 1, 2) == GOLDENSKEP_STATUS_NO_RULE);
    octets[17] = 0xFE;
    CHECK(goldenskep_answer_link(goldenskep_steer_rules(octets, n, rules, 3)) == 4294967295u);
    n = octets_of("64 0A 49 01 05 6C 05 A2 03 02 01 01", octets, sizeof octets);
    CHECK(goldenskep_answer_link(goldenskep_steer_rules(octets, n, rules, 3)) == 9);
    CHECK(goldenskep_steer_rules(octets, n, rules, 2) == GOLDENSKEP_STATUS_NO_RULE);
    CHECK(goldenskep_steer_rules(octets, n, NULL, 0) == GOLDENSKEP_STATUS_NO_RULE);
    /* A rule that is not whole is none. */
    CHECK(goldenskep_steer(octets, n, rules[2].octets, sizeof rules[2] - 1) == GOLDENSKEP_STATUS_NO_RULE);
}

/* Numbers that are no octet, among them some that are one if their upper bits get lost. */
static const long no_octets[] = { -1, -2, -128, 256, 257, 260, 0x162, 0x1A1, 65536, INT_MIN, INT_MAX, LONG_MIN, LONG_MAX };
enum { NO_OCTETS = sizeof no_octets / sizeof no_octets[0] };

/* A number that the layout has no room for is refused by writing. */
static void check_out_of_range(void)
{
    static const long no_ids[] = { -129, 128, 129, 255, 256, 257, -256, INT_MIN, INT_MAX, LONG_MIN, LONG_MAX };
    static const long no_links[] = { -1, 4294967296L, 4294967299L, LONG_MIN, LONG_MAX };
    static const long no_codes[] = { -2147483647L - 2, 2147483648L, 4294967341L, LONG_MIN, LONG_MAX };
    static const uint8_t begin[] = { 0x62, 0x0D, 0x48, 1, 5, 0x6C, 8, 0xA1, 6, 2, 1, 1, 2, 1, 45 };
    goldenskep_rule rule;

    for (int i = 0; i < NO_OCTETS; i++) {
        const long n = no_octets[i];

        begin_record(n);
        CHECK(goldenskep_record_kind(&record) == 255 && write_record() == GOLDENSKEP_STATUS_PARTS);
        goldenskep_record_set_kind(&record, GOLDENSKEP_MESSAGE_ABORT);
        goldenskep_record_set_dest(&record, lay("05"));
        CHECK(write_record() == GOLDENSKEP_STATUS_DONE);
        goldenskep_record_set_kind(&record, n);
        CHECK(goldenskep_record_kind(&record) == 255 && write_record() == GOLDENSKEP_STATUS_PARTS);
        goldenskep_record_set_kind(&record, GOLDENSKEP_MESSAGE_ABORT);

        goldenskep_record_set_cause(&record, n);
        CHECK(goldenskep_record_cause(&record) == 255 && write_record() == GOLDENSKEP_STATUS_RANGE);
        goldenskep_record_set_response(&record, lay("2A"), n, GOLDENSKEP_DIAGNOSTIC_SOURCE_USER, 0);
        CHECK(goldenskep_record_result(&record) == 255 && write_record() == GOLDENSKEP_STATUS_RANGE);
        goldenskep_record_set_response(&record, lay("2A"), 0, n, 0);
        CHECK(goldenskep_record_diagnostic_source(&record) == 255 && write_record() == GOLDENSKEP_STATUS_PARTS);
        goldenskep_record_set_response(&record, lay("2A"), 0, GOLDENSKEP_DIAGNOSTIC_SOURCE_USER, n);
        CHECK(goldenskep_record_diagnostic(&record) == 255 && write_record() == GOLDENSKEP_STATUS_RANGE);
        goldenskep_record_set_dialogue_abort(&record, n);
        CHECK(goldenskep_record_abort_source(&record) == 255 && write_record() == GOLDENSKEP_STATUS_RANGE);

        begin_record(GOLDENSKEP_MESSAGE_UNIDIRECTIONAL);
        CHECK(goldenskep_add_component(&record, n) == 0 && goldenskep_component_kind(&record, 0) == 255);
        goldenskep_component_set_invoke_id(&record, 0, 1);
        CHECK(write_record() == GOLDENSKEP_STATUS_PARTS);
        begin_record(GOLDENSKEP_MESSAGE_UNIDIRECTIONAL);
        CHECK(goldenskep_add_reject(&record, n, 0) == 0 && goldenskep_component_problem_type(&record, 0) == 255);
        CHECK(write_record() == GOLDENSKEP_STATUS_PARTS);
        for (int type = GOLDENSKEP_PROBLEM_TYPE_GENERAL; type <= GOLDENSKEP_PROBLEM_TYPE_RETURN_ERROR; type++) {
            goldenskep_component_set_problem(&record, 0, type, n);
            CHECK(goldenskep_component_problem(&record, 0) == 255 && write_record() == GOLDENSKEP_STATUS_RANGE);
            goldenskep_component_set_problem(&record, 0, type, 0);
            CHECK(write_record() == GOLDENSKEP_STATUS_DONE);
        }

        goldenskep_rule_set(&rule, n, 3);
        CHECK(goldenskep_rule_kind(&rule) == 255);
        CHECK(goldenskep_steer_rules(begin, sizeof begin, &rule, 1) == GOLDENSKEP_STATUS_NO_RULE);
        goldenskep_rule_set_code(&rule, n, 45, 3);
        CHECK(goldenskep_steer_rules(begin, sizeof begin, &rule, 1) == GOLDENSKEP_STATUS_NO_RULE);
    }

    for (size_t i = 0; i < sizeof no_ids / sizeof no_ids[0]; i++) {
        const long id = no_ids[i];

        for (int which = 0; which < 5; which++) {
            begin_record(GOLDENSKEP_MESSAGE_UNIDIRECTIONAL);
            CHECK((which == 0   ? goldenskep_add_invoke(&record, id, 45)
                   : which == 1 ? goldenskep_add_return_result_last(&record, id)
                   : which == 2 ? goldenskep_add_return_result_not_last(&record, id)
                   : which == 3 ? goldenskep_add_return_error(&record, id, 45)
                                : goldenskep_add_reject(&record, GOLDENSKEP_PROBLEM_TYPE_GENERAL, 0)) == 0);
            goldenskep_component_set_invoke_id(&record, 0, id);
            CHECK(!goldenskep_component_has_invoke_id(&record, 0) && goldenskep_component_invoke_id(&record, 0) == 0);
            CHECK(write_record() == GOLDENSKEP_STATUS_PARTS);
            goldenskep_component_set_invoke_id(&record, 0, -128);
            CHECK(write_record() == GOLDENSKEP_STATUS_DONE);
            goldenskep_component_set_linked_id(&record, 0, id);
            CHECK(!goldenskep_component_has_linked_id(&record, 0) && goldenskep_component_linked_id(&record, 0) == 0);
            CHECK(write_record() == GOLDENSKEP_STATUS_PARTS);
            goldenskep_component_set_linked_id(&record, 0, 127);
            CHECK(write_record() == (which == 0 ? GOLDENSKEP_STATUS_DONE : GOLDENSKEP_STATUS_PARTS));
        }
    }

    for (size_t i = 0; i < sizeof no_codes / sizeof no_codes[0]; i++) {
        begin_record(GOLDENSKEP_MESSAGE_UNIDIRECTIONAL);
        CHECK(goldenskep_add_invoke(&record, 1, no_codes[i]) == 0);
        CHECK(goldenskep_component_code_kind(&record, 0) == 255 && goldenskep_component_local_code(&record, 0) == 0);
        CHECK(write_record() == GOLDENSKEP_STATUS_PARTS);
        begin_record(GOLDENSKEP_MESSAGE_UNIDIRECTIONAL);
        CHECK(goldenskep_add_return_error(&record, 1, no_codes[i]) == 0);
        CHECK(write_record() == GOLDENSKEP_STATUS_PARTS);
        goldenskep_component_set_local_code(&record, 0, 45);
        CHECK(write_record() == GOLDENSKEP_STATUS_DONE);
        goldenskep_component_set_local_code(&record, 0, no_codes[i]);
        CHECK(write_record() == GOLDENSKEP_STATUS_PARTS);
        goldenskep_rule_set_code(&rule, GOLDENSKEP_MESSAGE_BEGIN, no_codes[i], 3);
        CHECK(!goldenskep_rule_has_code(&rule));
        CHECK(goldenskep_steer_rules(begin, sizeof begin, &rule, 1) == GOLDENSKEP_STATUS_NO_RULE);
    }
    for (size_t i = 0; i < sizeof no_links / sizeof no_links[0]; i++) {
        goldenskep_rule_set(&rule, GOLDENSKEP_MESSAGE_BEGIN, no_links[i]);
        CHECK(goldenskep_steer_rules(begin, sizeof begin, &rule, 1) == GOLDENSKEP_STATUS_NO_RULE);
        goldenskep_rule_set_code(&rule, GOLDENSKEP_MESSAGE_BEGIN, 45, no_links[i]);
        CHECK(goldenskep_steer_rules(begin, sizeof begin, &rule, 1) == GOLDENSKEP_STATUS_NO_RULE);
    }
    goldenskep_rule_set_code(&rule, GOLDENSKEP_MESSAGE_BEGIN, 45, 3);
    CHECK(goldenskep_answer_link(goldenskep_steer_rules(begin, sizeof begin, &rule, 1)) == 3);
    goldenskep_rule_set(&rule, GOLDENSKEP_MESSAGE_BEGIN, 0);
    CHECK(goldenskep_steer_rules(begin, sizeof begin, &rule, 1) == 0);

    /* Each would be the one octet at 0 if its upper bits got lost. */
    for (int i = 0; i < 3; i++) {
        const size_t more = UINT64_C(1) << (i < 2 ? 32 : 63);
        const goldenskep_span span = goldenskep_span_at(i == 0 ? 0 : more, i == 1 ? 1 : more + 1);

        CHECK(span.place == 0xFFFFFFFFu && span.length == 0xFFFFFFFFu);
        begin_record(GOLDENSKEP_MESSAGE_BEGIN);
        goldenskep_record_set_orig(&record, lay("05"));
        CHECK(write_record() == GOLDENSKEP_STATUS_DONE);
        goldenskep_record_set_orig(&record, span);
        CHECK(write_record() == GOLDENSKEP_STATUS_RANGE);
        goldenskep_record_set_orig(&record, goldenskep_span_at(0, 1));
        goldenskep_record_set_octets(&record, goldenskep_span_at(0, 1), span);
        CHECK(write_record() == GOLDENSKEP_STATUS_PAST_MATERIAL);
    }
}

/* A part that the kind may not have is refused, not left out. */
static void check_parts(void)
{
    const goldenskep_span none = goldenskep_span_at(0, 0);

    begin_record(GOLDENSKEP_MESSAGE_UNIDIRECTIONAL);
    goldenskep_add_reject(&record, GOLDENSKEP_PROBLEM_TYPE_GENERAL, 0);
    CHECK(write_record() == GOLDENSKEP_STATUS_DONE);
    goldenskep_component_set_parameter(&record, 0, lay("04 00"));
    CHECK(write_record() == GOLDENSKEP_STATUS_PARTS);
    goldenskep_component_clear_parameter(&record, 0);
    goldenskep_component_set_linked_id(&record, 0, 2);
    CHECK(write_record() == GOLDENSKEP_STATUS_PARTS);
    goldenskep_component_clear_linked_id(&record, 0);
    CHECK(write_record() == GOLDENSKEP_STATUS_DONE);
    goldenskep_component_set_local_code(&record, 0, 45);
    CHECK(write_record() == GOLDENSKEP_STATUS_PARTS);

    /* The examples of docs/LAYOUT.md. */
    begin_record(GOLDENSKEP_MESSAGE_BEGIN);
    goldenskep_record_set_orig(&record, lay("05"));
    goldenskep_add_reject(&record, GOLDENSKEP_PROBLEM_TYPE_GENERAL, 0);
    octets_of("A401010102800000 0000002D 00000000 00000012 00000003", record.octets + 44, 24);
    CHECK(write_record() == GOLDENSKEP_STATUS_PARTS);
    octets_of("A401010002800100", record.octets + 44, 8);
    CHECK(write_record() == GOLDENSKEP_STATUS_PARTS);
    octets_of("A401010002800000", record.octets + 44, 8);
    CHECK(write_record() == GOLDENSKEP_STATUS_DONE);
    CHECK(is_message("62 0D 48 01 05 6C 08 A4 06 02 01 01 80 01 00"));
    record.octets[40] = 1;
    CHECK(write_record() == GOLDENSKEP_STATUS_PARTS);

    for (int which = 0; which < 3; which++) {
        begin_record(GOLDENSKEP_MESSAGE_UNIDIRECTIONAL);
        if (which == 0)
            goldenskep_add_return_error(&record, 1, 45);
        else if (which == 1)
            goldenskep_add_return_result_last(&record, 1);
        else
            goldenskep_add_return_result_not_last(&record, 1);
        CHECK(write_record() == GOLDENSKEP_STATUS_DONE);
        goldenskep_component_set_linked_id(&record, 0, 2);
        CHECK(write_record() == GOLDENSKEP_STATUS_PARTS);
        goldenskep_component_clear_linked_id(&record, 0);
        goldenskep_component_set_null_invoke_id(&record, 0);
        CHECK(write_record() == GOLDENSKEP_STATUS_PARTS);
        goldenskep_component_set_invoke_id(&record, 0, 1);
        goldenskep_component_set_problem(&record, 0, GOLDENSKEP_PROBLEM_TYPE_GENERAL, 0);
        CHECK(write_record() == GOLDENSKEP_STATUS_PARTS);
    }

    begin_record(GOLDENSKEP_MESSAGE_ABORT);
    goldenskep_record_set_dest(&record, lay("05"));
    goldenskep_record_set_user_info(&record, none);
    CHECK(write_record() == GOLDENSKEP_STATUS_PARTS);
    goldenskep_record_set_cause(&record, GOLDENSKEP_CAUSE_RESOURCE_LIMITATION);
    CHECK(write_record() == GOLDENSKEP_STATUS_DONE);
    goldenskep_record_set_user_info(&record, none);
    CHECK(write_record() == GOLDENSKEP_STATUS_PARTS);
    goldenskep_record_set_octets(&record, lay("2A"), lay("FF"));
    CHECK(write_record() == GOLDENSKEP_STATUS_DONE);
    goldenskep_record_set_user_info(&record, none);
    CHECK(write_record() == GOLDENSKEP_STATUS_PARTS);
    goldenskep_record_set_element(&record, lay("2A"), lay("04 00"));
    CHECK(write_record() == GOLDENSKEP_STATUS_DONE);
    goldenskep_record_set_user_info(&record, lay("28 00"));
    CHECK(write_record() == GOLDENSKEP_STATUS_PARTS);
    goldenskep_record_set_dialogue_abort(&record, GOLDENSKEP_ABORT_SOURCE_USER);
    goldenskep_record_set_user_info(&record, none);
    CHECK(write_record() == GOLDENSKEP_STATUS_DONE);
    goldenskep_record_set_kind(&record, GOLDENSKEP_MESSAGE_END);
    goldenskep_record_set_cause(&record, GOLDENSKEP_CAUSE_RESOURCE_LIMITATION);
    CHECK(write_record() == GOLDENSKEP_STATUS_PARTS);
}

/* A unitdata: what the answer tells of it, and one written back. */
static void check_unitdata(void)
{
    uint8_t octets[GOLDENSKEP_UNITDATA_SIZE], out[GOLDENSKEP_UNITDATA_SIZE + 1];
    uint64_t answer;
    size_t n;

    /* Every field at its largest, and all others 0. */
    CHECK(goldenskep_unitdata_called(UINT64_C(0x1FF) << 8).place == 511);
    CHECK(goldenskep_unitdata_called(UINT64_C(0x1FF) << 8).length == 0);
    CHECK(goldenskep_unitdata_called(UINT64_C(0xFF) << 17).length == 255);
    CHECK(goldenskep_unitdata_calling(UINT64_C(0x1FF) << 25).place == 511);
    CHECK(goldenskep_unitdata_calling(UINT64_C(0xFF) << 34).length == 255);
    CHECK(goldenskep_unitdata_calling(~(UINT64_C(0x1FFFF) << 25)).place == 0);
    CHECK(goldenskep_unitdata_data(UINT64_C(0x1FF) << 42).place == 511);
    CHECK(goldenskep_unitdata_data(UINT64_C(0xFF) << 51).length == 255);
    CHECK(goldenskep_unitdata_data(~(UINT64_C(0x1FFFF) << 42)).length == 0);

    /* calling address first, a gap, called address, data, an octet behind */
    n = octets_of("09 81 06 02 06 01 BB FF 01 AA 00 FF", octets, sizeof octets);
    answer = goldenskep_unitdata_read(octets, n);
    CHECK(goldenskep_answer_is_done(answer));
    CHECK(goldenskep_unitdata_class(octets) == 0x81);
    CHECK(goldenskep_unitdata_called(answer).place == 9 && goldenskep_unitdata_called(answer).length == 1);
    CHECK(goldenskep_unitdata_calling(answer).place == 6 && goldenskep_unitdata_calling(answer).length == 1);
    CHECK(goldenskep_unitdata_data(answer).place == 11 && goldenskep_unitdata_data(answer).length == 0);
    memset(out, 0xEE, sizeof out);
    answer = goldenskep_unitdata_write_back(octets, answer, octets, 2, out, sizeof out);
    CHECK(goldenskep_answer_is_done(answer) && goldenskep_answer_length(answer) == 12);
    n = octets_of("09 81 03 04 05 01 BB 01 AA 02 09 81", octets, sizeof octets);
    CHECK(memcmp(out, octets, n) == 0 && out[n] == 0xEE);

    /* the longest, and what is refused */
    memset(octets, 0x5A, sizeof octets);
    answer = goldenskep_unitdata_write(0xFF, octets, 251, octets, 1, octets, 255, out, sizeof out);
    CHECK(goldenskep_answer_length(answer) == GOLDENSKEP_UNITDATA_SIZE && out[GOLDENSKEP_UNITDATA_SIZE] == 0xEE);
    answer = goldenskep_unitdata_read(out, GOLDENSKEP_UNITDATA_SIZE);
    CHECK(goldenskep_unitdata_called(answer).place == 6 && goldenskep_unitdata_called(answer).length == 251);
    CHECK(goldenskep_unitdata_calling(answer).place == 258 && goldenskep_unitdata_calling(answer).length == 1);
    CHECK(goldenskep_unitdata_data(answer).place == 260 && goldenskep_unitdata_data(answer).length == 255);
    CHECK(goldenskep_unitdata_write(0, octets, 1, octets, 1, NULL, 0, out, 9) == GOLDENSKEP_STATUS_ROOM);
    CHECK(goldenskep_unitdata_write(0, octets, 252, octets, 1, NULL, 0, out, 9) == GOLDENSKEP_STATUS_UNITDATA_RANGE);
    CHECK(goldenskep_unitdata_write(0, NULL, 0, NULL, 0, NULL, 0, NULL, 0) == GOLDENSKEP_STATUS_UNITDATA_RANGE);
    CHECK(goldenskep_unitdata_read(NULL, 0) == GOLDENSKEP_STATUS_UNITDATA_TYPE);
    n = octets_of("09 00 00 00 FF", octets, sizeof octets);
    CHECK(goldenskep_unitdata_read(octets, n) == GOLDENSKEP_STATUS_UNITDATA_PAST_END);
    n = octets_of("09 00 03 02 02 00 00", octets, sizeof octets);
    CHECK(goldenskep_unitdata_read(octets, n) == GOLDENSKEP_STATUS_UNITDATA_OVERLAP);
    n = octets_of("09 00 03 03 04 00 01 BB 00", octets, sizeof octets);
    CHECK(goldenskep_unitdata_read(octets, n) == GOLDENSKEP_STATUS_UNITDATA_ADDRESS);

    /* addresses of 130 octets each are read, but not written back */
    memset(octets, 0x5A, sizeof octets);
    octets_of("09 00 04 86 01 00 82", octets, sizeof octets);
    octets[137] = 130;
    answer = goldenskep_unitdata_read(octets, 268);
    CHECK(goldenskep_answer_is_done(answer));
    CHECK(goldenskep_unitdata_called(answer).length == 130 && goldenskep_unitdata_calling(answer).place == 138);
    CHECK(goldenskep_unitdata_write_back(octets, answer, NULL, 0, out, sizeof out) == GOLDENSKEP_STATUS_UNITDATA_RANGE);
    CHECK(!goldenskep_answer_is_unreadable(GOLDENSKEP_STATUS_UNITDATA_TYPE));
}

/* The words of the values from `from` on: known for so many, none like another. */
static void check_known(const char *(*words)(int), int from, int count, const char *unknown)
{
    CHECK(strcmp(words(from - 1), unknown) == 0 && strcmp(words(from + count), unknown) == 0);
    CHECK(strcmp(words(-1), unknown) == 0 && strcmp(words(255), unknown) == 0);
    for (int i = from; i < from + count; i++) {
        CHECK(strcmp(words(i), unknown) != 0);
        for (int j = from; j < i; j++)
            CHECK(strcmp(words(i), words(j)) != 0);
    }
}

static void check_words(void)
{
    int known = 0;

    check_known(goldenskep_cause_words, 0, 5, "unknown cause");
    check_known(goldenskep_result_words, 0, 2, "unknown result");
    check_known(goldenskep_diagnostic_source_words, 0xA1, 2, "unknown diagnostic source");
    check_known(goldenskep_user_diagnostic_words, 0, 3, "unknown diagnostic");
    check_known(goldenskep_provider_diagnostic_words, 0, 3, "unknown diagnostic");
    check_known(goldenskep_abort_source_words, 0, 2, "unknown abort source");
    check_known(goldenskep_event_words, 1, 9, "unknown event");
    check_known(goldenskep_state_words, 0, 4, "unknown state");
    check_known(goldenskep_deed_words, 1, 3, "unknown deed");
    check_known(goldenskep_dialogue_kind_words, 0, 8, "unknown dialogue");
    check_known(goldenskep_problem_type_words, 0x80, 4, "unknown problem type");
    check_known(goldenskep_general_problem_words, 0, 3, "unknown problem");
    check_known(goldenskep_invoke_problem_words, 0, 8, "unknown problem");
    check_known(goldenskep_return_result_problem_words, 0, 3, "unknown problem");
    check_known(goldenskep_return_error_problem_words, 0, 5, "unknown problem");
    for (int i = 0; i < 256; i++) {
        known += strcmp(goldenskep_status_words(i), "unknown status") != 0;
        for (int j = 0; j < i; j++)
            CHECK(strcmp(goldenskep_status_words(i), goldenskep_status_words(j)) != 0 ||
                  strcmp(goldenskep_status_words(i), "unknown status") == 0);
        CHECK((strcmp(goldenskep_message_kind_words(i), "unknown message") != 0) ==
              (i == 0 || i == 0x61 || i == 0x62 || i == 0x64 || i == 0x65 || i == 0x67));
        CHECK((strcmp(goldenskep_component_kind_words(i), "unknown component") != 0) ==
              (i == 0xA1 || i == 0xA2 || i == 0xA3 || i == 0xA4 || i == 0xA7));
        CHECK((strcmp(goldenskep_code_kind_words(i), "unknown code") != 0) == (i == 0 || i == 2 || i == 6));
    }
    CHECK(known == 31);
    CHECK(strcmp(goldenskep_status_words(10), "unknown status") == 0);
    CHECK(strcmp(goldenskep_message_kind_words(0x65), "Continue") == 0);
    CHECK(strcmp(goldenskep_component_kind_words(0xA7), "Return Result Not Last") == 0);
    CHECK(strcmp(goldenskep_problem_words(0x80, 2), "badly structured component") == 0);
    CHECK(strcmp(goldenskep_problem_words(0x81, 4), "initiating release") == 0);
    CHECK(strcmp(goldenskep_problem_words(0x82, 1), "return result unexpected") == 0);
    CHECK(strcmp(goldenskep_problem_words(0x83, 4), "mistyped parameter") == 0);
    CHECK(strcmp(goldenskep_problem_words(0x84, 0), "unknown problem") == 0);
    CHECK(strcmp(goldenskep_diagnostic_words(0xA1, 2), "application context name not supported") == 0);
    CHECK(strcmp(goldenskep_diagnostic_words(0xA2, 2), "no common dialogue portion") == 0);
    CHECK(strcmp(goldenskep_diagnostic_words(0, 2), "unknown diagnostic") == 0);
}

/* Is the span in the table just these octets? */
static int is_id(const goldenskep_table *table, goldenskep_span span, const char *hex)
{
    uint8_t octets[8];
    size_t n = octets_of(hex, octets, sizeof octets);

    return span.length == n && span.place + n <= GOLDENSKEP_TABLE_SIZE && memcmp(table->octets + span.place, octets, n) == 0;
}

static goldenskep_table table;

/* An event without a partner's ID. */
static uint64_t step(long event, const uint8_t *ours, size_t n)
{
    return goldenskep_table_step(&table, event, ours, n, NULL, 0);
}

static void check_table(void)
{
    static const uint8_t ours[5] = { 0x41, 0, 0, 0x42, 0x43 }, partner[4] = { 0x50, 0x51, 0x52, 0x53 };
    uint64_t answer;

    CHECK(sizeof table == GOLDENSKEP_TABLE_SIZE && GOLDENSKEP_TABLE_SIZE == 12 * GOLDENSKEP_MAX_TRANSACTIONS);
    memset(&table, 0xEE, sizeof table);
    goldenskep_table_init(&table);
    CHECK(goldenskep_table_count(&table) == 0);
    CHECK(goldenskep_entry_state(&table, 0) == GOLDENSKEP_STATE_IDLE);
    answer = step(GOLDENSKEP_EVENT_BEGIN_SENT, ours, 1);
    CHECK(goldenskep_answer_is_done(answer) && goldenskep_answer_deed(answer) == GOLDENSKEP_DEED_OPENED);
    CHECK(goldenskep_answer_entry(answer) == 0);
    CHECK(goldenskep_entry_state(&table, 0) == GOLDENSKEP_STATE_INITIATION_SENT);
    CHECK(is_id(&table, goldenskep_entry_ours(&table, 0), "41"));
    CHECK(!goldenskep_entry_has_partner(&table, 0) && goldenskep_entry_partner(&table, 0).length == 0);
    answer = goldenskep_table_step(&table, GOLDENSKEP_EVENT_BEGIN_RECEIVED, ours, 4, partner, 4);
    CHECK(goldenskep_answer_is_done(answer) && goldenskep_answer_entry(answer) == 1);
    CHECK(goldenskep_entry_state(&table, 1) == GOLDENSKEP_STATE_INITIATION_RECEIVED);
    CHECK(is_id(&table, goldenskep_entry_ours(&table, 1), "41 00 00 42"));
    CHECK(goldenskep_entry_has_partner(&table, 1));
    CHECK(is_id(&table, goldenskep_entry_partner(&table, 1), "50 51 52 53"));
    CHECK(goldenskep_table_count(&table) == 2);
    answer = goldenskep_table_step(&table, GOLDENSKEP_EVENT_CONTINUE_RECEIVED, ours, 1, partner, 2);
    CHECK(goldenskep_answer_deed(answer) == GOLDENSKEP_DEED_KEPT && goldenskep_answer_entry(answer) == 0);
    CHECK(goldenskep_entry_state(&table, 0) == GOLDENSKEP_STATE_ACTIVE);
    CHECK(is_id(&table, goldenskep_entry_partner(&table, 0), "50 51"));
    CHECK(step(GOLDENSKEP_EVENT_END_SENT, ours, 5) == GOLDENSKEP_STATUS_ID);
    CHECK(step(GOLDENSKEP_EVENT_END_SENT, ours, 2) == GOLDENSKEP_STATUS_ID_UNKNOWN);
    CHECK(step(GOLDENSKEP_EVENT_END_RECEIVED, ours, 4) == GOLDENSKEP_STATUS_STATE);
    /* numbers that are no octet are no event, and not the octet that is left of them */
    CHECK(step(256 + GOLDENSKEP_EVENT_LOCAL_CLOSE, ours, 1) == GOLDENSKEP_STATUS_STATE);
    CHECK(step(-1, ours, 1) == GOLDENSKEP_STATUS_STATE);
    answer = step(GOLDENSKEP_EVENT_LOCAL_CLOSE, ours, 1);
    CHECK(goldenskep_answer_deed(answer) == GOLDENSKEP_DEED_CLOSED && goldenskep_answer_entry(answer) == 0);
    CHECK(goldenskep_table_count(&table) == 1 && goldenskep_entry_state(&table, 0) == GOLDENSKEP_STATE_IDLE);
    for (uint8_t id = 1; id < GOLDENSKEP_MAX_TRANSACTIONS; id++) {
        answer = step(GOLDENSKEP_EVENT_BEGIN_SENT, &id, 1);
        CHECK(goldenskep_answer_is_done(answer) && goldenskep_answer_entry(answer) == (id == 1 ? 0 : id));
    }
    CHECK(goldenskep_table_count(&table) == 64);
    CHECK(step(GOLDENSKEP_EVENT_BEGIN_SENT, partner, 4) == GOLDENSKEP_STATUS_TABLE_FULL);
    CHECK(goldenskep_transaction(table.octets, GOLDENSKEP_TABLE_SIZE - 1, GOLDENSKEP_EVENT_END_SENT, ours, 4, NULL, 0) ==
          GOLDENSKEP_STATUS_ROOM);
    /* entries that are none */
    CHECK(goldenskep_entry_state(&table, 64) == 0 && goldenskep_entry_state(&table, -1) == 0);
    CHECK(goldenskep_entry_ours(&table, 64).length == 0 && goldenskep_entry_ours(&table, LONG_MAX).place == 0);
    CHECK(!goldenskep_entry_has_partner(&table, LONG_MIN) && goldenskep_entry_partner(&table, -1).length == 0);
    /* octets that no event leaves */
    memset(&table, 0xFF, sizeof table);
    CHECK(goldenskep_table_count(&table) == 0 && goldenskep_entry_ours(&table, 3).length == 0);
}

int main(void)
{
    printf("goldenskep.h in %s\n", LANGUAGE);
    check_layout();
    check_version();
    check_answer();
    check_refusals();
    check_linked_invoke();
    check_components();
    check_dialogues();
    check_write_refusals();
    check_out_of_range();
    check_parts();
    check_rules();
    check_unitdata();
    check_words();
    check_table();
    return checks_end();
}
