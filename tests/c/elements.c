/* What is one element, and what is not: each string as the parameter of a message
 * that is read, and of a record that is written. */
#include "goldenskep.h"
#include "check.h"

struct string_and_fault {
    const char *element;
    int fault;                    /* of reading; 0: it is one element */
};

/* In the message the parameter is followed by nothing: "cut off" is by the end of
 * the component, and a second element is one too many. */
static const struct string_and_fault strings[] = {
    { "04 00", 0 },
    { "04 01 07", 0 },
    { "05 00", 0 },
    { "30 00", 0 },
    { "30 80 00 00", 0 },
    { "24 04 04 02 05 06", 0 },
    { "30 80 04 02 00 00 00 00", 0 },
    { "30 06 30 80 04 00 00 00", 0 },
    { "30 80 30 80 00 00 00 00", 0 },
    { "9F 1F 00", 0 },
    { "1F 1F 00", 0 },
    { "BF 81 00 80 00 00", 0 },
    { "DF FF FF 7F 01 00", 0 },
    { "1F 81 80 00 00", 0 },
    { "04", 1 },
    { "04 81", 1 },
    { "04 82 00", 1 },
    { "04 84 01 00 00", 1 },
    { "1F", 1 },
    { "1F 81", 1 },
    { "1F 81 81", 1 },
    { "1F 1F", 1 },
    { "30 80", 1 },
    { "30 80 00", 1 },
    { "30 80 04 00", 1 },
    { "30 80 30 80 00 00", 1 },
    { "30 01 04", 1 },
    { "1F 1E 00", 2 },
    { "1F 00", 2 },
    { "1F 80", 2 },
    { "1F 80 1F 00", 2 },
    { "1F 81 81 81", 2 },
    { "3F 81 81 81 00 00", 2 },
    { "04 80 00 00", 3 },
    { "04 FF", 3 },
    { "30 FF 00 00", 3 },
    { "04 81 00", 3 },
    { "04 81 01 07", 3 },
    { "04 81 7F", 3 },
    { "04 82 00 80", 3 },
    { "30 03 04 81 00", 3 },
    { "1F 1F 81 00", 3 },
    { "04 01", 4 },
    { "04 02 07", 4 },
    { "04 7F", 4 },
    { "04 81 80", 4 },
    { "04 82 01 00", 4 },
    { "04 84 01 00 00 00", 4 },
    { "04 88 01 00 00 00 00 00 00 00", 4 },
    { "04 88 FF FF FF FF FF FF FF FF", 4 },
    { "04 89 01 00 00 00 00 00 00 00 00", 4 },
    { "30 03 04 02 07", 4 },
    { "30 80 30 03 00 00", 4 },
    { "00 00", 6 },
    { "20 00", 6 },
    { "20 80 00 00", 6 },
    { "30 02 00 00", 6 },
    { "30 80 00 05", 6 },
    { "30 80 20 00 00 00", 6 },
    { "30 80 04 00 00 05", 6 },
    { "04 00 04 00", 16 },
    { "04 00 04", 16 },
    { "30 80 00 00 05 00", 16 },
};

enum { INVOKE_HEAD = 15, RESULT_HEAD = 17 };

static uint8_t element[256], message[300], out[300];
static goldenskep_record record;

/* Reads and writes a message around the n octets of the element, as the parameter
 * of an Invoke (level 4) or of a result (level 5). */
static void check_element(size_t n, int fault, int in_result)
{
    static const uint8_t invoke[INVOKE_HEAD] = { 0x62, 0, 0x48, 1, 5, 0x6C, 0, 0xA1, 0, 2, 1, 1, 2, 1, 45 };
    static const uint8_t result[RESULT_HEAD] = { 0x62, 0, 0x48, 1, 5, 0x6C, 0, 0xA2, 0, 2, 1, 1, 0x30, 0, 2, 1, 45 };
    const size_t head = in_result ? RESULT_HEAD : INVOKE_HEAD;
    uint64_t answer;
    size_t used = 1;
    int k;

    memcpy(message, in_result ? result : invoke, head);
    message[1] = (uint8_t)(head - 2 + n);
    message[6] = (uint8_t)(head - 7 + n);
    message[8] = (uint8_t)(head - 9 + n);
    if (in_result)
        message[13] = (uint8_t)(head - 14 + n);
    memcpy(message + head, element, n);
    answer = goldenskep_read_record(message, head + n, &record);
    CHECK(goldenskep_answer_status(answer) == fault);
    if (fault == 0) {
        CHECK(goldenskep_component_parameter(&record, 0).place == head);
        CHECK(goldenskep_component_parameter(&record, 0).length == n);
    } else {
        CHECK(goldenskep_answer_is_reject(answer) && goldenskep_answer_invoke_id(answer) == 1);
        CHECK(goldenskep_answer_problem(answer) == (fault == 16 ? 1 : 2));
    }

    /* The material is the ID, then the element, and no octet more. */
    goldenskep_record_init(&record, GOLDENSKEP_MESSAGE_BEGIN);
    goldenskep_record_set_orig(&record, goldenskep_span_at(0, 1));
    k = in_result ? goldenskep_add_return_result_last(&record, 1) : goldenskep_add_invoke(&record, 1, 45);
    goldenskep_component_set_local_code(&record, k, 45);
    message[0] = 5;
    goldenskep_component_set_parameter(&record, k, goldenskep_append(message, sizeof message, &used, element, n));
    answer = goldenskep_write_record(&record, message, used, out, sizeof out);
    CHECK(goldenskep_answer_status(answer) == (fault == 0 ? GOLDENSKEP_STATUS_DONE : GOLDENSKEP_STATUS_MALFORMED));
    if (fault == 0) {
        CHECK(goldenskep_answer_length(answer) == head + n);
        CHECK(memcmp(out + head, element, n) == 0);
    }
}

/* The innermost of `count` elements, one in the other. */
static size_t nest(size_t count, int open)
{
    size_t n = 0;

    for (size_t i = 1; i < count; i++) {
        element[n++] = 0x30;
        element[n++] = open ? 0x80 : (uint8_t)(2 * (count - i));
    }
    element[n++] = 0x04;
    element[n++] = 0x00;
    for (size_t i = 1; open && i < count; i++) {
        element[n++] = 0x00;
        element[n++] = 0x00;
    }
    return n;
}

int main(void)
{
    for (size_t i = 0; i < sizeof strings / sizeof strings[0]; i++) {
        unsigned long failed = checks_failed;
        size_t n = octets_of(strings[i].element, element, sizeof element);

        check_element(n, strings[i].fault, 0);
        check_element(n, strings[i].fault, 1);
        if (checks_failed != failed)
            printf("  in %s\n", strings[i].element);
    }
    /* Level 16 is the deepest: 13 elements from level 4 on, 12 from level 5 on. */
    for (int open = 0; open < 2; open++) {
        check_element(nest(13, open), 0, 0);
        check_element(nest(14, open), 5, 0);
        check_element(nest(12, open), 0, 1);
        check_element(nest(13, open), 5, 1);
    }
    return checks_end();
}
