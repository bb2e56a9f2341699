/* The worked examples of the rules, through the C functions: what each is listed
 * as, written back as, and steered to. */
#include "goldenskep.h"
#include "check.h"

enum { NONE = -1 };

struct specimen {
    const char *message;
    const char *listing;
    const char *written;          /* NULL: refused */
    long link;                    /* by the two rules below */
};

static const struct specimen specimens[] = {
    { "62 03 48 01 05", "begin 5 05 - none 0\n", "62 03 48 01 05", 9 },
    { "64 0A 49 01 05 6C 05 A2 03 02 01 01", "end 12 - 05 none 1\n0 last 1 - - -\n",
      "64 0A 49 01 05 6C 05 A2 03 02 01 01", 9 },
    { "64 80 49 01 05 6C 80 A2 80 02 01 01 00 00 00 00 00 00", "end 18 - 05 none 1\n0 last 1 - - -\n",
      "64 0A 49 01 05 6C 05 A2 03 02 01 01", 9 },
    { "62 10 48 01 05 6C 0B A1 09 02 01 01 02 01 2D 04 01 07",
      "begin 18 05 - none 1\n0 invoke 1 - local:45 15+3\n",
      "62 10 48 01 05 6C 0B A1 09 02 01 01 02 01 2D 04 01 07", 3 },
    { "62 13 48 01 05 6C 0E A1 0C 02 01 01 80 01 02 02 01 2D 04 01 07",
      "begin 21 05 - none 1\n0 invoke 1 2 local:45 18+3\n",
      "62 13 48 01 05 6C 0E A1 0C 02 01 01 80 01 02 02 01 2D 04 01 07", 3 },
    { "", "refused 1 0 cause 2\n", NULL, NONE },
    { "63 00", "refused 8 0 cause 0\n", NULL, NONE },
    { "62 00", "refused 14 2 cause 3\n", NULL, NONE },
    { "62 02 48 00", "refused 11 2 cause 3\n", NULL, NONE },
    { "62 04 48 81 01 05", "refused 3 2 cause 2\n", NULL, NONE },
    { "62 03 48 02 05", "refused 4 2 cause 2\n", NULL, NONE },
    { "62 05 48 01 05 6C 00", "refused 14 7 cause 3\n", NULL, NONE },
    { "62 07 48 01 05 6C 02 A5 00", "refused 13 7 problem 0 component 0\n", NULL, NONE },
    { "62 03 48 01 05 00", "refused 9 5 cause 2\n", NULL, NONE },
    { "67 06 49 01 05 4A 01 04", "abort 8 - 05 cause:4 0\n", "67 06 49 01 05 4A 01 04", 9 },
    { "67 06 49 01 05 4A 01 05", "refused 11 5 cause 3\n", NULL, NONE },
    { "62 23 48 01 05 6B 1E 28 1C 06 07 00 11 86 05 01 01 01 A0 11 60 0F 80 02 07 80 A1 09 06 07 04 00 00 01 00 01 03",
      "begin 37 05 - request 0\n",
      "62 1F 48 01 05 6B 1A 28 18 06 07 00 11 86 05 01 01 01 A0 0D 60 0B A1 09 06 07 04 00 00 01 00 01 03", 9 },
    { "62 0D 48 01 05 6C 08 A1 06 02 01 01 02 01 80", "begin 15 05 - none 1\n0 invoke 1 - local:-128 -\n",
      "62 0D 48 01 05 6C 08 A1 06 02 01 01 02 01 80", 9 },
    { "62 0E 48 01 05 6C 09 A1 07 02 01 01 02 02 00 80", "begin 16 05 - none 1\n0 invoke 1 - local:128 -\n",
      "62 0E 48 01 05 6C 09 A1 07 02 01 01 02 02 00 80", 9 },
    { "62 0E 48 01 05 6C 09 A1 07 02 01 01 02 02 00 7F", "refused 11 12 problem 1 component 0\n", NULL, NONE },
};

/* Unknown types of message: how long the originating ID is that the refusal tells, and where it stands. */
static const struct unknown {
    const char *message;
    size_t length, place;
} unknowns[] = {
    { "63 03 48 01 05", 1, 4 },
    { "63 80 48 04 05 06 07 08", 4, 4 },
    { "63 03 48 01 05 FF FF", 1, 4 },
    { "A1 06 48 01 05 FF FF 00", 1, 4 },
    { "63 00", 0, 0 },
    { "43 03 48 01 05", 0, 0 },
    { "20 03 48 01 05", 0, 0 },
    { "7F 21 03 48 01 05", 0, 0 },
    { "63 03 48 02 05", 0, 0 },
    { "63 04 48 81 01 05", 0, 0 },
    { "63 06 49 01 09 48 01 05", 0, 0 },
};

static goldenskep_rule rules[2];

static void check_unknown(const struct unknown *the)
{
    uint8_t message[16];
    goldenskep_record record;
    size_t n = octets_of(the->message, message, sizeof message);
    uint64_t answer = goldenskep_read_record(message, n, &record);
    goldenskep_span orig = goldenskep_answer_orig(answer);

    CHECK(goldenskep_answer_status(answer) == GOLDENSKEP_STATUS_MESSAGE_TAG && goldenskep_answer_place(answer) == 0);
    CHECK(!goldenskep_answer_is_reject(answer) && goldenskep_answer_cause(answer) == 0);
    CHECK(goldenskep_answer_has_orig(answer) == (the->length != 0));
    CHECK(orig.length == the->length && orig.place == the->place);
    CHECK(goldenskep_steer_rules(message, n, rules, 2) == answer);
}

static void check_specimen(const struct specimen *the)
{
    uint8_t message[64], wanted[64], out[64], listing[GOLDENSKEP_LISTING_SIZE];
    goldenskep_record record;
    size_t n = octets_of(the->message, message, sizeof message), size, text = strlen(the->listing);
    uint64_t answer, read;

    answer = goldenskep_list(message, n, listing, sizeof listing);
    CHECK(goldenskep_answer_is_done(answer) && goldenskep_answer_length(answer) == text);
    CHECK(memcmp(listing, the->listing, text) == 0);
    CHECK(goldenskep_list(message, n, listing, text) == answer);
    CHECK(goldenskep_list(message, n, listing, text - 1) == GOLDENSKEP_STATUS_ROOM);

    read = goldenskep_read_record(message, n, &record);
    answer = goldenskep_steer_rules(message, n, rules, 2);
    if (the->written == NULL) {
        CHECK(goldenskep_answer_is_unreadable(read));
        CHECK(answer == read);
        return;
    }
    CHECK(read == GOLDENSKEP_STATUS_DONE);
    CHECK(goldenskep_answer_is_done(answer) && goldenskep_answer_link(answer) == (uint32_t)the->link);

    size = octets_of(the->written, wanted, sizeof wanted);
    answer = goldenskep_write_record(&record, message, n, out, size);
    CHECK(goldenskep_answer_is_done(answer) && goldenskep_answer_length(answer) == size);
    CHECK(memcmp(out, wanted, size) == 0);
    CHECK(goldenskep_write_record(&record, message, n, out, size - 1) == GOLDENSKEP_STATUS_ROOM);
}

int main(void)
{
    goldenskep_rule_set_code(&rules[0], GOLDENSKEP_MESSAGE_BEGIN, 45, 3);
    goldenskep_rule_set(&rules[1], GOLDENSKEP_MESSAGE_ANY, 9);
    for (size_t i = 0; i < sizeof specimens / sizeof specimens[0]; i++) {
        unsigned long failed = checks_failed;

        check_specimen(&specimens[i]);
        if (checks_failed != failed)
            printf("  in %s\n", specimens[i].message);
    }
    for (size_t i = 0; i < sizeof unknowns / sizeof unknowns[0]; i++) {
        unsigned long failed = checks_failed;

        check_unknown(&unknowns[i]);
        if (checks_failed != failed)
            printf("  in %s\n", unknowns[i].message);
    }
    return checks_end();
}
