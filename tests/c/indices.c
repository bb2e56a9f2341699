/* Components that are none: an index that is no component of a record sets
 * nothing and reads as 0. The record ends at a guard page, or begins behind one. */
#include "guarded.h"
#include "goldenskep.h"
#include "check.h"

#include <limits.h>

static goldenskep_record *record;

/* Every call that sets something of component k. */
static void set_all(long k)
{
    const goldenskep_span span = goldenskep_span_at(0x01020304, 0x05060708);

    goldenskep_component_set_invoke_id(record, k, 5);
    goldenskep_component_set_invoke_id(record, k, 500);
    goldenskep_component_set_null_invoke_id(record, k);
    goldenskep_component_set_linked_id(record, k, 6);
    goldenskep_component_set_linked_id(record, k, 600);
    goldenskep_component_clear_linked_id(record, k);
    goldenskep_component_set_local_code(record, k, 45);
    goldenskep_component_set_local_code(record, k, LONG_MAX);
    goldenskep_component_set_global_code(record, k, span);
    goldenskep_component_clear_code(record, k);
    goldenskep_component_set_parameter(record, k, span);
    goldenskep_component_clear_parameter(record, k);
    goldenskep_component_set_problem(record, k, GOLDENSKEP_PROBLEM_TYPE_INVOKE, 7);
}

/* Does all of component k read as 0? */
static int reads_as_0(long k)
{
    return goldenskep_component_kind(record, k) == 0 && !goldenskep_component_has_invoke_id(record, k) &&
           goldenskep_component_invoke_id(record, k) == 0 && !goldenskep_component_has_linked_id(record, k) &&
           goldenskep_component_linked_id(record, k) == 0 && goldenskep_component_code_kind(record, k) == 0 &&
           goldenskep_component_local_code(record, k) == 0 && goldenskep_component_global_code(record, k).place == 0 &&
           goldenskep_component_global_code(record, k).length == 0 && !goldenskep_component_has_parameter(record, k) &&
           goldenskep_component_parameter(record, k).place == 0 &&
           goldenskep_component_parameter(record, k).length == 0 && goldenskep_component_problem_type(record, k) == 0 &&
           goldenskep_component_problem(record, k) == 0;
}

/* An index of each sort against a record whose octets say this count. */
static void check_count(uint32_t count)
{
    static const long indices[] = { -1, -2, -16, 16, 17, 18, 255, 256, 65536, 4294967296L, INT_MIN, INT_MAX, LONG_MIN, LONG_MAX };
    const long components = count < 16 ? (long)count : 16;
    goldenskep_record before;

    /* Octets that no accessor takes for 0, and that choose nothing. */
    memset(record, 0xE1, sizeof *record);
    for (int i = 0; i < 4; i++)
        record->octets[4 + i] = (uint8_t)(count >> 8 * (3 - i));
    before = *record;
    for (size_t i = 0; i < sizeof indices / sizeof indices[0]; i++) {
        CHECK(reads_as_0(indices[i]));
        set_all(indices[i]);
        CHECK(memcmp(record, &before, sizeof before) == 0);
    }
    for (long k = components; k < 16; k++) {
        CHECK(reads_as_0(k));
        set_all(k);
        CHECK(memcmp(record, &before, sizeof before) == 0);
    }
    /* A component is one: its row is set, and no other octet. */
    for (long k = 0; k < components; k++) {
        *record = before;
        CHECK(goldenskep_component_kind(record, k) == 0xE1 && goldenskep_component_problem(record, k) == 0xE1);
        set_all(k);
        CHECK(goldenskep_component_problem(record, k) == 7);
        memset(record->octets + 44 + 24 * k, 0xE1, 24);
        CHECK(memcmp(record, &before, sizeof before) == 0);
    }
    *record = before;
    if (count >= 16) {
        CHECK(goldenskep_add_component(record, GOLDENSKEP_COMPONENT_INVOKE) == -1);
        CHECK(goldenskep_add_invoke(record, 1, 45) == -1);
        CHECK(goldenskep_add_return_result_last(record, 1) == -1);
        CHECK(goldenskep_add_return_result_not_last(record, 1) == -1);
        CHECK(goldenskep_add_return_error(record, 1, 45) == -1);
        CHECK(goldenskep_add_reject(record, GOLDENSKEP_PROBLEM_TYPE_GENERAL, 0) == -1);
        CHECK(memcmp(record, &before, sizeof before) == 0);
    } else {
        CHECK(goldenskep_add_component(record, GOLDENSKEP_COMPONENT_INVOKE) == (int)count);
        CHECK(goldenskep_record_count(record) == (int)count + 1);
        CHECK(goldenskep_component_kind(record, (long)count) == GOLDENSKEP_COMPONENT_INVOKE);
        CHECK(!goldenskep_component_has_parameter(record, (long)count) && !goldenskep_component_problem(record, (long)count));
    }
}

int main(void)
{
    struct arena arena = make_arena(sizeof *record);

    catch_touches();
    for (int i = 0; i < 2; i++) {
        const enum side side = i == 0 ? AT_END : AT_START;
        const uint8_t *margin = margin_of(&arena, side, sizeof *record);

        record = (void *)place_in(&arena, side, sizeof *record);
        memset(arena.from, MARGIN_OCTET, (size_t)(arena.to - arena.from));
        if (sigsetjmp(guard_touched, 1) != 0) {
            CHECK(!"touched what was not lent");
            continue;
        }
        for (uint32_t count = 0; count <= 18; count++)
            check_count(count);
        check_count(256);
        check_count(0x80000000u);
        check_count(0xFFFFFFFFu);
        CHECK(goldenskep_record_count(record) == INT_MAX);
        for (size_t j = 0; j < MARGIN; j++)
            CHECK(margin[j] == MARGIN_OCTET);
    }
    return checks_end();
}
