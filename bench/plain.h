/* A plain reader of TCAP messages: octets in, a record or a refusal out.
 *
 * Octet strings are a place and a length in the message (at most 255 octets,
 * so both fit one octet). */
#ifndef PLAIN_H
#define PLAIN_H

#include <stddef.h>
#include <stdint.h>

/* The numbers of the rules, for reader and writer. */
enum { PLAIN_MAX_MESSAGE = 255, PLAIN_MAX_COMPONENTS = 16, PLAIN_MAX_LEVEL = 16 };

/* Octets of a transaction ID, a local code and an identifier. */
enum { PLAIN_MAX_ID = 4, PLAIN_MAX_LOCAL_CODE = 4, PLAIN_MAX_IDENTIFIER = 16 };

/* Problems of a Reject: general, of an invoke, of a return result, of a return error. */
#define PLAIN_MAX_PROBLEMS { 2, 7, 2, 4 }

enum {
    PLAIN_MAX_CAUSE = 4,          /* P-Abort cause */
    PLAIN_MAX_RESULT = 1,         /* of a dialogue response */
    PLAIN_MAX_DIAGNOSTIC = 2,     /* by user and by provider */
    PLAIN_MAX_SOURCE = 1          /* of a dialogue abort */
};

struct plain_span {
    uint8_t place;
    uint8_t len;
};

/* The kinds of message and of component are their tags. */
enum plain_kind {
    PLAIN_UNIDIRECTIONAL = 0x61,
    PLAIN_BEGIN = 0x62,
    PLAIN_END = 0x64,
    PLAIN_CONTINUE = 0x65,
    PLAIN_ABORT = 0x67
};

enum plain_component_kind {
    PLAIN_INVOKE = 0xA1,
    PLAIN_LAST = 0xA2,
    PLAIN_ERROR = 0xA3,
    PLAIN_REJECT = 0xA4,
    PLAIN_NOT_LAST = 0xA7
};

enum plain_dialogue_kind {
    PLAIN_DIALOGUE_NONE,
    PLAIN_DIALOGUE_REQUEST,
    PLAIN_DIALOGUE_RESPONSE,
    PLAIN_DIALOGUE_ABORT,
    PLAIN_DIALOGUE_UNI,
    PLAIN_DIALOGUE_OTHER,
    PLAIN_DIALOGUE_CAUSE          /* an Abort message with a P-Abort cause */
};

/* Which fields mean something depends on the kind:
 *   request, uni   name (application context), user information
 *   response       name, result, source (0xA1 user, 0xA2 provider),
 *                  diagnostic, user information
 *   abort          source (0 or 1), user information
 *   other          name (the identifier), form (0xA0 or 0x81), octets
 *   cause          cause */
struct plain_dialogue {
    uint8_t kind;
    uint8_t result;
    uint8_t source;
    uint8_t diagnostic;
    uint8_t form;
    uint8_t cause;
    uint8_t has_user_info;        /* BE without elements is not no BE */
    struct plain_span name;
    struct plain_span octets;
    struct plain_span user_info;
};

/* What stands for a code is its tag; a problem's tag is 80 to 83. */
enum plain_code_kind {
    PLAIN_CODE_NONE = 0,
    PLAIN_CODE_LOCAL = 0x02,
    PLAIN_CODE_GLOBAL = 0x06,
    PLAIN_CODE_PROBLEM = 0x80
};

/* The first eight octets are those of the library's layout. What a row has not
 * is 0. */
struct plain_row {
    uint8_t kind;
    uint8_t has_invoke;           /* 0: null, in a Reject only */
    int8_t invoke;
    uint8_t has_linked;
    int8_t linked;
    uint8_t code_kind;
    uint8_t has_parameter;
    uint8_t problem;
    union {
        int32_t local;
        struct plain_span global;
    } code;
    struct plain_span parameter;  /* the whole element */
};

/* Rows past the count are not written. */
struct plain_record {
    uint8_t kind;
    uint8_t count;
    struct plain_span orig;       /* length 0: absent */
    struct plain_span dest;
    struct plain_dialogue dialogue;
    struct plain_row rows[PLAIN_MAX_COMPONENTS];
};

/* The standard answer is a P-Abort cause, or a general problem with the index
 * of the component and, if it was read, its invoke ID. */
struct plain_refusal {
    uint8_t number;
    uint8_t place;
    struct plain_span orig;       /* length 0: none was read */
    uint8_t is_problem;
    uint8_t answer;               /* the cause, or the problem */
    uint8_t component;
    uint8_t has_invoke;
    int8_t invoke;
};

/* Reads the `len` octets at `msg`. Returns 0 and fills *out, or returns the
 * number of the refusal and fills *no; *out then holds nothing of use. */
int plain_read(const uint8_t *msg, size_t len,
               struct plain_record *out, struct plain_refusal *no);

#endif
