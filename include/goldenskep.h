/* goldenskep.h: reads, writes and steers TCAP messages (ITU-T Q.773, 03/93).
 *
 * A TCAP message is the octets that one signalling node hands to another: its
 * kind (Begin, Continue, End, Abort, Unidirectional), one or two transaction
 * IDs (a Unidirectional has none), perhaps a dialogue portion, and up to 16
 * components, of which an Invoke with its operation code is the most common.
 * This library
 *
 *   - reads a message into a record         goldenskep_read_record
 *   - writes a record as a message          goldenskep_write_record
 *   - picks a link for a message by rules   goldenskep_steer_rules
 *   - lists a message as text               goldenskep_list
 *   - reads and writes the SCCP unitdata    goldenskep_unitdata_read,
 *     that messages come in                 goldenskep_unitdata_write
 *   - keeps a table of open transactions,   goldenskep_table_step
 *     in octets that the host lends
 *
 * Each call answers one number of 64 bits: done, that no rule fits, or a refusal
 * with all that belongs to it. The accessors below take answers and records
 * apart, the builders put records and rules together. Operation 45 of a message
 * is found so:
 *
 *     goldenskep_record record;
 *     uint64_t answer = goldenskep_read_record(message, length, &record);
 *
 *     if (!goldenskep_answer_is_done(answer))
 *         puts(goldenskep_status_words(goldenskep_answer_status(answer)));
 *     else if (goldenskep_component_kind(&record, 0) == GOLDENSKEP_COMPONENT_INVOKE &&
 *              goldenskep_component_code_kind(&record, 0) == GOLDENSKEP_CODE_LOCAL &&
 *              goldenskep_component_local_code(&record, 0) == 45)
 *         puts("operation 45");
 *
 * Strings (IDs, names, parameters) are not copied. A record holds their spans:
 * a place and a length in the octets beside it. For a record that was read
 * these are the message; for a record to be written they are the material, any
 * octets that the caller lends. A message that was read is good material for
 * its own record.
 *
 * The library itself is eight functions on octets and lengths. They are proved:
 * for every input each of them gives the answer that the rules give, and writes
 * just what they say. All else in this header is inline C around them, which is
 * not proved, but tested.
 *
 * What the proofs assume of a C caller:
 *
 *   - A pointer points to as many octets as the length behind it says, and these
 *     stay as they are during the call. With length 0 it may be NULL.
 *   - What is lent to be written overlaps nothing else that is lent in the same
 *     call: not the record of a reading and its message, not the output of a
 *     writing and its record or material, not a listing and its message, not a
 *     unitdata and the parts written into it, not a table and the IDs of an event.
 *     What is only read may overlap.
 *   - The machine is x86-64 and the calling convention System V (Linux, BSD).
 *
 * And what a host sees to, so that what it reads means something:
 *
 *   - A message stays for as long as the spans of its record are used.
 *   - A table is in one call at a time.
 *   - Header and library are of one layout: goldenskep_header_fits().
 *
 * The functions keep no state, allocate nothing and call nothing but memcpy and
 * its kin: any number of threads and signal handlers may be in them at once. */
#ifndef GOLDENSKEP_H
#define GOLDENSKEP_H

#include <stddef.h>
#include <stdint.h>

/* ---- version and sizes ---- */

#define GOLDENSKEP_VERSION "0.2.0"
#define GOLDENSKEP_VERSION_MAJOR 0
#define GOLDENSKEP_VERSION_MINOR 2
#define GOLDENSKEP_VERSION_PATCH 0

#define GOLDENSKEP_LAYOUT_VERSION 2
#define GOLDENSKEP_RECORD_SIZE 428     /* octets of a record */
#define GOLDENSKEP_RULE_SIZE 12        /* octets of a rule */
#define GOLDENSKEP_MAX_MESSAGE 255     /* octets of a message */
#define GOLDENSKEP_MAX_COMPONENTS 16   /* of a message */
#define GOLDENSKEP_LISTING_SIZE 1153   /* octets; no listing is longer */
#define GOLDENSKEP_UNITDATA_SIZE 515   /* octets; no unitdata that is written is longer */
#define GOLDENSKEP_TABLE_SIZE 768      /* octets of a table of open transactions */
#define GOLDENSKEP_MAX_TRANSACTIONS 64 /* of a table */

/* What goldenskep_layout() answers if the library is of this header's layout. */
#define GOLDENSKEP_LAYOUT \
    (GOLDENSKEP_LAYOUT_VERSION * 0x1000000u + GOLDENSKEP_RULE_SIZE * 0x10000u + GOLDENSKEP_RECORD_SIZE)

/* ---- types ---- */

/* A record: a message taken apart, or one to be written. Its octets have a fixed
 * layout (docs/LAYOUT.md), of which a host needs no offset. */
typedef struct goldenskep_record {
    uint8_t octets[GOLDENSKEP_RECORD_SIZE];
} goldenskep_record;

/* A rule of steering. Rules are an array of these. */
typedef struct goldenskep_rule {
    uint8_t octets[GOLDENSKEP_RULE_SIZE];
} goldenskep_rule;

/* A table of open transactions. All octets 0 is the empty one. */
typedef struct goldenskep_table {
    uint8_t octets[GOLDENSKEP_TABLE_SIZE];
} goldenskep_table;

/* A string: so many octets, from this place on, of the octets beside a record; of
 * a unitdata or a table, of its own octets. */
typedef struct goldenskep_span {
    uint32_t place;
    uint32_t length;
} goldenskep_span;

/* ---- the functions of the library, on octets ---- */

#ifdef __cplusplus
extern "C" {
#endif

/* Reads the message into the record.
 *
 * Done: the record's head and the rows of its components are written, the octets
 * behind them stay. Refused (1 to 16): the record stays as it was, and the
 * answer says where the fault is and what to send back. With room for less than
 * GOLDENSKEP_RECORD_SIZE octets it is 25, whatever the message. */
uint64_t goldenskep_read(const uint8_t *message, size_t message_length,
                         uint8_t *record, size_t record_length);

/* Writes the record, its strings taken from the material, as the shortest
 * message that reads as that record.
 *
 * Done: the answer has the message's length, the octets behind it stay.
 * Refused (21 to 25): all of the output stays as it was. */
uint64_t goldenskep_write(const uint8_t *record, size_t record_length,
                          const uint8_t *material, size_t material_length,
                          uint8_t *out, size_t out_length);

/* Picks the link of the first rule that fits the message.
 *
 * Done: the answer has the link. GOLDENSKEP_STATUS_NO_RULE: none fits. Refused:
 * the message is unreadable, and the answer is the one that reading it gives.
 * The rules stand one behind the other; octets behind the last whole one are
 * none. */
uint64_t goldenskep_steer(const uint8_t *message, size_t message_length,
                          const uint8_t *rules, size_t rules_length);

/* Lists the message as lines of text, each with its newline and none with a
 * closing 0; an unreadable one as the line `refused ..`.
 *
 * Done: the answer has the text's length, the octets behind it stay. Refused
 * with 25: it does not fit, and the output stays as it was. */
uint64_t goldenskep_list(const uint8_t *message, size_t message_length,
                         uint8_t *out, size_t out_length);

/* Finds the parts of a unitdata: SCCP's message type 09 (ITU-T Q.713), with the
 * called address, the calling address and the data that it carries.
 *
 * Done: the answer has the place and length of each. Refused (31 to 34): it is
 * no unitdata. The parts may stand in any order, with gaps and octets behind. */
uint64_t goldenskep_unitdata_read(const uint8_t *message, size_t message_length);

/* Writes a unitdata: called address, calling address and data in this order,
 * without gaps. The protocol class is any octet, an address has at least one
 * octet, both together at most 252, data at most 255.
 *
 * Done: the answer has its length, the octets behind it stay. Refused (35 for a
 * length out of range, then 25): all of the output stays as it was. */
uint64_t goldenskep_unitdata_write(uint8_t protocol_class,
                                   const uint8_t *called, size_t called_length,
                                   const uint8_t *calling, size_t calling_length,
                                   const uint8_t *data, size_t data_length,
                                   uint8_t *out, size_t out_length);

/* Takes an event of a transaction into the table, which is changed in place. The
 * transaction goes by our ID. The partner's is given with a Begin or Continue
 * received; with other events it is neither asked nor kept.
 *
 * Done: the answer says what was done in which entry, and no other entry is
 * changed. Refused (40 to 43): the table stays as it was. With less than
 * GOLDENSKEP_TABLE_SIZE octets it is 25, whatever the event; octets behind the
 * table stay. */
uint64_t goldenskep_transaction(uint8_t *table, size_t table_length, uint8_t event,
                                const uint8_t *ours, size_t ours_length,
                                const uint8_t *partner, size_t partner_length);

/* The library's layout: its version, the size of a rule, the size of a record. */
uint32_t goldenskep_layout(void);

#ifdef __cplusplus
}
#endif

/* Of no use to a host, and gone at the end of this header: a conversion. */
#ifdef __cplusplus
#define GOLDENSKEP_AS_(type, value) static_cast<type>(value)
#else
#define GOLDENSKEP_AS_(type, value) ((type)(value))
#endif

/* ---- the calls, on records and rules ----
 *
 * That on a table is goldenskep_table_step(), at the end, with what a table has. */

/* 1 if header and library are of one layout. Ask once, at the start. */
static inline int goldenskep_header_fits(void)
{
    return goldenskep_layout() == GOLDENSKEP_LAYOUT;
}

/* goldenskep_read() into a record. */
static inline uint64_t goldenskep_read_record(const uint8_t *message, size_t length,
                                              goldenskep_record *record)
{
    return goldenskep_read(message, length, record->octets, GOLDENSKEP_RECORD_SIZE);
}

/* goldenskep_write() of a record. */
static inline uint64_t goldenskep_write_record(const goldenskep_record *record,
                                               const uint8_t *material, size_t material_length,
                                               uint8_t *out, size_t out_length)
{
    return goldenskep_write(record->octets, GOLDENSKEP_RECORD_SIZE, material, material_length, out, out_length);
}

/* goldenskep_steer() by so many rules. Without any, the pointer may be NULL. */
static inline uint64_t goldenskep_steer_rules(const uint8_t *message, size_t length,
                                              const goldenskep_rule *rules, size_t count)
{
    const void *octets = rules;

    return goldenskep_steer(message, length, GOLDENSKEP_AS_(const uint8_t *, octets), count * GOLDENSKEP_RULE_SIZE);
}

/* ---- values ----
 *
 * Values are those of Q.773, the tag where it has one. This library's own are the
 * statuses, the kinds of dialogue, events, states and deeds, and 0 for any or
 * none. The accessors give values as int: the octets of a record may hold others
 * than these. */

/* How a call ended: the status of an answer. */
enum goldenskep_status {
    GOLDENSKEP_STATUS_DONE = 0,
    /* reading; 10 is given to nothing */
    GOLDENSKEP_STATUS_CUT_OFF = 1,        /* tag, length or end pair cut off, or no octets */
    GOLDENSKEP_STATUS_TAG = 2,            /* tag badly extended */
    GOLDENSKEP_STATUS_LENGTH = 3,         /* length not fewest, reserved, or indefinite on a primitive */
    GOLDENSKEP_STATUS_PAST_END = 4,       /* contents pass the end of what encloses them */
    GOLDENSKEP_STATUS_TOO_DEEP = 5,       /* level 17 */
    GOLDENSKEP_STATUS_CODE_ZERO = 6,      /* universal code 0 */
    GOLDENSKEP_STATUS_TOO_LONG = 7,       /* more octets than a message may have */
    GOLDENSKEP_STATUS_MESSAGE_TAG = 8,    /* not one of the five kinds */
    GOLDENSKEP_STATUS_OCTETS_AFTER = 9,   /* octets after the message */
    GOLDENSKEP_STATUS_CONTENTS = 11,      /* contents of wrong length, form or range */
    GOLDENSKEP_STATUS_TOO_MANY = 12,      /* more than 16 components */
    GOLDENSKEP_STATUS_COMPONENT_TAG = 13, /* component tag unknown */
    GOLDENSKEP_STATUS_MISSING = 14,       /* contents end where something mandatory is due */
    GOLDENSKEP_STATUS_ANOTHER = 15,       /* an element where only others may stand */
    GOLDENSKEP_STATUS_NOTHING_MORE = 16,  /* an element where nothing more may come */
    /* writing */
    GOLDENSKEP_STATUS_PAST_MATERIAL = 21, /* a string past the end of the material */
    GOLDENSKEP_STATUS_MALFORMED = 22,     /* a string is not what must stand there */
    GOLDENSKEP_STATUS_RANGE = 23,         /* count, value or length out of range */
    GOLDENSKEP_STATUS_PARTS = 24,         /* no record, or a part too many or too few */
    GOLDENSKEP_STATUS_ROOM = 25,          /* does not fit; also of reading, listing, unitdata and the table */
    /* unitdata: the last when writing, the others when reading */
    GOLDENSKEP_STATUS_UNITDATA_TYPE = 31,     /* not message type 09, or no octets */
    GOLDENSKEP_STATUS_UNITDATA_PAST_END = 32, /* a pointer or a part past the end */
    GOLDENSKEP_STATUS_UNITDATA_OVERLAP = 33,  /* parts on one another, or on the first five octets */
    GOLDENSKEP_STATUS_UNITDATA_ADDRESS = 34,  /* an address without octets */
    GOLDENSKEP_STATUS_UNITDATA_RANGE = 35,    /* a part's length, or the addresses' sum, out of range */
    /* the table of open transactions */
    GOLDENSKEP_STATUS_ID = 40,            /* an ID not of 1 to 4 octets */
    GOLDENSKEP_STATUS_ID_UNKNOWN = 41,    /* no transaction is open under our ID; of a Begin: one is */
    GOLDENSKEP_STATUS_STATE = 42,         /* not allowed in this state */
    GOLDENSKEP_STATUS_TABLE_FULL = 43,    /* a Begin with 64 open */
    /* steering */
    GOLDENSKEP_STATUS_NO_RULE = 64        /* readable, but no rule fits */
};

/* Kinds of message. */
enum goldenskep_message_kind {
    GOLDENSKEP_MESSAGE_ANY = 0,           /* of a rule only */
    GOLDENSKEP_MESSAGE_UNIDIRECTIONAL = 0x61,
    GOLDENSKEP_MESSAGE_BEGIN = 0x62,
    GOLDENSKEP_MESSAGE_END = 0x64,
    GOLDENSKEP_MESSAGE_CONTINUE = 0x65,
    GOLDENSKEP_MESSAGE_ABORT = 0x67
};

/* What a message has beside its IDs and components. */
enum goldenskep_dialogue_kind {
    GOLDENSKEP_DIALOGUE_NONE = 0,
    GOLDENSKEP_DIALOGUE_CAUSE = 1,        /* an Abort's P-Abort cause: no dialogue portion */
    GOLDENSKEP_DIALOGUE_REQUEST = 2,
    GOLDENSKEP_DIALOGUE_RESPONSE = 3,
    GOLDENSKEP_DIALOGUE_ABORT = 4,
    GOLDENSKEP_DIALOGUE_UNI = 5,          /* unidialogue */
    GOLDENSKEP_DIALOGUE_ELEMENT = 6,      /* another name, with one element (tag A0) */
    GOLDENSKEP_DIALOGUE_OCTETS = 7        /* another name, with plain octets (tag 81) */
};

/* P-Abort causes. */
enum goldenskep_cause {
    GOLDENSKEP_CAUSE_UNRECOGNIZED_MESSAGE_TYPE = 0,
    GOLDENSKEP_CAUSE_UNRECOGNIZED_TRANSACTION_ID = 1,
    GOLDENSKEP_CAUSE_BADLY_FORMATTED_TRANSACTION_PORTION = 2,
    GOLDENSKEP_CAUSE_INCORRECT_TRANSACTION_PORTION = 3,
    GOLDENSKEP_CAUSE_RESOURCE_LIMITATION = 4
};

/* A dialogue response's result. */
enum goldenskep_result {
    GOLDENSKEP_RESULT_ACCEPTED = 0,
    GOLDENSKEP_RESULT_REJECT_PERMANENT = 1
};

/* Whose a dialogue response's diagnostic is. */
enum goldenskep_diagnostic_source {
    GOLDENSKEP_DIAGNOSTIC_SOURCE_USER = 0xA1,
    GOLDENSKEP_DIAGNOSTIC_SOURCE_PROVIDER = 0xA2
};

/* Diagnostics of the dialogue service user. */
enum goldenskep_user_diagnostic {
    GOLDENSKEP_USER_DIAGNOSTIC_NULL = 0,
    GOLDENSKEP_USER_DIAGNOSTIC_NO_REASON_GIVEN = 1,
    GOLDENSKEP_USER_DIAGNOSTIC_APPLICATION_CONTEXT_NAME_NOT_SUPPORTED = 2
};

/* Diagnostics of the dialogue service provider. */
enum goldenskep_provider_diagnostic {
    GOLDENSKEP_PROVIDER_DIAGNOSTIC_NULL = 0,
    GOLDENSKEP_PROVIDER_DIAGNOSTIC_NO_REASON_GIVEN = 1,
    GOLDENSKEP_PROVIDER_DIAGNOSTIC_NO_COMMON_DIALOGUE_PORTION = 2
};

/* Who is the source of a dialogue abort. */
enum goldenskep_abort_source {
    GOLDENSKEP_ABORT_SOURCE_USER = 0,
    GOLDENSKEP_ABORT_SOURCE_PROVIDER = 1
};

/* Kinds of component. */
enum goldenskep_component_kind {
    GOLDENSKEP_COMPONENT_INVOKE = 0xA1,
    GOLDENSKEP_COMPONENT_RETURN_RESULT_LAST = 0xA2,
    GOLDENSKEP_COMPONENT_RETURN_ERROR = 0xA3,
    GOLDENSKEP_COMPONENT_REJECT = 0xA4,
    GOLDENSKEP_COMPONENT_RETURN_RESULT_NOT_LAST = 0xA7
};

/* Kinds of operation or error code. */
enum goldenskep_code_kind {
    GOLDENSKEP_CODE_NONE = 0,             /* of a return result without contents */
    GOLDENSKEP_CODE_LOCAL = 0x02,         /* a number */
    GOLDENSKEP_CODE_GLOBAL = 0x06         /* an object identifier */
};

/* Types of a Reject's problem. */
enum goldenskep_problem_type {
    GOLDENSKEP_PROBLEM_TYPE_GENERAL = 0x80,
    GOLDENSKEP_PROBLEM_TYPE_INVOKE = 0x81,
    GOLDENSKEP_PROBLEM_TYPE_RETURN_RESULT = 0x82,
    GOLDENSKEP_PROBLEM_TYPE_RETURN_ERROR = 0x83
};

enum goldenskep_general_problem {
    GOLDENSKEP_GENERAL_PROBLEM_UNRECOGNIZED_COMPONENT = 0,
    GOLDENSKEP_GENERAL_PROBLEM_MISTYPED_COMPONENT = 1,
    GOLDENSKEP_GENERAL_PROBLEM_BADLY_STRUCTURED_COMPONENT = 2
};

enum goldenskep_invoke_problem {
    GOLDENSKEP_INVOKE_PROBLEM_DUPLICATE_INVOKE_ID = 0,
    GOLDENSKEP_INVOKE_PROBLEM_UNRECOGNIZED_OPERATION = 1,
    GOLDENSKEP_INVOKE_PROBLEM_MISTYPED_PARAMETER = 2,
    GOLDENSKEP_INVOKE_PROBLEM_RESOURCE_LIMITATION = 3,
    GOLDENSKEP_INVOKE_PROBLEM_INITIATING_RELEASE = 4,
    GOLDENSKEP_INVOKE_PROBLEM_UNRECOGNIZED_LINKED_ID = 5,
    GOLDENSKEP_INVOKE_PROBLEM_LINKED_RESPONSE_UNEXPECTED = 6,
    GOLDENSKEP_INVOKE_PROBLEM_UNEXPECTED_LINKED_OPERATION = 7
};

enum goldenskep_return_result_problem {
    GOLDENSKEP_RETURN_RESULT_PROBLEM_UNRECOGNIZED_INVOKE_ID = 0,
    GOLDENSKEP_RETURN_RESULT_PROBLEM_RETURN_RESULT_UNEXPECTED = 1,
    GOLDENSKEP_RETURN_RESULT_PROBLEM_MISTYPED_PARAMETER = 2
};

enum goldenskep_return_error_problem {
    GOLDENSKEP_RETURN_ERROR_PROBLEM_UNRECOGNIZED_INVOKE_ID = 0,
    GOLDENSKEP_RETURN_ERROR_PROBLEM_RETURN_ERROR_UNEXPECTED = 1,
    GOLDENSKEP_RETURN_ERROR_PROBLEM_UNRECOGNIZED_ERROR = 2,
    GOLDENSKEP_RETURN_ERROR_PROBLEM_UNEXPECTED_ERROR = 3,
    GOLDENSKEP_RETURN_ERROR_PROBLEM_MISTYPED_PARAMETER = 4
};

/* What happens to a transaction. Every other number is an event that no state allows. */
enum goldenskep_event {
    GOLDENSKEP_EVENT_BEGIN_SENT = 1,
    GOLDENSKEP_EVENT_BEGIN_RECEIVED = 2,
    GOLDENSKEP_EVENT_CONTINUE_SENT = 3,
    GOLDENSKEP_EVENT_CONTINUE_RECEIVED = 4,
    GOLDENSKEP_EVENT_END_SENT = 5,
    GOLDENSKEP_EVENT_END_RECEIVED = 6,
    GOLDENSKEP_EVENT_ABORT_SENT = 7,
    GOLDENSKEP_EVENT_ABORT_RECEIVED = 8,
    GOLDENSKEP_EVENT_LOCAL_CLOSE = 9
};

/* The state of a transaction, as in Q.774; idle is an entry that is free. */
enum goldenskep_state {
    GOLDENSKEP_STATE_IDLE = 0,
    GOLDENSKEP_STATE_INITIATION_SENT = 1,
    GOLDENSKEP_STATE_INITIATION_RECEIVED = 2,
    GOLDENSKEP_STATE_ACTIVE = 3
};

/* What an event did. */
enum goldenskep_deed {
    GOLDENSKEP_DEED_OPENED = 1,
    GOLDENSKEP_DEED_KEPT = 2,             /* perhaps in another state */
    GOLDENSKEP_DEED_CLOSED = 3
};

/* ---- words: each value in words, `unknown ..` for one that is none ---- */

static inline const char *goldenskep_status_words(int status)
{
    switch (status) {
    case GOLDENSKEP_STATUS_DONE: return "done";
    case GOLDENSKEP_STATUS_CUT_OFF: return "tag, length or end pair cut off";
    case GOLDENSKEP_STATUS_TAG: return "tag badly extended";
    case GOLDENSKEP_STATUS_LENGTH: return "length not in fewest octets, reserved, or indefinite on a primitive";
    case GOLDENSKEP_STATUS_PAST_END: return "contents pass the end of the enclosing contents";
    case GOLDENSKEP_STATUS_TOO_DEEP: return "nested too deep";
    case GOLDENSKEP_STATUS_CODE_ZERO: return "universal code 0";
    case GOLDENSKEP_STATUS_TOO_LONG: return "message too long";
    case GOLDENSKEP_STATUS_MESSAGE_TAG: return "unknown message tag";
    case GOLDENSKEP_STATUS_OCTETS_AFTER: return "octets after the message";
    case GOLDENSKEP_STATUS_CONTENTS: return "contents of wrong length, form or range";
    case GOLDENSKEP_STATUS_TOO_MANY: return "too many components";
    case GOLDENSKEP_STATUS_COMPONENT_TAG: return "unknown component tag";
    case GOLDENSKEP_STATUS_MISSING: return "mandatory element missing";
    case GOLDENSKEP_STATUS_ANOTHER: return "another element than may stand there";
    case GOLDENSKEP_STATUS_NOTHING_MORE: return "element where nothing more may come";
    case GOLDENSKEP_STATUS_PAST_MATERIAL: return "string past the end of the material";
    case GOLDENSKEP_STATUS_MALFORMED: return "malformed identifier or element, or reserved name";
    case GOLDENSKEP_STATUS_RANGE: return "count, value or length out of range";
    case GOLDENSKEP_STATUS_PARTS: return "not a record, or a part that its kind lacks or may not have";
    case GOLDENSKEP_STATUS_ROOM: return "too little room";
    case GOLDENSKEP_STATUS_UNITDATA_TYPE: return "not a unitdata";
    case GOLDENSKEP_STATUS_UNITDATA_PAST_END: return "pointer or part of a unitdata past its end";
    case GOLDENSKEP_STATUS_UNITDATA_OVERLAP: return "parts of a unitdata overlap";
    case GOLDENSKEP_STATUS_UNITDATA_ADDRESS: return "empty address in a unitdata";
    case GOLDENSKEP_STATUS_UNITDATA_RANGE: return "address or data of a unitdata of wrong length";
    case GOLDENSKEP_STATUS_ID: return "ID not of 1 to 4 octets";
    case GOLDENSKEP_STATUS_ID_UNKNOWN: return "unknown ID, or an ID in use";
    case GOLDENSKEP_STATUS_STATE: return "not allowed in this state";
    case GOLDENSKEP_STATUS_TABLE_FULL: return "table full";
    case GOLDENSKEP_STATUS_NO_RULE: return "no rule";
    default: return "unknown status";
    }
}

static inline const char *goldenskep_message_kind_words(int kind)
{
    switch (kind) {
    case GOLDENSKEP_MESSAGE_ANY: return "any message";
    case GOLDENSKEP_MESSAGE_UNIDIRECTIONAL: return "Unidirectional";
    case GOLDENSKEP_MESSAGE_BEGIN: return "Begin";
    case GOLDENSKEP_MESSAGE_END: return "End";
    case GOLDENSKEP_MESSAGE_CONTINUE: return "Continue";
    case GOLDENSKEP_MESSAGE_ABORT: return "Abort";
    default: return "unknown message";
    }
}

static inline const char *goldenskep_dialogue_kind_words(int kind)
{
    switch (kind) {
    case GOLDENSKEP_DIALOGUE_NONE: return "no dialogue portion";
    case GOLDENSKEP_DIALOGUE_CAUSE: return "P-Abort cause";
    case GOLDENSKEP_DIALOGUE_REQUEST: return "dialogue request";
    case GOLDENSKEP_DIALOGUE_RESPONSE: return "dialogue response";
    case GOLDENSKEP_DIALOGUE_ABORT: return "dialogue abort";
    case GOLDENSKEP_DIALOGUE_UNI: return "unidialogue";
    case GOLDENSKEP_DIALOGUE_ELEMENT: return "another name with an element";
    case GOLDENSKEP_DIALOGUE_OCTETS: return "another name with octets";
    default: return "unknown dialogue";
    }
}

static inline const char *goldenskep_cause_words(int cause)
{
    switch (cause) {
    case GOLDENSKEP_CAUSE_UNRECOGNIZED_MESSAGE_TYPE: return "unrecognized message type";
    case GOLDENSKEP_CAUSE_UNRECOGNIZED_TRANSACTION_ID: return "unrecognized transaction ID";
    case GOLDENSKEP_CAUSE_BADLY_FORMATTED_TRANSACTION_PORTION: return "badly formatted transaction portion";
    case GOLDENSKEP_CAUSE_INCORRECT_TRANSACTION_PORTION: return "incorrect transaction portion";
    case GOLDENSKEP_CAUSE_RESOURCE_LIMITATION: return "resource limitation";
    default: return "unknown cause";
    }
}

static inline const char *goldenskep_result_words(int result)
{
    switch (result) {
    case GOLDENSKEP_RESULT_ACCEPTED: return "accepted";
    case GOLDENSKEP_RESULT_REJECT_PERMANENT: return "reject permanent";
    default: return "unknown result";
    }
}

static inline const char *goldenskep_diagnostic_source_words(int source)
{
    switch (source) {
    case GOLDENSKEP_DIAGNOSTIC_SOURCE_USER: return "dialogue service user";
    case GOLDENSKEP_DIAGNOSTIC_SOURCE_PROVIDER: return "dialogue service provider";
    default: return "unknown diagnostic source";
    }
}

static inline const char *goldenskep_user_diagnostic_words(int diagnostic)
{
    switch (diagnostic) {
    case GOLDENSKEP_USER_DIAGNOSTIC_NULL: return "null";
    case GOLDENSKEP_USER_DIAGNOSTIC_NO_REASON_GIVEN: return "no reason given";
    case GOLDENSKEP_USER_DIAGNOSTIC_APPLICATION_CONTEXT_NAME_NOT_SUPPORTED: return "application context name not supported";
    default: return "unknown diagnostic";
    }
}

static inline const char *goldenskep_provider_diagnostic_words(int diagnostic)
{
    switch (diagnostic) {
    case GOLDENSKEP_PROVIDER_DIAGNOSTIC_NULL: return "null";
    case GOLDENSKEP_PROVIDER_DIAGNOSTIC_NO_REASON_GIVEN: return "no reason given";
    case GOLDENSKEP_PROVIDER_DIAGNOSTIC_NO_COMMON_DIALOGUE_PORTION: return "no common dialogue portion";
    default: return "unknown diagnostic";
    }
}

/* A diagnostic of this source. */
static inline const char *goldenskep_diagnostic_words(int source, int diagnostic)
{
    switch (source) {
    case GOLDENSKEP_DIAGNOSTIC_SOURCE_USER: return goldenskep_user_diagnostic_words(diagnostic);
    case GOLDENSKEP_DIAGNOSTIC_SOURCE_PROVIDER: return goldenskep_provider_diagnostic_words(diagnostic);
    default: return "unknown diagnostic";
    }
}

static inline const char *goldenskep_abort_source_words(int source)
{
    switch (source) {
    case GOLDENSKEP_ABORT_SOURCE_USER: return "dialogue service user";
    case GOLDENSKEP_ABORT_SOURCE_PROVIDER: return "dialogue service provider";
    default: return "unknown abort source";
    }
}

static inline const char *goldenskep_component_kind_words(int kind)
{
    switch (kind) {
    case GOLDENSKEP_COMPONENT_INVOKE: return "Invoke";
    case GOLDENSKEP_COMPONENT_RETURN_RESULT_LAST: return "Return Result Last";
    case GOLDENSKEP_COMPONENT_RETURN_ERROR: return "Return Error";
    case GOLDENSKEP_COMPONENT_REJECT: return "Reject";
    case GOLDENSKEP_COMPONENT_RETURN_RESULT_NOT_LAST: return "Return Result Not Last";
    default: return "unknown component";
    }
}

static inline const char *goldenskep_code_kind_words(int kind)
{
    switch (kind) {
    case GOLDENSKEP_CODE_NONE: return "no code";
    case GOLDENSKEP_CODE_LOCAL: return "local code";
    case GOLDENSKEP_CODE_GLOBAL: return "global code";
    default: return "unknown code";
    }
}

static inline const char *goldenskep_problem_type_words(int type)
{
    switch (type) {
    case GOLDENSKEP_PROBLEM_TYPE_GENERAL: return "general problem";
    case GOLDENSKEP_PROBLEM_TYPE_INVOKE: return "invoke problem";
    case GOLDENSKEP_PROBLEM_TYPE_RETURN_RESULT: return "return result problem";
    case GOLDENSKEP_PROBLEM_TYPE_RETURN_ERROR: return "return error problem";
    default: return "unknown problem type";
    }
}

static inline const char *goldenskep_general_problem_words(int problem)
{
    switch (problem) {
    case GOLDENSKEP_GENERAL_PROBLEM_UNRECOGNIZED_COMPONENT: return "unrecognized component";
    case GOLDENSKEP_GENERAL_PROBLEM_MISTYPED_COMPONENT: return "mistyped component";
    case GOLDENSKEP_GENERAL_PROBLEM_BADLY_STRUCTURED_COMPONENT: return "badly structured component";
    default: return "unknown problem";
    }
}

static inline const char *goldenskep_invoke_problem_words(int problem)
{
    switch (problem) {
    case GOLDENSKEP_INVOKE_PROBLEM_DUPLICATE_INVOKE_ID: return "duplicate invoke ID";
    case GOLDENSKEP_INVOKE_PROBLEM_UNRECOGNIZED_OPERATION: return "unrecognized operation";
    case GOLDENSKEP_INVOKE_PROBLEM_MISTYPED_PARAMETER: return "mistyped parameter";
    case GOLDENSKEP_INVOKE_PROBLEM_RESOURCE_LIMITATION: return "resource limitation";
    case GOLDENSKEP_INVOKE_PROBLEM_INITIATING_RELEASE: return "initiating release";
    case GOLDENSKEP_INVOKE_PROBLEM_UNRECOGNIZED_LINKED_ID: return "unrecognized linked ID";
    case GOLDENSKEP_INVOKE_PROBLEM_LINKED_RESPONSE_UNEXPECTED: return "linked response unexpected";
    case GOLDENSKEP_INVOKE_PROBLEM_UNEXPECTED_LINKED_OPERATION: return "unexpected linked operation";
    default: return "unknown problem";
    }
}

static inline const char *goldenskep_return_result_problem_words(int problem)
{
    switch (problem) {
    case GOLDENSKEP_RETURN_RESULT_PROBLEM_UNRECOGNIZED_INVOKE_ID: return "unrecognized invoke ID";
    case GOLDENSKEP_RETURN_RESULT_PROBLEM_RETURN_RESULT_UNEXPECTED: return "return result unexpected";
    case GOLDENSKEP_RETURN_RESULT_PROBLEM_MISTYPED_PARAMETER: return "mistyped parameter";
    default: return "unknown problem";
    }
}

static inline const char *goldenskep_return_error_problem_words(int problem)
{
    switch (problem) {
    case GOLDENSKEP_RETURN_ERROR_PROBLEM_UNRECOGNIZED_INVOKE_ID: return "unrecognized invoke ID";
    case GOLDENSKEP_RETURN_ERROR_PROBLEM_RETURN_ERROR_UNEXPECTED: return "return error unexpected";
    case GOLDENSKEP_RETURN_ERROR_PROBLEM_UNRECOGNIZED_ERROR: return "unrecognized error";
    case GOLDENSKEP_RETURN_ERROR_PROBLEM_UNEXPECTED_ERROR: return "unexpected error";
    case GOLDENSKEP_RETURN_ERROR_PROBLEM_MISTYPED_PARAMETER: return "mistyped parameter";
    default: return "unknown problem";
    }
}

/* A problem of this type. */
static inline const char *goldenskep_problem_words(int type, int problem)
{
    switch (type) {
    case GOLDENSKEP_PROBLEM_TYPE_GENERAL: return goldenskep_general_problem_words(problem);
    case GOLDENSKEP_PROBLEM_TYPE_INVOKE: return goldenskep_invoke_problem_words(problem);
    case GOLDENSKEP_PROBLEM_TYPE_RETURN_RESULT: return goldenskep_return_result_problem_words(problem);
    case GOLDENSKEP_PROBLEM_TYPE_RETURN_ERROR: return goldenskep_return_error_problem_words(problem);
    default: return "unknown problem";
    }
}

static inline const char *goldenskep_event_words(int event)
{
    switch (event) {
    case GOLDENSKEP_EVENT_BEGIN_SENT: return "Begin sent";
    case GOLDENSKEP_EVENT_BEGIN_RECEIVED: return "Begin received";
    case GOLDENSKEP_EVENT_CONTINUE_SENT: return "Continue sent";
    case GOLDENSKEP_EVENT_CONTINUE_RECEIVED: return "Continue received";
    case GOLDENSKEP_EVENT_END_SENT: return "End sent";
    case GOLDENSKEP_EVENT_END_RECEIVED: return "End received";
    case GOLDENSKEP_EVENT_ABORT_SENT: return "Abort sent";
    case GOLDENSKEP_EVENT_ABORT_RECEIVED: return "Abort received";
    case GOLDENSKEP_EVENT_LOCAL_CLOSE: return "local close";
    default: return "unknown event";
    }
}

static inline const char *goldenskep_state_words(int state)
{
    switch (state) {
    case GOLDENSKEP_STATE_IDLE: return "idle";
    case GOLDENSKEP_STATE_INITIATION_SENT: return "initiation sent";
    case GOLDENSKEP_STATE_INITIATION_RECEIVED: return "initiation received";
    case GOLDENSKEP_STATE_ACTIVE: return "active";
    default: return "unknown state";
    }
}

static inline const char *goldenskep_deed_words(int deed)
{
    switch (deed) {
    case GOLDENSKEP_DEED_OPENED: return "opened";
    case GOLDENSKEP_DEED_KEPT: return "kept";
    case GOLDENSKEP_DEED_CLOSED: return "closed";
    default: return "unknown deed";
    }
}

/* ---- the answer ---- */

/* Of no use to a host: some bits of an answer, at most 16, and an octet that is
 * a number in two's complement. */
static inline uint32_t goldenskep_bits_(uint64_t answer, int from, int count)
{
    return GOLDENSKEP_AS_(uint32_t, answer >> from & ((1u << count) - 1));
}

static inline int goldenskep_signed_(uint32_t octet)
{
    return GOLDENSKEP_AS_(int, octet) - (octet < 128 ? 0 : 256);
}

/* GOLDENSKEP_STATUS_DONE, GOLDENSKEP_STATUS_NO_RULE or the number of the refusal. */
static inline int goldenskep_answer_status(uint64_t answer)
{
    return GOLDENSKEP_AS_(int, goldenskep_bits_(answer, 0, 8));
}

static inline int goldenskep_answer_is_done(uint64_t answer)
{
    return goldenskep_answer_status(answer) == GOLDENSKEP_STATUS_DONE;
}

/* 1 if a message was refused as unreadable (1 to 16): only then have the
 * accessors from the place to the invoke ID a meaning. */
static inline int goldenskep_answer_is_unreadable(uint64_t answer)
{
    return goldenskep_answer_status(answer) >= GOLDENSKEP_STATUS_CUT_OFF &&
           goldenskep_answer_status(answer) <= GOLDENSKEP_STATUS_NOTHING_MORE;
}

/* Done writing, a unitdata too, or listing: how many octets were written. */
static inline size_t goldenskep_answer_length(uint64_t answer)
{
    return goldenskep_bits_(answer, 8, 16);
}

/* Done steering: the link. */
static inline uint32_t goldenskep_answer_link(uint64_t answer)
{
    return GOLDENSKEP_AS_(uint32_t, answer >> 32);
}

/* Done with an event: what was done, and in which entry of the table. */
static inline int goldenskep_answer_deed(uint64_t answer)
{
    return GOLDENSKEP_AS_(int, goldenskep_bits_(answer, 8, 8));
}

static inline int goldenskep_answer_entry(uint64_t answer)
{
    return GOLDENSKEP_AS_(int, goldenskep_bits_(answer, 16, 8));
}

/* Unreadable: the place in the message of the element at fault, or where the
 * missing thing should begin; of the first octet that is too many. */
static inline size_t goldenskep_answer_place(uint64_t answer)
{
    return goldenskep_bits_(answer, 8, 16);
}

/* Unreadable: 1 if the originating ID was read. Without it there is no one to
 * send an answer to. */
static inline int goldenskep_answer_has_orig(uint64_t answer)
{
    return goldenskep_bits_(answer, 40, 4) != 0;
}

/* Unreadable: the originating ID, in the message. Of an unknown type of message
 * (8): the contents of a sound 48 that stands first in it, if it is a constructor,
 * its tag in one octet and its length sound. */
static inline goldenskep_span goldenskep_answer_orig(uint64_t answer)
{
    goldenskep_span span;

    span.place = goldenskep_bits_(answer, 24, 16);
    span.length = goldenskep_bits_(answer, 40, 4);
    return span;
}

/* Unreadable: what to send back. 1 is a Reject with a general problem, for a
 * fault in a component; 0 an Abort with a P-Abort cause. Whether a fault in a
 * Reject is answered at all, Q.774 leaves to the host. */
static inline int goldenskep_answer_is_reject(uint64_t answer)
{
    return GOLDENSKEP_AS_(int, goldenskep_bits_(answer, 44, 1));
}

/* Unreadable, Abort: the P-Abort cause to send. */
static inline int goldenskep_answer_cause(uint64_t answer)
{
    return GOLDENSKEP_AS_(int, goldenskep_bits_(answer, 45, 3));
}

/* Unreadable, Reject: the general problem to send. */
static inline int goldenskep_answer_problem(uint64_t answer)
{
    return GOLDENSKEP_AS_(int, goldenskep_bits_(answer, 45, 3));
}

/* Unreadable, Reject: the index of the component at fault, from 0. */
static inline int goldenskep_answer_component(uint64_t answer)
{
    return GOLDENSKEP_AS_(int, goldenskep_bits_(answer, 48, 7));
}

/* Unreadable, Reject: 1 if that component's invoke ID was read. If not, the
 * Reject to send has a null one. */
static inline int goldenskep_answer_has_invoke_id(uint64_t answer)
{
    return GOLDENSKEP_AS_(int, goldenskep_bits_(answer, 55, 1));
}

/* Unreadable, Reject: that invoke ID, -128 to 127. */
static inline int goldenskep_answer_invoke_id(uint64_t answer)
{
    return goldenskep_signed_(goldenskep_bits_(answer, 56, 8));
}

/* ---- a record: what the whole message has ---- */

/* Of no use to a host: numbers and spans in the layout. */
static inline uint32_t goldenskep_number_(const uint8_t *at)
{
    return GOLDENSKEP_AS_(uint32_t, at[0]) << 24 | GOLDENSKEP_AS_(uint32_t, at[1]) << 16 |
           GOLDENSKEP_AS_(uint32_t, at[2]) << 8 | at[3];
}

static inline int32_t goldenskep_signed_number_(const uint8_t *at)
{
    uint32_t n = goldenskep_number_(at);

    return n < 0x80000000u ? GOLDENSKEP_AS_(int32_t, n) : -GOLDENSKEP_AS_(int32_t, 0xFFFFFFFFu - n) - 1;
}

static inline goldenskep_span goldenskep_span_(const uint8_t *at)
{
    goldenskep_span span;

    span.place = goldenskep_number_(at);
    span.length = goldenskep_number_(at + 4);
    return span;
}

/* The kind of message. */
static inline int goldenskep_record_kind(const goldenskep_record *record)
{
    return record->octets[0];
}

/* How many components there are: at most 16, if the record was read or built. */
static inline int goldenskep_record_count(const goldenskep_record *record)
{
    uint32_t count = goldenskep_number_(record->octets + 4);

    return count <= 0x7FFFFFFFu ? GOLDENSKEP_AS_(int, count) : 0x7FFFFFFF;
}

/* The originating transaction ID: of Begin and Continue. */
static inline int goldenskep_record_has_orig(const goldenskep_record *record)
{
    return record->octets[1] == 1;
}

static inline goldenskep_span goldenskep_record_orig(const goldenskep_record *record)
{
    return goldenskep_span_(record->octets + 8);
}

/* The destination transaction ID: of Continue, End and Abort. */
static inline int goldenskep_record_has_dest(const goldenskep_record *record)
{
    return record->octets[2] == 1;
}

static inline goldenskep_span goldenskep_record_dest(const goldenskep_record *record)
{
    return goldenskep_span_(record->octets + 16);
}

/* The kind of dialogue portion, or that there is a P-Abort cause. */
static inline int goldenskep_record_dialogue_kind(const goldenskep_record *record)
{
    return record->octets[3];
}

/* Request, response, unidialogue: the application context name. Another name:
 * that name. The contents of an object identifier. */
static inline goldenskep_span goldenskep_record_name(const goldenskep_record *record)
{
    return goldenskep_span_(record->octets + 24);
}

/* Request, response, abort, unidialogue: is there user information? An empty
 * one is not none. */
static inline int goldenskep_record_has_user_info(const goldenskep_record *record)
{
    return record->octets[40] == 1;
}

/* The elements, each with tag 28, that the user information holds. */
static inline goldenskep_span goldenskep_record_user_info(const goldenskep_record *record)
{
    return goldenskep_span_(record->octets + 32);
}

/* Another name, with an element: the whole element. */
static inline goldenskep_span goldenskep_record_element(const goldenskep_record *record)
{
    return goldenskep_span_(record->octets + 32);
}

/* Another name, with octets: the octets. */
static inline goldenskep_span goldenskep_record_octets(const goldenskep_record *record)
{
    return goldenskep_span_(record->octets + 32);
}

/* P-Abort cause: which one. */
static inline int goldenskep_record_cause(const goldenskep_record *record)
{
    return record->octets[41];
}

/* Response: its result. */
static inline int goldenskep_record_result(const goldenskep_record *record)
{
    return record->octets[41];
}

/* Dialogue abort: its source. */
static inline int goldenskep_record_abort_source(const goldenskep_record *record)
{
    return record->octets[41];
}

/* Response: whose diagnostic it is, and the diagnostic. */
static inline int goldenskep_record_diagnostic_source(const goldenskep_record *record)
{
    return record->octets[42];
}

static inline int goldenskep_record_diagnostic(const goldenskep_record *record)
{
    return record->octets[43];
}

/* ---- a record: its components ----
 *
 * They are counted from 0. Of an index that is no component of the record, below
 * 0 or not below the count, all reads as 0. */

/* Of no use to a host: is k a component? And its octets, or octets 0. */
static inline int goldenskep_is_component_(const goldenskep_record *record, long k)
{
    return k >= 0 && k < GOLDENSKEP_MAX_COMPONENTS && k < goldenskep_record_count(record);
}

static inline const uint8_t *goldenskep_row_(const goldenskep_record *record, long k)
{
    static const uint8_t none[24] = { 0 };

    return goldenskep_is_component_(record, k) ? record->octets + 44 + 24 * k : none;
}

/* The kind of component. */
static inline int goldenskep_component_kind(const goldenskep_record *record, long k)
{
    return goldenskep_row_(record, k)[0];
}

/* 0 if the invoke ID is null, as it may be in a Reject. */
static inline int goldenskep_component_has_invoke_id(const goldenskep_record *record, long k)
{
    return goldenskep_row_(record, k)[1] == 1;
}

static inline int goldenskep_component_invoke_id(const goldenskep_record *record, long k)
{
    return goldenskep_signed_(goldenskep_row_(record, k)[2]);
}

/* Invoke: the linked ID. */
static inline int goldenskep_component_has_linked_id(const goldenskep_record *record, long k)
{
    return goldenskep_row_(record, k)[3] == 1;
}

static inline int goldenskep_component_linked_id(const goldenskep_record *record, long k)
{
    return goldenskep_signed_(goldenskep_row_(record, k)[4]);
}

/* All but Reject: the kind of code. */
static inline int goldenskep_component_code_kind(const goldenskep_record *record, long k)
{
    return goldenskep_row_(record, k)[5];
}

static inline int32_t goldenskep_component_local_code(const goldenskep_record *record, long k)
{
    return goldenskep_signed_number_(goldenskep_row_(record, k) + 8);
}

static inline goldenskep_span goldenskep_component_global_code(const goldenskep_record *record, long k)
{
    return goldenskep_span_(goldenskep_row_(record, k) + 8);
}

/* All but Reject: the parameter, its whole element. */
static inline int goldenskep_component_has_parameter(const goldenskep_record *record, long k)
{
    return goldenskep_row_(record, k)[6] == 1;
}

static inline goldenskep_span goldenskep_component_parameter(const goldenskep_record *record, long k)
{
    return goldenskep_span_(goldenskep_row_(record, k) + 16);
}

/* Reject: the type of its problem, and the problem. */
static inline int goldenskep_component_problem_type(const goldenskep_record *record, long k)
{
    return goldenskep_row_(record, k)[5];
}

static inline int goldenskep_component_problem(const goldenskep_record *record, long k)
{
    return goldenskep_row_(record, k)[7];
}

/* ---- building a record ----
 *
 * A record is begun by goldenskep_record_init() and then given what its kind
 * needs. A record that was read may be changed by the same functions. They judge
 * nothing: what is missing, too much or out of range is refused by writing. So a
 * number that does not fit its octets is set as one that writing refuses:
 *
 *   - outside 0 to 255, as 255: with 24 if it is a kind, a type or the source of
 *     a diagnostic, with 23 if it is a cause, result, abort source, diagnostic or
 *     problem
 *   - an ID outside -128 to 127, as one that is neither there nor absent: with 24
 *   - a local code outside 32 bits, as a code of no kind: with 24
 *   - a place or a length above 32 bits, as a span that no message has room for */

/* Of no use to a host: what is set, in the layout. */
static inline void goldenskep_put_number_(uint8_t *at, uint32_t n)
{
    at[0] = GOLDENSKEP_AS_(uint8_t, n >> 24);
    at[1] = GOLDENSKEP_AS_(uint8_t, n >> 16 & 0xFF);
    at[2] = GOLDENSKEP_AS_(uint8_t, n >> 8 & 0xFF);
    at[3] = GOLDENSKEP_AS_(uint8_t, n & 0xFF);
}

static inline void goldenskep_put_span_(uint8_t *at, goldenskep_span span)
{
    goldenskep_put_number_(at, span.place);
    goldenskep_put_number_(at + 4, span.length);
}

static inline void goldenskep_zero_(uint8_t *at, size_t count)
{
    size_t i;

    for (i = 0; i < count; i++)
        at[i] = 0;
}

static inline uint8_t goldenskep_octet_(long number)
{
    return GOLDENSKEP_AS_(uint8_t, number >= 0 && number <= 255 ? number : 255);
}

/* Its flag and its octet; flag 2 is refused. */
static inline void goldenskep_put_id_(uint8_t *at, long id)
{
    int is_id = id >= -128 && id <= 127;

    at[0] = GOLDENSKEP_AS_(uint8_t, is_id ? 1 : 2);
    at[1] = GOLDENSKEP_AS_(uint8_t, is_id ? id & 0xFF : 0);
}

static inline int goldenskep_is_local_code_(long code)
{
    return code >= -0x7FFFFFFF - 1 && code <= 0x7FFFFFFF;
}

/* The span of `length` octets at `place`. */
static inline goldenskep_span goldenskep_span_at(size_t place, size_t length)
{
    goldenskep_span span;
    int fits = place <= 0xFFFFFFFFu && length <= 0xFFFFFFFFu;

    span.place = fits ? GOLDENSKEP_AS_(uint32_t, place) : 0xFFFFFFFFu;
    span.length = fits ? GOLDENSKEP_AS_(uint32_t, length) : 0xFFFFFFFFu;
    return span;
}

/* Appends octets to material of which *used are taken, and gives their span. If
 * they do not fit, nothing is appended, and writing with the span is refused. */
static inline goldenskep_span goldenskep_append(uint8_t *material, size_t room, size_t *used,
                                                const uint8_t *octets, size_t length)
{
    goldenskep_span span = goldenskep_span_at(0xFFFFFFFFu, 0xFFFFFFFFu);
    size_t i;

    if (*used <= room && length <= room - *used && *used + length <= 0xFFFFFFFFu) {
        span = goldenskep_span_at(*used, length);
        for (i = 0; i < length; i++)
            material[*used + i] = octets[i];
        *used += length;
    }
    return span;
}

/* A record of this kind of message, without IDs, dialogue and components. */
static inline void goldenskep_record_init(goldenskep_record *record, long kind)
{
    goldenskep_zero_(record->octets, GOLDENSKEP_RECORD_SIZE);
    record->octets[0] = goldenskep_octet_(kind);
}

/* The kind alone: the IDs stay. */
static inline void goldenskep_record_set_kind(goldenskep_record *record, long kind)
{
    record->octets[0] = goldenskep_octet_(kind);
}

static inline void goldenskep_record_set_orig(goldenskep_record *record, goldenskep_span id)
{
    record->octets[1] = 1;
    goldenskep_put_span_(record->octets + 8, id);
}

static inline void goldenskep_record_clear_orig(goldenskep_record *record)
{
    record->octets[1] = 0;
    goldenskep_zero_(record->octets + 8, 8);
}

static inline void goldenskep_record_set_dest(goldenskep_record *record, goldenskep_span id)
{
    record->octets[2] = 1;
    goldenskep_put_span_(record->octets + 16, id);
}

static inline void goldenskep_record_clear_dest(goldenskep_record *record)
{
    record->octets[2] = 0;
    goldenskep_zero_(record->octets + 16, 8);
}

/* No dialogue portion and no cause. All that set one put it in the place of
 * another, its user information included. */
static inline void goldenskep_record_clear_dialogue(goldenskep_record *record)
{
    record->octets[3] = GOLDENSKEP_DIALOGUE_NONE;
    goldenskep_zero_(record->octets + 24, 20);
}

/* Abort: its P-Abort cause. */
static inline void goldenskep_record_set_cause(goldenskep_record *record, long cause)
{
    goldenskep_record_clear_dialogue(record);
    record->octets[3] = GOLDENSKEP_DIALOGUE_CAUSE;
    record->octets[41] = goldenskep_octet_(cause);
}

/* A dialogue request with this application context name. */
static inline void goldenskep_record_set_request(goldenskep_record *record, goldenskep_span name)
{
    goldenskep_record_clear_dialogue(record);
    record->octets[3] = GOLDENSKEP_DIALOGUE_REQUEST;
    goldenskep_put_span_(record->octets + 24, name);
}

/* A dialogue response. */
static inline void goldenskep_record_set_response(goldenskep_record *record, goldenskep_span name, long result,
                                                  long diagnostic_source, long diagnostic)
{
    goldenskep_record_clear_dialogue(record);
    record->octets[3] = GOLDENSKEP_DIALOGUE_RESPONSE;
    goldenskep_put_span_(record->octets + 24, name);
    record->octets[41] = goldenskep_octet_(result);
    record->octets[42] = goldenskep_octet_(diagnostic_source);
    record->octets[43] = goldenskep_octet_(diagnostic);
}

/* A dialogue abort. */
static inline void goldenskep_record_set_dialogue_abort(goldenskep_record *record, long source)
{
    goldenskep_record_clear_dialogue(record);
    record->octets[3] = GOLDENSKEP_DIALOGUE_ABORT;
    record->octets[41] = goldenskep_octet_(source);
}

/* A unidialogue with this application context name. */
static inline void goldenskep_record_set_unidialogue(goldenskep_record *record, goldenskep_span name)
{
    goldenskep_record_clear_dialogue(record);
    record->octets[3] = GOLDENSKEP_DIALOGUE_UNI;
    goldenskep_put_span_(record->octets + 24, name);
}

/* Another name, with one element. */
static inline void goldenskep_record_set_element(goldenskep_record *record, goldenskep_span name,
                                                 goldenskep_span element)
{
    goldenskep_record_clear_dialogue(record);
    record->octets[3] = GOLDENSKEP_DIALOGUE_ELEMENT;
    goldenskep_put_span_(record->octets + 24, name);
    goldenskep_put_span_(record->octets + 32, element);
}

/* Another name, with plain octets. */
static inline void goldenskep_record_set_octets(goldenskep_record *record, goldenskep_span name,
                                                goldenskep_span octets)
{
    goldenskep_record_clear_dialogue(record);
    record->octets[3] = GOLDENSKEP_DIALOGUE_OCTETS;
    goldenskep_put_span_(record->octets + 24, name);
    goldenskep_put_span_(record->octets + 32, octets);
}

/* User information for a request, response, abort or unidialogue set before. */
static inline void goldenskep_record_set_user_info(goldenskep_record *record, goldenskep_span elements)
{
    record->octets[40] = 1;
    goldenskep_put_span_(record->octets + 32, elements);
}

static inline void goldenskep_record_clear_user_info(goldenskep_record *record)
{
    record->octets[40] = 0;
    goldenskep_zero_(record->octets + 32, 8);
}

/* ---- building a record: its components ----
 *
 * For an index that is no component of the record nothing is set: what is set of
 * a component is set after it was added. */

/* Of no use to a host: the octets of a component. */
static inline uint8_t *goldenskep_row_to_(goldenskep_record *record, long k)
{
    return record->octets + 44 + 24 * k;
}

static inline void goldenskep_component_set_invoke_id(goldenskep_record *record, long k, long id)
{
    if (goldenskep_is_component_(record, k))
        goldenskep_put_id_(goldenskep_row_to_(record, k) + 1, id);
}

/* A null invoke ID, for a Reject. */
static inline void goldenskep_component_set_null_invoke_id(goldenskep_record *record, long k)
{
    if (goldenskep_is_component_(record, k))
        goldenskep_zero_(goldenskep_row_to_(record, k) + 1, 2);
}

/* Invoke: the linked ID. */
static inline void goldenskep_component_set_linked_id(goldenskep_record *record, long k, long id)
{
    if (goldenskep_is_component_(record, k))
        goldenskep_put_id_(goldenskep_row_to_(record, k) + 3, id);
}

static inline void goldenskep_component_clear_linked_id(goldenskep_record *record, long k)
{
    if (goldenskep_is_component_(record, k))
        goldenskep_zero_(goldenskep_row_to_(record, k) + 3, 2);
}

/* All but Reject: the code, a number. */
static inline void goldenskep_component_set_local_code(goldenskep_record *record, long k, long code)
{
    if (goldenskep_is_component_(record, k)) {
        uint8_t *row = goldenskep_row_to_(record, k);

        goldenskep_zero_(row + 8, 8);
        row[5] = 255;
        if (goldenskep_is_local_code_(code)) {
            row[5] = GOLDENSKEP_CODE_LOCAL;
            goldenskep_put_number_(row + 8, GOLDENSKEP_AS_(uint32_t, code));
        }
    }
}

/* All but Reject: the code, the contents of an object identifier. */
static inline void goldenskep_component_set_global_code(goldenskep_record *record, long k,
                                                        goldenskep_span identifier)
{
    if (goldenskep_is_component_(record, k)) {
        uint8_t *row = goldenskep_row_to_(record, k);

        row[5] = GOLDENSKEP_CODE_GLOBAL;
        goldenskep_put_span_(row + 8, identifier);
    }
}

/* No code: a return result without contents has neither code nor parameter. */
static inline void goldenskep_component_clear_code(goldenskep_record *record, long k)
{
    if (goldenskep_is_component_(record, k)) {
        uint8_t *row = goldenskep_row_to_(record, k);

        row[5] = GOLDENSKEP_CODE_NONE;
        goldenskep_zero_(row + 8, 8);
    }
}

/* All but Reject: the parameter, one whole element, tag and length included. */
static inline void goldenskep_component_set_parameter(goldenskep_record *record, long k,
                                                      goldenskep_span element)
{
    if (goldenskep_is_component_(record, k)) {
        uint8_t *row = goldenskep_row_to_(record, k);

        row[6] = 1;
        goldenskep_put_span_(row + 16, element);
    }
}

static inline void goldenskep_component_clear_parameter(goldenskep_record *record, long k)
{
    if (goldenskep_is_component_(record, k)) {
        uint8_t *row = goldenskep_row_to_(record, k);

        row[6] = 0;
        goldenskep_zero_(row + 16, 8);
    }
}

/* Reject: the type of its problem, and the problem. */
static inline void goldenskep_component_set_problem(goldenskep_record *record, long k, long type, long problem)
{
    if (goldenskep_is_component_(record, k)) {
        uint8_t *row = goldenskep_row_to_(record, k);

        row[5] = goldenskep_octet_(type);
        row[7] = goldenskep_octet_(problem);
    }
}

/* Adds a component with nothing but its kind. This and all the goldenskep_add_..
 * below answer its index, or -1, which is no component, if the record is full. */
static inline int goldenskep_add_component(goldenskep_record *record, long kind)
{
    int k = goldenskep_record_count(record);

    if (k >= GOLDENSKEP_MAX_COMPONENTS)
        return -1;
    goldenskep_put_number_(record->octets + 4, GOLDENSKEP_AS_(uint32_t, k + 1));
    goldenskep_zero_(goldenskep_row_to_(record, k), 24);
    goldenskep_row_to_(record, k)[0] = goldenskep_octet_(kind);
    return k;
}

/* An Invoke with a local operation code. Linked ID, parameter or a global code
 * in its stead are set by goldenskep_component_set_... */
static inline int goldenskep_add_invoke(goldenskep_record *record, long invoke_id, long local_code)
{
    int k = goldenskep_add_component(record, GOLDENSKEP_COMPONENT_INVOKE);

    goldenskep_component_set_invoke_id(record, k, invoke_id);
    goldenskep_component_set_local_code(record, k, local_code);
    return k;
}

/* A Return Result Last without contents. Code and parameter, both, may be set. */
static inline int goldenskep_add_return_result_last(goldenskep_record *record, long invoke_id)
{
    int k = goldenskep_add_component(record, GOLDENSKEP_COMPONENT_RETURN_RESULT_LAST);

    goldenskep_component_set_invoke_id(record, k, invoke_id);
    return k;
}

/* The same as a Return Result Not Last. */
static inline int goldenskep_add_return_result_not_last(goldenskep_record *record, long invoke_id)
{
    int k = goldenskep_add_component(record, GOLDENSKEP_COMPONENT_RETURN_RESULT_NOT_LAST);

    goldenskep_component_set_invoke_id(record, k, invoke_id);
    return k;
}

/* A Return Error with a local error code. A parameter may be set. */
static inline int goldenskep_add_return_error(goldenskep_record *record, long invoke_id, long local_code)
{
    int k = goldenskep_add_component(record, GOLDENSKEP_COMPONENT_RETURN_ERROR);

    goldenskep_component_set_invoke_id(record, k, invoke_id);
    goldenskep_component_set_local_code(record, k, local_code);
    return k;
}

/* A Reject with a null invoke ID. An invoke ID may be set. */
static inline int goldenskep_add_reject(goldenskep_record *record, long problem_type, long problem)
{
    int k = goldenskep_add_component(record, GOLDENSKEP_COMPONENT_REJECT);

    goldenskep_component_set_problem(record, k, problem_type, problem);
    return k;
}

/* ---- rules ----
 *
 * Rules are asked from the first on. One fits if its kind is the message's or
 * GOLDENSKEP_MESSAGE_ANY, and if it names no code or the first component is an
 * Invoke with that local code. With a kind that is none, a code outside 32 bits
 * or a link outside 0 to 4294967295 it fits nothing. */

/* Messages of this kind, whatever their code, go to the link. */
static inline void goldenskep_rule_set(goldenskep_rule *rule, long kind, long link)
{
    goldenskep_zero_(rule->octets, GOLDENSKEP_RULE_SIZE);
    rule->octets[0] = 255;
    if (link >= 0 && link <= 0xFFFFFFFF) {
        rule->octets[0] = goldenskep_octet_(kind);
        goldenskep_put_number_(rule->octets + 8, GOLDENSKEP_AS_(uint32_t, link));
    }
}

/* Messages of this kind with this local operation code go to the link. */
static inline void goldenskep_rule_set_code(goldenskep_rule *rule, long kind, long local_code, long link)
{
    goldenskep_rule_set(rule, kind, link);
    rule->octets[1] = 255;
    if (goldenskep_is_local_code_(local_code)) {
        rule->octets[1] = 1;
        goldenskep_put_number_(rule->octets + 4, GOLDENSKEP_AS_(uint32_t, local_code));
    }
}

static inline int goldenskep_rule_kind(const goldenskep_rule *rule)
{
    return rule->octets[0];
}

static inline int goldenskep_rule_has_code(const goldenskep_rule *rule)
{
    return rule->octets[1] == 1;
}

static inline int32_t goldenskep_rule_code(const goldenskep_rule *rule)
{
    return goldenskep_signed_number_(rule->octets + 4);
}

static inline uint32_t goldenskep_rule_link(const goldenskep_rule *rule)
{
    return goldenskep_number_(rule->octets + 8);
}

/* ---- unitdata ----
 *
 * Of the answer of a reading that is done: where the parts stand in the unitdata,
 * each without its length octet. Data may be empty. */

/* Of no use to a host: a part in an answer. */
static inline goldenskep_span goldenskep_unitdata_part_(uint64_t answer, int from)
{
    return goldenskep_span_at(goldenskep_bits_(answer, from, 9), goldenskep_bits_(answer, from + 9, 8));
}

/* Whom it is for. */
static inline goldenskep_span goldenskep_unitdata_called(uint64_t answer)
{
    return goldenskep_unitdata_part_(answer, 8);
}

/* Whom it is from. */
static inline goldenskep_span goldenskep_unitdata_calling(uint64_t answer)
{
    return goldenskep_unitdata_part_(answer, 25);
}

/* What it carries: a TCAP message, where the hosts speak TCAP. */
static inline goldenskep_span goldenskep_unitdata_data(uint64_t answer)
{
    return goldenskep_unitdata_part_(answer, 42);
}

/* The protocol class of a unitdata that was read: any octet. */
static inline uint8_t goldenskep_unitdata_class(const uint8_t *message)
{
    return message[1];
}

/* Writes a unitdata with this data back to where one that was read came from: of
 * its class, called and calling address swapped. `answer` is that of its reading,
 * which must be done. If its addresses have more than 252 octets together, which
 * reading takes, it is 35. */
static inline uint64_t goldenskep_unitdata_write_back(const uint8_t *message, uint64_t answer,
                                                      const uint8_t *data, size_t data_length,
                                                      uint8_t *out, size_t out_length)
{
    goldenskep_span called = goldenskep_unitdata_called(answer);
    goldenskep_span calling = goldenskep_unitdata_calling(answer);

    return goldenskep_unitdata_write(goldenskep_unitdata_class(message),
                                     message + calling.place, calling.length,
                                     message + called.place, called.length,
                                     data, data_length, out, out_length);
}

/* ---- a table of open transactions ----
 *
 * Entry k is from 0 to 63. Of another index all is 0. */

/* The empty table. */
static inline void goldenskep_table_init(goldenskep_table *table)
{
    goldenskep_zero_(table->octets, GOLDENSKEP_TABLE_SIZE);
}

/* goldenskep_transaction() on a table. Without a partner's ID, its pointer may be
 * NULL. A number that is no octet is an event that no state allows. */
static inline uint64_t goldenskep_table_step(goldenskep_table *table, long event,
                                             const uint8_t *ours, size_t ours_length,
                                             const uint8_t *partner, size_t partner_length)
{
    return goldenskep_transaction(table->octets, GOLDENSKEP_TABLE_SIZE, goldenskep_octet_(event),
                                  ours, ours_length, partner, partner_length);
}

/* Of no use to a host: the octets of an entry, or octets 0. */
static inline const uint8_t *goldenskep_entry_(const goldenskep_table *table, long k)
{
    static const uint8_t none[12] = { 0 };

    return k >= 0 && k < GOLDENSKEP_MAX_TRANSACTIONS ? table->octets + 12 * k : none;
}

/* The state of an entry: idle if there is no transaction in it. Only if there is
 * one have the IDs a meaning. */
static inline int goldenskep_entry_state(const goldenskep_table *table, long k)
{
    int state = goldenskep_entry_(table, k)[0];

    return state <= GOLDENSKEP_STATE_ACTIVE ? state : GOLDENSKEP_STATE_IDLE;
}

/* Our ID, in the octets of the table: the originating ID of what we send. For an
 * event of the same table it is copied first: the table is written. */
static inline goldenskep_span goldenskep_entry_ours(const goldenskep_table *table, long k)
{
    uint32_t length = goldenskep_entry_(table, k)[1];

    return goldenskep_span_at(length != 0 ? GOLDENSKEP_AS_(uint32_t, 12 * k + 4) : 0, length <= 4 ? length : 0);
}

/* The partner's ID, once it is known, in the octets of the table: the destination
 * ID of what we send. */
static inline int goldenskep_entry_has_partner(const goldenskep_table *table, long k)
{
    return goldenskep_entry_(table, k)[2] != 0;
}

static inline goldenskep_span goldenskep_entry_partner(const goldenskep_table *table, long k)
{
    uint32_t length = goldenskep_entry_(table, k)[2];

    return goldenskep_span_at(length != 0 ? GOLDENSKEP_AS_(uint32_t, 12 * k + 8) : 0, length <= 4 ? length : 0);
}

/* How many transactions are open. */
static inline int goldenskep_table_count(const goldenskep_table *table)
{
    int count = 0;
    int k;

    for (k = 0; k < GOLDENSKEP_MAX_TRANSACTIONS; k++)
        count += goldenskep_entry_state(table, k) != GOLDENSKEP_STATE_IDLE;
    return count;
}

#undef GOLDENSKEP_AS_

#endif
