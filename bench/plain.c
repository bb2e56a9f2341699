/* A plain reader of TCAP messages.
 *
 * Recursive descent: a function is handed the place `p` and the end of the
 * enclosing contents, and returns the place behind what it read, or NULL after
 * a fault, whose number and place then stand in the refusal. The callers that
 * know whose fault it is add the standard answer.
 *
 * Everywhere the order of questions is: end of the contents, 17th component,
 * tag, code 0, level, expected tag, length, contents. Where one certain tag is
 * wanted and stands there, the questions before it are answered by that; where
 * it does not, misplaced() asks them in order. The named elements lie at
 * level 8 at the most, so only read_head() has to ask for the level. */
#include "plain.h"

#include <stdbool.h>

enum {
    CUT_OFF = 1,
    BAD_TAG = 2,
    BAD_LENGTH = 3,
    TOO_LONG = 4,
    TOO_DEEP = 5,
    CODE_ZERO = 6,
    OVER_255 = 7,
    NO_MESSAGE = 8,
    OCTETS_AFTER = 9,
    BAD_VALUE = 11,
    TOO_MANY = 12,
    NO_COMPONENT = 13,
    MISSING = 14,                 /* the contents end where something is due */
    ANOTHER = 15,                 /* an element where only others may stand */
    ONE_MORE = 16                 /* an element where nothing more may */
};

enum { CONSTRUCTOR = 0x20, EXTENDED = 0x1F };

enum {
    TAG_INTEGER = 0x02,
    TAG_NULL = 0x05,
    TAG_IDENTIFIER = 0x06,
    TAG_EXTERNAL = 0x28,
    TAG_SEQUENCE = 0x30,
    TAG_ORIG = 0x48,
    TAG_DEST = 0x49,
    TAG_CAUSE = 0x4A,
    TAG_DIALOGUE = 0x6B,
    TAG_COMPONENTS = 0x6C,
    TAG_LINKED = 0x80,
    TAG_SINGLE = 0xA0,            /* in an EXTERNAL: one element */
    TAG_OCTETS = 0x81,            /* in an EXTERNAL: primitive contents */
    TAG_REQUEST = 0x60,           /* also the unidialogue's */
    TAG_RESPONSE = 0x61,
    TAG_DIALOGUE_ABORT = 0x64,
    TAG_VERSION = 0x80,
    TAG_CONTEXT = 0xA1,
    TAG_RESULT = 0xA2,
    TAG_DIAGNOSTIC = 0xA3,
    TAG_USER = 0xA1,
    TAG_PROVIDER = 0xA2,
    TAG_SOURCE = 0x80,
    TAG_USER_INFO = 0xBE
};

struct reader {
    const uint8_t *msg;
    struct plain_record *out;
    struct plain_refusal *no;
};

/* The contents of an element. When `open`, the length was indefinite: `end` is
 * then that of the enclosing contents, and a pair 00 00 is to come before it. */
struct contents {
    const uint8_t *at;            /* NULL after a fault */
    const uint8_t *end;
    bool open;
};

static const uint8_t *fault(const struct reader *r, int number, const uint8_t *place)
{
    r->no->number = (uint8_t)number;
    r->no->place = (uint8_t)(place - r->msg);
    return NULL;
}

static inline struct plain_span span(const struct reader *r, const uint8_t *from,
                                     const uint8_t *to)
{
    struct plain_span s = { (uint8_t)(from - r->msg), (uint8_t)(to - from) };
    return s;
}

/* ---- places ---- */

enum place { GOES_ON, ENDS, PAIR_MISSING };

/* The first question at every place: do the contents end here? */
static inline enum place look(const uint8_t *p, const uint8_t *end, bool open)
{
    if (p == end)
        return open ? PAIR_MISSING : ENDS;
    if (!open || *p != 0)
        return GOES_ON;
    if (end - p < 2)
        return PAIR_MISSING;
    return p[1] == 0 ? ENDS : GOES_ON;
}

static inline const uint8_t *behind_end(const uint8_t *p, bool open)
{
    return open ? p + 2 : p;
}

/* The octets of the extended tag at p, or 0 and its fault. */
static size_t extended_tag(const uint8_t *p, const uint8_t *end, int *number)
{
    size_t left = (size_t)(end - p);

    for (size_t i = 1; i < left; i++) {
        bool more = (p[i] & 0x80) != 0;

        if (i == 1 && (p[i] == 0x80 || p[i] < EXTENDED)) {
            *number = BAD_TAG;
            return 0;
        }
        if (!more)
            return i + 1;
        if (i == 3) {
            *number = BAD_TAG;
            return 0;
        }
    }
    *number = CUT_OFF;
    return 0;
}

/* What stands at p is not what is wanted there: which fault is it? An element
 * with a sound tag is number `other`. */
static const uint8_t *misplaced(const struct reader *r, const uint8_t *p,
                                const uint8_t *end, bool open, int other)
{
    int number = other;

    switch (look(p, end, open)) {
    case ENDS:
        number = MISSING;
        break;
    case PAIR_MISSING:
        number = CUT_OFF;
        break;
    case GOES_ON:
        if ((*p & EXTENDED) == EXTENDED)
            extended_tag(p, end, &number);
        else if ((*p & ~CONSTRUCTOR) == 0)
            number = CODE_ZERO;
        break;
    }
    return fault(r, number, p);
}

/* The same where something is due. */
static const uint8_t *unexpected(const struct reader *r, const uint8_t *p,
                                 const uint8_t *end, bool open)
{
    return misplaced(r, p, end, open, ANOTHER);
}

/* The contents have to end at p: the place behind them. */
static inline const uint8_t *finish(const struct reader *r, const uint8_t *p,
                                    const uint8_t *end, bool open, int other)
{
    if (look(p, end, open) == ENDS)
        return behind_end(p, open);
    return misplaced(r, p, end, open, other);
}

static inline bool stands(const uint8_t *p, const uint8_t *end, uint8_t tag)
{
    return p != end && *p == tag;
}

/* ---- lengths ---- */

/* Which fault of length has the element whose length octets begin at p? */
static const uint8_t *length_fault(const struct reader *r, const uint8_t *element,
                                   const uint8_t *p, const uint8_t *end)
{
    int number;

    if (p == end)
        number = CUT_OFF;
    else if (*p < 0x80)
        number = TOO_LONG;
    else if (*p == 0x80 || *p == 0xFF)
        number = BAD_LENGTH;
    else if (end - p <= *p - 0x80)
        number = CUT_OFF;
    else if (p[1] == 0 || (*p == 0x81 && p[1] < 0x80))
        number = BAD_LENGTH;
    else
        number = TOO_LONG;
    return fault(r, number, element);
}

/* The length at p and the contents behind it. There is room for 255 octets at
 * the most, so one octet, 80, and 81 with 80 or more are all that can be good. */
static inline struct contents read_length(const struct reader *r, const uint8_t *element,
                                          const uint8_t *p, const uint8_t *end)
{
    struct contents c = { NULL, NULL, false };
    size_t left = (size_t)(end - p);

    if (left > 0) {
        size_t n = *p;

        if (n < 0x80) {
            if (n < left) {
                c.at = p + 1;
                c.end = c.at + n;
                return c;
            }
        } else if (n == 0x80) {
            if (*element & CONSTRUCTOR) {
                c.at = p + 1;
                c.end = end;
                c.open = true;
                return c;
            }
        } else if (n == 0x81) {
            if (left >= 2 && p[1] >= 0x80 && p[1] <= left - 2) {
                c.at = p + 2;
                c.end = c.at + p[1];
                return c;
            }
        }
    }
    length_fault(r, element, p, end);
    return c;
}

/* How many contents octets has the primitive at p, its tag known, if it has
 * from 1 to `most` of them, under 128, and they lie before the end? Else 0. */
static inline size_t short_contents(const uint8_t *p, const uint8_t *end, size_t most)
{
    size_t left = (size_t)(end - p);
    size_t n;

    if (left < 2)
        return 0;
    n = p[1];
    return n <= most && n <= left - 2 ? n : 0;
}

/* The primitive at p, its tag known, is not one that is wanted there: its
 * length is bad, or else its contents are. */
static const uint8_t *bad_primitive(const struct reader *r, const uint8_t *p,
                                    const uint8_t *end)
{
    if (read_length(r, p, p + 1, end).at == NULL)
        return NULL;
    return fault(r, BAD_VALUE, p);
}

/* ---- any element, to the bottom ---- */

/* Tag, code 0, level and length of the element at p, where contents go on. */
static inline struct contents read_head(const struct reader *r, const uint8_t *p,
                                        const uint8_t *end, int level)
{
    const struct contents none = { NULL, NULL, false };
    size_t tag_octets = 1;

    if ((*p & EXTENDED) == EXTENDED) {
        int number;

        tag_octets = extended_tag(p, end, &number);
        if (tag_octets == 0) {
            fault(r, number, p);
            return none;
        }
    } else if ((*p & ~CONSTRUCTOR) == 0) {
        fault(r, CODE_ZERO, p);
        return none;
    }
    if (level > PLAIN_MAX_LEVEL) {
        fault(r, TOO_DEEP, p);
        return none;
    }
    return read_length(r, p, p + tag_octets, end);
}

/* The elements from p to the end of the contents, each to the bottom. */
static const uint8_t *walk_series(const struct reader *r, const uint8_t *p,
                                  const uint8_t *end, bool open, int level)
{
    for (;;) {
        struct contents c;

        switch (look(p, end, open)) {
        case ENDS:
            return behind_end(p, open);
        case PAIR_MISSING:
            return fault(r, CUT_OFF, p);
        case GOES_ON:
            break;
        }
        c = read_head(r, p, end, level);
        if (c.at == NULL)
            return NULL;
        if ((*p & CONSTRUCTOR) == 0) {
            p = c.end;
        } else {
            p = walk_series(r, c.at, c.end, c.open, level + 1);
            if (p == NULL)
                return NULL;
        }
    }
}

/* The one element at p, where the contents go on, to the bottom. */
static inline const uint8_t *walk_element(const struct reader *r, const uint8_t *p,
                                          const uint8_t *end, int level)
{
    struct contents c = read_head(r, p, end, level);

    if (c.at == NULL)
        return NULL;
    if ((*p & CONSTRUCTOR) == 0)
        return c.end;
    return walk_series(r, c.at, c.end, c.open, level + 1);
}

/* ---- primitives ---- */

/* The identifier 06 that must stand at p. */
static const uint8_t *read_identifier(const struct reader *r, const uint8_t *p,
                                      const uint8_t *end, bool open,
                                      struct plain_span *to)
{
    const uint8_t *at, *last;
    size_t n;

    if (!stands(p, end, TAG_IDENTIFIER))
        return unexpected(r, p, end, open);
    n = short_contents(p, end, PLAIN_MAX_IDENTIFIER);
    if (n == 0)
        return bad_primitive(r, p, end);
    at = p + 2;
    last = at + n - 1;
    if (*at == 0x80 || *last >= 0x80)
        return fault(r, BAD_VALUE, p);
    /* A number begins behind an octet without bit H. */
    for (const uint8_t *q = at; q != last; q++)
        if (q[1] == 0x80 && q[0] < 0x80)
            return fault(r, BAD_VALUE, p);
    *to = span(r, at, at + n);
    return at + n;
}

/* The primitive at p, its tag known: one octet, 0 to most. */
static inline const uint8_t *read_octet(const struct reader *r, const uint8_t *p,
                                        const uint8_t *end, uint8_t most, uint8_t *to)
{
    if (short_contents(p, end, 1) != 1)
        return bad_primitive(r, p, end);
    if (p[2] > most)
        return fault(r, BAD_VALUE, p);
    *to = p[2];
    return p + 3;
}

/* The same, for an invoke or linked ID. */
static inline const uint8_t *read_signed(const struct reader *r, const uint8_t *p,
                                         const uint8_t *end, int8_t *to)
{
    if (short_contents(p, end, 1) != 1)
        return bad_primitive(r, p, end);
    *to = (int8_t)p[2];
    return p + 3;
}

/* The transaction ID that must stand at p. */
static inline const uint8_t *read_transaction(const struct reader *r, const uint8_t *p,
                                              const uint8_t *end, bool open, uint8_t tag,
                                              struct plain_span *to)
{
    size_t n;

    if (!stands(p, end, tag))
        return unexpected(r, p, end, open);
    n = short_contents(p, end, PLAIN_MAX_ID);
    if (n == 0)
        return bad_primitive(r, p, end);
    *to = span(r, p + 2, p + 2 + n);
    return p + 2 + n;
}

/* ---- the dialogue portion ---- */

/* An optional BE at p. */
static const uint8_t *read_user_info(const struct reader *r, const uint8_t *p,
                                     const uint8_t *end)
{
    struct plain_dialogue *d = &r->out->dialogue;
    struct contents c;

    if (!stands(p, end, TAG_USER_INFO)) {
        d->has_user_info = 0;
        return p;
    }
    c = read_length(r, p, p + 1, end);
    if (c.at == NULL)
        return NULL;
    p = c.at;
    while (stands(p, c.end, TAG_EXTERNAL)) {
        p = walk_element(r, p, c.end, 7);
        if (p == NULL)
            return NULL;
    }
    d->has_user_info = 1;
    d->user_info = span(r, c.at, p);
    return finish(r, p, c.end, c.open, ANOTHER);
}

/* [80 02 07 80] and A1 holding 06. */
static const uint8_t *read_context(const struct reader *r, const uint8_t *p,
                                   const uint8_t *end, bool open)
{
    struct contents c;

    if (stands(p, end, TAG_VERSION)) {
        if (short_contents(p, end, 2) != 2 || p[2] != 0x07 || p[3] != 0x80)
            return bad_primitive(r, p, end);
        p += 4;
    }
    if (!stands(p, end, TAG_CONTEXT))
        return unexpected(r, p, end, open);
    c = read_length(r, p, p + 1, end);
    if (c.at == NULL)
        return NULL;
    p = read_identifier(r, c.at, c.end, c.open, &r->out->dialogue.name);
    if (p == NULL)
        return NULL;
    return finish(r, p, c.end, c.open, ONE_MORE);
}

/* The constructor at p, its tag known, that holds 02 with 0 to most. */
static const uint8_t *read_held_number(const struct reader *r, const uint8_t *p,
                                       const uint8_t *end, uint8_t most, uint8_t *to)
{
    struct contents c = read_length(r, p, p + 1, end);

    if (c.at == NULL)
        return NULL;
    if (!stands(c.at, c.end, TAG_INTEGER))
        return unexpected(r, c.at, c.end, c.open);
    p = read_octet(r, c.at, c.end, most, to);
    if (p == NULL)
        return NULL;
    return finish(r, p, c.end, c.open, ONE_MORE);
}

/* A2 holding the result and A3 holding the diagnostic of a response. */
static const uint8_t *read_result(const struct reader *r, const uint8_t *p,
                                  const uint8_t *end, bool open)
{
    struct plain_dialogue *d = &r->out->dialogue;
    struct contents c;

    if (!stands(p, end, TAG_RESULT))
        return unexpected(r, p, end, open);
    p = read_held_number(r, p, end, PLAIN_MAX_RESULT, &d->result);
    if (p == NULL)
        return NULL;
    if (!stands(p, end, TAG_DIAGNOSTIC))
        return unexpected(r, p, end, open);
    c = read_length(r, p, p + 1, end);
    if (c.at == NULL)
        return NULL;
    if (!stands(c.at, c.end, TAG_USER) && !stands(c.at, c.end, TAG_PROVIDER))
        return unexpected(r, c.at, c.end, c.open);
    d->source = *c.at;
    p = read_held_number(r, c.at, c.end, PLAIN_MAX_DIAGNOSTIC, &d->diagnostic);
    if (p == NULL)
        return NULL;
    return finish(r, p, c.end, c.open, ONE_MORE);
}

/* The PDU that must stand at p. */
static const uint8_t *read_pdu(const struct reader *r, const uint8_t *p,
                               const uint8_t *end, bool open, bool structured)
{
    struct plain_dialogue *d = &r->out->dialogue;
    struct contents c;

    if (stands(p, end, TAG_REQUEST))
        d->kind = structured ? PLAIN_DIALOGUE_REQUEST : PLAIN_DIALOGUE_UNI;
    else if (structured && stands(p, end, TAG_RESPONSE))
        d->kind = PLAIN_DIALOGUE_RESPONSE;
    else if (structured && stands(p, end, TAG_DIALOGUE_ABORT))
        d->kind = PLAIN_DIALOGUE_ABORT;
    else
        return unexpected(r, p, end, open);
    c = read_length(r, p, p + 1, end);
    if (c.at == NULL)
        return NULL;
    p = c.at;
    if (d->kind == PLAIN_DIALOGUE_ABORT) {
        if (!stands(p, c.end, TAG_SOURCE))
            return unexpected(r, p, c.end, c.open);
        p = read_octet(r, p, c.end, PLAIN_MAX_SOURCE, &d->source);
    } else {
        p = read_context(r, p, c.end, c.open);
        if (p != NULL && d->kind == PLAIN_DIALOGUE_RESPONSE)
            p = read_result(r, p, c.end, c.open);
    }
    if (p == NULL)
        return NULL;
    p = read_user_info(r, p, c.end);
    if (p == NULL)
        return NULL;
    return finish(r, p, c.end, c.open, d->has_user_info ? ONE_MORE : ANOTHER);
}

/* Is it 00 11 86 05 01 01 01 (1), 00 11 86 05 01 02 01 (2) or another (0)? */
static int dialogue_name(const uint8_t *name, size_t len)
{
    if (len != 7 || name[0] != 0x00 || name[1] != 0x11 || name[2] != 0x86 ||
        name[3] != 0x05 || name[4] != 0x01 || name[6] != 0x01)
        return 0;
    return name[5] == 1 || name[5] == 2 ? name[5] : 0;
}

/* The EXTERNAL at p, its tag known. */
static const uint8_t *read_external(const struct reader *r, const uint8_t *p,
                                    const uint8_t *end)
{
    struct plain_dialogue *d = &r->out->dialogue;
    struct contents c = read_length(r, p, p + 1, end), one;
    int name;

    if (c.at == NULL)
        return NULL;
    p = read_identifier(r, c.at, c.end, c.open, &d->name);
    if (p == NULL)
        return NULL;
    name = dialogue_name(p - d->name.len, d->name.len);
    if (stands(p, c.end, TAG_SINGLE)) {
        one = read_length(r, p, p + 1, c.end);
        if (one.at == NULL)
            return NULL;
        if (name != 0) {
            p = read_pdu(r, one.at, one.end, one.open, name == 1);
            if (p == NULL)
                return NULL;
        } else {
            if (look(one.at, one.end, one.open) != GOES_ON)
                return unexpected(r, one.at, one.end, one.open);
            p = walk_element(r, one.at, one.end, 5);
            if (p == NULL)
                return NULL;
            d->kind = PLAIN_DIALOGUE_OTHER;
            d->form = TAG_SINGLE;
            d->octets = span(r, one.at, p);
        }
        p = finish(r, p, one.end, one.open, ONE_MORE);
        if (p == NULL)
            return NULL;
    } else if (name == 0 && stands(p, c.end, TAG_OCTETS)) {
        one = read_length(r, p, p + 1, c.end);
        if (one.at == NULL)
            return NULL;
        d->kind = PLAIN_DIALOGUE_OTHER;
        d->form = TAG_OCTETS;
        d->octets = span(r, one.at, one.end);
        p = one.end;
    } else {
        return unexpected(r, p, c.end, c.open);
    }
    return finish(r, p, c.end, c.open, ONE_MORE);
}

/* ---- components ---- */

/* The code, 02 or 06, that must stand at p. A local code has the fewest octets
 * if its first nine bits are not all the same. */
static const uint8_t *read_code(const struct reader *r, const uint8_t *p,
                                const uint8_t *end, bool open, struct plain_row *row)
{
    int32_t value;
    size_t n;

    if (!stands(p, end, TAG_INTEGER)) {
        row->code_kind = PLAIN_CODE_GLOBAL;
        return read_identifier(r, p, end, open, &row->code.global);
    }
    n = short_contents(p, end, PLAIN_MAX_LOCAL_CODE);
    if (n == 0)
        return bad_primitive(r, p, end);
    if (n > 1 && ((p[2] == 0x00 && p[3] < 0x80) || (p[2] == 0xFF && p[3] >= 0x80)))
        return fault(r, BAD_VALUE, p);
    value = (int8_t)p[2];
    for (size_t i = 1; i < n; i++)
        value = value * 256 + p[2 + i];
    row->code_kind = PLAIN_CODE_LOCAL;
    row->code.local = value;
    return p + 2 + n;
}

/* The optional parameter at p, which ends the contents. */
static inline const uint8_t *read_parameter(const struct reader *r, const uint8_t *p,
                                            const uint8_t *end, bool open, int level,
                                            struct plain_row *row)
{
    const uint8_t *from = p;

    if (look(p, end, open) == GOES_ON) {
        p = walk_element(r, p, end, level);
        if (p == NULL)
            return NULL;
        row->has_parameter = 1;
        row->parameter = span(r, from, p);
    }
    return finish(r, p, end, open, ONE_MORE);
}

/* [30 holding code and parameter], which ends the contents. */
static const uint8_t *read_return(const struct reader *r, const uint8_t *p,
                                  const uint8_t *end, bool open, struct plain_row *row)
{
    struct contents c;

    if (!stands(p, end, TAG_SEQUENCE))
        return finish(r, p, end, open, ANOTHER);
    c = read_length(r, p, p + 1, end);
    if (c.at == NULL)
        return NULL;
    p = read_code(r, c.at, c.end, c.open, row);
    if (p == NULL)
        return NULL;
    if (look(p, c.end, c.open) != GOES_ON)
        return unexpected(r, p, c.end, c.open);
    p = read_parameter(r, p, c.end, c.open, 5, row);
    if (p == NULL)
        return NULL;
    return finish(r, p, end, open, ONE_MORE);
}

/* The problem that must stand at p and ends the contents. */
static const uint8_t *read_problem(const struct reader *r, const uint8_t *p,
                                   const uint8_t *end, bool open, struct plain_row *row)
{
    static const uint8_t most[4] = PLAIN_MAX_PROBLEMS;

    if (p == end || *p < 0x80 || *p > 0x83)
        return unexpected(r, p, end, open);
    row->code_kind = *p;
    p = read_octet(r, p, end, most[*p - 0x80], &row->problem);
    if (p == NULL)
        return NULL;
    return finish(r, p, end, open, ONE_MORE);
}

/* The component at p, its tag known. */
static const uint8_t *read_component(const struct reader *r, const uint8_t *p,
                                     const uint8_t *end, struct plain_row *row)
{
    const uint8_t kind = *p;
    const struct contents c = read_length(r, p, p + 1, end);

    *row = (struct plain_row){ .kind = kind };
    if (c.at == NULL)
        return NULL;
    p = c.at;
    if (stands(p, c.end, TAG_INTEGER)) {
        p = read_signed(r, p, c.end, &row->invoke);
        if (p == NULL)
            return NULL;
        row->has_invoke = 1;
    } else if (kind == PLAIN_REJECT && stands(p, c.end, TAG_NULL)) {
        if (c.end - p < 2 || p[1] != 0)
            return bad_primitive(r, p, c.end);
        p += 2;
    } else {
        return unexpected(r, p, c.end, c.open);
    }

    switch (kind) {
    case PLAIN_INVOKE:
        if (stands(p, c.end, TAG_LINKED)) {
            p = read_signed(r, p, c.end, &row->linked);
            if (p == NULL)
                return NULL;
            row->has_linked = 1;
        }
        /* fall through */
    case PLAIN_ERROR:
        p = read_code(r, p, c.end, c.open, row);
        if (p == NULL)
            return NULL;
        return read_parameter(r, p, c.end, c.open, 4, row);
    case PLAIN_REJECT:
        return read_problem(r, p, c.end, c.open, row);
    default:
        return read_return(r, p, c.end, c.open, row);
    }
}

/* ---- standard answers ---- */

static const uint8_t *answer_cause(const struct reader *r, int cause)
{
    r->no->is_problem = 0;
    r->no->answer = (uint8_t)cause;
    r->no->component = 0;
    r->no->has_invoke = 0;
    r->no->invoke = 0;
    return NULL;
}

/* A fault that belongs neither to 6B's contents nor to a component. */
static const uint8_t *answer_message(const struct reader *r)
{
    switch (r->no->number) {
    case NO_MESSAGE:
        return answer_cause(r, 0);
    case TOO_MANY:
        return answer_cause(r, 4);
    case BAD_VALUE:
    case MISSING:
    case ANOTHER:
    case ONE_MORE:
        return answer_cause(r, 3);
    default:
        return answer_cause(r, 2);
    }
}

/* A fault in component `index`; `row` when its contents were begun. */
static const uint8_t *answer_component(const struct reader *r, unsigned index,
                                       const struct plain_row *row)
{
    struct plain_refusal *no = r->no;

    no->is_problem = 1;
    no->component = (uint8_t)index;
    no->has_invoke = 0;
    no->invoke = 0;
    if (row != NULL && row->has_invoke) {
        no->has_invoke = 1;
        no->invoke = row->invoke;
    }
    switch (no->number) {
    case NO_COMPONENT:
        no->answer = 0;
        break;
    case BAD_VALUE:
    case MISSING:
    case ANOTHER:
    case ONE_MORE:
        no->answer = 1;
        break;
    default:
        no->answer = 2;
        break;
    }
    return NULL;
}

/* ---- the parts of a message, answers included ---- */

/* What stands at p in 6B, or is missing there, is a fault in its contents,
 * except for the end pair of 6B itself. */
static const uint8_t *dialogue_misplaced(const struct reader *r, const uint8_t *p,
                                         const struct contents *c, int other)
{
    misplaced(r, p, c->end, c->open, other);
    return answer_cause(r, look(p, c->end, c->open) == PAIR_MISSING ? 2 : 3);
}

/* 6B at p. */
static const uint8_t *read_dialogue(const struct reader *r, const uint8_t *p,
                                    const uint8_t *end)
{
    struct contents c = read_length(r, p, p + 1, end);

    if (c.at == NULL)
        return answer_message(r);
    p = c.at;
    if (!stands(p, c.end, TAG_EXTERNAL))
        return dialogue_misplaced(r, p, &c, ANOTHER);
    p = read_external(r, p, c.end);
    if (p == NULL)
        return answer_cause(r, 3);
    if (look(p, c.end, c.open) != ENDS)
        return dialogue_misplaced(r, p, &c, ONE_MORE);
    return behind_end(p, c.open);
}

static inline bool is_component(uint8_t tag)
{
    return tag == PLAIN_INVOKE || tag == PLAIN_LAST || tag == PLAIN_ERROR ||
           tag == PLAIN_REJECT || tag == PLAIN_NOT_LAST;
}

/* 6C at p. */
static const uint8_t *read_components(const struct reader *r, const uint8_t *p,
                                      const uint8_t *end)
{
    struct contents c = read_length(r, p, p + 1, end);
    struct plain_row *row = r->out->rows;
    unsigned count = 0;

    if (c.at == NULL)
        return answer_message(r);
    p = c.at;
    for (;;) {
        switch (look(p, c.end, c.open)) {
        case ENDS:
            if (count == 0) {
                fault(r, MISSING, p);
                return answer_message(r);
            }
            r->out->count = (uint8_t)count;
            return behind_end(p, c.open);
        case PAIR_MISSING:
            fault(r, CUT_OFF, p);
            return answer_message(r);
        case GOES_ON:
            break;
        }
        if (count == PLAIN_MAX_COMPONENTS) {
            fault(r, TOO_MANY, p);
            return answer_message(r);
        }
        if (!is_component(*p)) {
            misplaced(r, p, c.end, c.open, NO_COMPONENT);
            return answer_component(r, count, NULL);
        }
        p = read_component(r, p, c.end, row);
        if (p == NULL)
            return answer_component(r, count, row);
        count++;
        row++;
    }
}

/* Everything between the message's tag and its end. */
static const uint8_t *read_parts(const struct reader *r, const uint8_t *end)
{
    struct plain_record *out = r->out;
    struct contents c = read_length(r, r->msg, r->msg + 1, end);
    const uint8_t *p = c.at;
    bool has_orig = out->kind == PLAIN_BEGIN || out->kind == PLAIN_CONTINUE;
    bool has_dest = out->kind != PLAIN_BEGIN && out->kind != PLAIN_UNIDIRECTIONAL;
    int other = ANOTHER;          /* behind the last part: ONE_MORE */

    if (p != NULL && has_orig)
        p = read_transaction(r, p, c.end, c.open, TAG_ORIG, &out->orig);
    if (p != NULL && has_dest)
        p = read_transaction(r, p, c.end, c.open, TAG_DEST, &out->dest);
    if (p == NULL)
        return answer_message(r);

    if (stands(p, c.end, TAG_DIALOGUE)) {
        p = read_dialogue(r, p, c.end);
        if (p == NULL)
            return NULL;
        if (out->kind == PLAIN_ABORT)
            other = ONE_MORE;
    } else if (out->kind == PLAIN_ABORT && stands(p, c.end, TAG_CAUSE)) {
        out->dialogue.kind = PLAIN_DIALOGUE_CAUSE;
        p = read_octet(r, p, c.end, PLAIN_MAX_CAUSE, &out->dialogue.cause);
        if (p == NULL)
            return answer_message(r);
        other = ONE_MORE;
    }

    if (out->kind != PLAIN_ABORT && stands(p, c.end, TAG_COMPONENTS)) {
        p = read_components(r, p, c.end);
        if (p == NULL)
            return NULL;
        other = ONE_MORE;
    } else if (out->kind == PLAIN_UNIDIRECTIONAL) {
        unexpected(r, p, c.end, c.open);
        return answer_message(r);
    }

    p = finish(r, p, c.end, c.open, other);
    if (p != NULL && p != end)
        p = fault(r, OCTETS_AFTER, p);
    if (p == NULL)
        return answer_message(r);
    return p;
}

/* The originating ID of an unknown type of message: a constructor, its tag one
 * octet, and 48 first in it. Whatever fault is found here, number 8 comes over it. */
static void read_unknown(const struct reader *r, const uint8_t *end)
{
    uint8_t tag = *r->msg;
    struct contents c;

    if ((tag & CONSTRUCTOR) == 0 || tag == CONSTRUCTOR || (tag & EXTENDED) == EXTENDED)
        return;
    c = read_length(r, r->msg, r->msg + 1, end);
    if (c.at != NULL)
        read_transaction(r, c.at, c.end, c.open, TAG_ORIG, &r->out->orig);
}

int plain_read(const uint8_t *msg, size_t len,
               struct plain_record *out, struct plain_refusal *no)
{
    const struct reader r = { msg, out, no };
    const struct plain_span none = { 0, 0 };

    out->orig = none;
    out->dest = none;
    out->dialogue.kind = PLAIN_DIALOGUE_NONE;
    out->count = 0;
    if (len > PLAIN_MAX_MESSAGE) {
        fault(&r, OVER_255, msg + PLAIN_MAX_MESSAGE);
    } else if (len == 0) {
        fault(&r, CUT_OFF, msg);
    } else {
        switch (msg[0]) {
        case PLAIN_UNIDIRECTIONAL:
        case PLAIN_BEGIN:
        case PLAIN_END:
        case PLAIN_CONTINUE:
        case PLAIN_ABORT:
            out->kind = msg[0];
            if (read_parts(&r, msg + len) != NULL)
                return 0;
            no->orig = out->orig;
            return no->number;
        default:
            read_unknown(&r, msg + len);
            fault(&r, NO_MESSAGE, msg);
            break;
        }
    }
    answer_message(&r);
    no->orig = out->orig;
    return no->number;
}
