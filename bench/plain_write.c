/* The writer in plain C, straight from the octets of the layout.
 *
 * A first pass over the record asks for 24, 23 and 21 and adds up sizes: 24 at
 * once, of the others the one that comes first in the order. Then the strings
 * are judged (22), then the room (25), and only then is anything written. */
#include "plain_layout.h"

#include <stdbool.h>
#include <string.h>

enum { PAST_MATERIAL = 21, MALFORMED = 22, OUT_OF_RANGE = 23, WRONG_PART = 24, NO_ROOM = 25 };

enum { CONSTRUCTOR = 0x20, EXTENDED = 0x1F };

static const uint8_t structured_name[9] = { 0x06, 7, 0x00, 0x11, 0x86, 0x05, 0x01, 0x01, 0x01 };
static const uint8_t unstructured_name[9] = { 0x06, 7, 0x00, 0x11, 0x86, 0x05, 0x01, 0x02, 0x01 };

struct span {
    uint32_t place;
    uint32_t len;
};

struct writer {
    const uint8_t *record;
    const uint8_t *material;
    size_t material_len;
    unsigned count;               /* rows to look at */
    bool out_of_range;
    bool past_material;
    /* Contents octets, each innermost first; past 255 any number over 255. */
    unsigned pdu, single, external, dialogue;
    unsigned rows[PLAIN_MAX_COMPONENTS];
    unsigned inner[PLAIN_MAX_COMPONENTS];   /* of a result's 30 */
    unsigned components;
    unsigned message;
};

static inline struct span get_span(const uint8_t *p)
{
    struct span s = { get4(p), get4(p + 4) };

    return s;
}

/* ---- sizes ---- */

/* A longer string never fits; cut here, no sum of sizes can overflow. */
static inline unsigned capped(uint32_t len)
{
    return len <= PLAIN_MAX_MESSAGE ? len : PLAIN_MAX_MESSAGE + 1;
}

/* The octets of an element with so many contents octets. */
static inline unsigned element(unsigned contents)
{
    return contents < 128 ? contents + 2 : contents + 3;
}

/* The fewest octets of a local code. */
static inline unsigned code_octets(uint32_t code)
{
    uint32_t n = code & 0x80000000u ? ~code : code;

    return n < 0x80 ? 1 : n < 0x8000 ? 2 : n < 0x800000 ? 3 : 4;
}

/* ---- 24, 23 and 21 ---- */

/* The span of a string that is there: does it lie in the material? */
static inline struct span place_span(struct writer *w, const uint8_t *p)
{
    struct span s = get_span(p);

    if ((uint64_t)s.place + s.len > w->material_len)
        w->past_material = true;
    return s;
}

/* The same for an ID or identifier, of 1 to most octets: its length. */
static inline unsigned place_short(struct writer *w, const uint8_t *p, uint32_t most)
{
    struct span s = place_span(w, p);

    if (s.len - 1 >= most)
        w->out_of_range = true;
    return capped(s.len);
}

static inline void number_in_range(struct writer *w, unsigned number, unsigned most)
{
    if (number > most)
        w->out_of_range = true;
}

/* The dialogue portion: its octets, or 0 and *wrong. */
static unsigned measure_dialogue(struct writer *w, bool *wrong)
{
    const uint8_t *r = w->record;
    unsigned size;

    switch (r[3]) {
    case LAYOUT_NONE:
        *wrong = r[40] != 0;
        return 0;
    case LAYOUT_CAUSE:
        *wrong = r[40] != 0 || r[0] != PLAIN_ABORT;
        number_in_range(w, r[41], PLAIN_MAX_CAUSE);
        return 3;
    case LAYOUT_REQUEST:
    case LAYOUT_UNI:
        size = 4 + place_short(w, r + 24, PLAIN_MAX_IDENTIFIER);
        break;
    case LAYOUT_RESPONSE:
        *wrong = r[42] != 0xA1 && r[42] != 0xA2;
        number_in_range(w, r[41], PLAIN_MAX_RESULT);
        number_in_range(w, r[43], PLAIN_MAX_DIAGNOSTIC);
        size = 4 + place_short(w, r + 24, PLAIN_MAX_IDENTIFIER) + 5 + 7;
        break;
    case LAYOUT_ABORT:
        number_in_range(w, r[41], PLAIN_MAX_SOURCE);
        size = 3;
        break;
    case LAYOUT_ELEMENT:
    case LAYOUT_OCTETS:
        *wrong = r[40] != 0;
        w->external = 2 + place_short(w, r + 24, PLAIN_MAX_IDENTIFIER)
                      + element(capped(place_span(w, r + 32).len));
        w->dialogue = element(w->external);
        return element(w->dialogue);
    default:
        *wrong = true;
        return 0;
    }
    if (r[40] > 1)
        *wrong = true;
    else if (r[40] == 1)
        size += element(capped(place_span(w, r + 32).len));
    w->pdu = size;
    w->single = element(size);
    w->external = sizeof structured_name + element(w->single);
    w->dialogue = element(w->external);
    return element(w->dialogue);
}

/* The code of a row: its octets. */
static inline unsigned measure_code(struct writer *w, const uint8_t *row)
{
    if (row[5] == 0x02)
        return 2 + code_octets(get4(row + 8));
    return 2 + place_short(w, row + 8, PLAIN_MAX_IDENTIFIER);
}

static inline unsigned measure_parameter(struct writer *w, const uint8_t *row)
{
    return row[6] == 0 ? 0 : capped(place_span(w, row + 16).len);
}

/* Row k: false for 24. */
static inline bool measure_row(struct writer *w, unsigned k, const uint8_t *row)
{
    static const uint8_t most_problem[4] = PLAIN_MAX_PROBLEMS;
    bool is_code = row[5] == 0x02 || row[5] == 0x06;
    unsigned size = 3;

    if (row[1] != 1 && (row[1] != 0 || row[0] != PLAIN_REJECT))
        return false;
    /* A linked ID is there in an Invoke only, a parameter not in a Reject. */
    switch (row[0]) {
    case PLAIN_INVOKE:
        if (row[3] > 1 || !is_code || row[6] > 1)
            return false;
        if (row[3] == 1)
            size += 3;
        size += measure_code(w, row) + measure_parameter(w, row);
        break;
    case PLAIN_ERROR:
        if (row[3] != 0 || !is_code || row[6] > 1)
            return false;
        size += measure_code(w, row) + measure_parameter(w, row);
        break;
    case PLAIN_LAST:
    case PLAIN_NOT_LAST:
        if (row[3] != 0)
            return false;
        if (row[5] == 0 && row[6] == 0)
            break;
        if (!is_code || row[6] != 1)
            return false;
        w->inner[k] = measure_code(w, row) + measure_parameter(w, row);
        size += element(w->inner[k]);
        break;
    case PLAIN_REJECT:
        if (row[3] != 0 || row[6] != 0 || row[5] < 0x80 || row[5] > 0x83)
            return false;
        number_in_range(w, row[7], most_problem[row[5] - 0x80]);
        size = (row[1] ? 3 : 2) + 3;
        break;
    default:
        return false;
    }
    w->rows[k] = size;
    w->components += element(size);
    return true;
}

/* The whole record: 0, 24, 23 or 21. */
static int measure(struct writer *w)
{
    const uint8_t *r = w->record;
    const uint8_t kind = r[0];
    uint32_t count = get4(r + 4);
    bool needs_orig = kind == PLAIN_BEGIN || kind == PLAIN_CONTINUE;
    bool needs_dest = kind == PLAIN_END || kind == PLAIN_CONTINUE || kind == PLAIN_ABORT;
    bool wrong = false;
    unsigned size = 0;

    if (!needs_orig && !needs_dest && kind != PLAIN_UNIDIRECTIONAL)
        return WRONG_PART;
    if (r[1] != needs_orig || r[2] != needs_dest)
        return WRONG_PART;
    if ((kind == PLAIN_UNIDIRECTIONAL && count == 0) || (kind == PLAIN_ABORT && count != 0))
        return WRONG_PART;
    if (needs_orig)
        size += 2 + place_short(w, r + 8, PLAIN_MAX_ID);
    if (needs_dest)
        size += 2 + place_short(w, r + 16, PLAIN_MAX_ID);
    size += measure_dialogue(w, &wrong);
    if (wrong)
        return WRONG_PART;
    w->count = count;
    if (count > PLAIN_MAX_COMPONENTS) {
        w->count = PLAIN_MAX_COMPONENTS;
        w->out_of_range = true;
    }
    for (unsigned k = 0; k < w->count; k++)
        if (!measure_row(w, k, r + HEAD_SIZE + ROW_SIZE * k))
            return WRONG_PART;
    if (w->count > 0)
        size += element(w->components);
    w->message = size;
    return w->out_of_range ? OUT_OF_RANGE : w->past_material ? PAST_MATERIAL : 0;
}

/* ---- 22 ---- */

static const uint8_t *walk_element(const uint8_t *p, const uint8_t *end, int level);

/* The elements of an indefinite constructor, up to and with its end pair. */
static const uint8_t *walk_open(const uint8_t *p, const uint8_t *end, int level)
{
    for (;;) {
        if (end - p < 2)
            return NULL;
        if (p[0] == 0 && p[1] == 0)
            return p + 2;
        p = walk_element(p, end, level);
        if (p == NULL)
            return NULL;
    }
}

/* The place behind the element at p, walked to the bottom, or NULL. */
static const uint8_t *walk_element(const uint8_t *p, const uint8_t *end, int level)
{
    uint8_t first;
    size_t n;

    if (p == end || level > PLAIN_MAX_LEVEL)
        return NULL;
    first = *p++;
    if ((first & EXTENDED) == EXTENDED) {
        if (p == end || *p == 0x80 || *p < EXTENDED)
            return NULL;
        for (int i = 1; *p++ >= 0x80; i++)
            if (i == 3 || p == end)
                return NULL;
    } else if ((first & ~CONSTRUCTOR) == 0) {
        return NULL;
    }
    if (p == end)
        return NULL;
    n = *p++;
    if (n == 0x80)
        return first & CONSTRUCTOR ? walk_open(p, end, level + 1) : NULL;
    if (n > 0x80) {
        size_t octets = n - 0x80;

        /* More than eight name a length that no material has. */
        if (octets > 8 || octets > (size_t)(end - p) || *p == 0)
            return NULL;
        n = 0;
        for (const uint8_t *last = p + octets; p != last; p++)
            n = n << 8 | *p;
        if (n < 0x80)
            return NULL;
    }
    if (n > (size_t)(end - p))
        return NULL;
    end = p + n;
    if (first & CONSTRUCTOR)
        while (p != end) {
            p = walk_element(p, end, level + 1);
            if (p == NULL)
                return NULL;
        }
    return end;
}

static inline bool is_element(const struct writer *w, const uint8_t *span, int level)
{
    struct span s = get_span(span);
    const uint8_t *p = w->material + s.place, *end = p + s.len;

    return walk_element(p, end, level) == end && s.len > 0;
}

/* What BE holds: elements with tag 28. */
static bool is_user_info(const struct writer *w, const uint8_t *span)
{
    struct span s = get_span(span);
    const uint8_t *p = w->material + s.place, *end = p + s.len;

    while (p != end) {
        if (*p != 0x28)
            return false;
        p = walk_element(p, end, 7);
        if (p == NULL)
            return false;
    }
    return true;
}

static bool is_identifier(const struct writer *w, const uint8_t *span)
{
    struct span s = get_span(span);
    const uint8_t *p = w->material + s.place, *last = p + s.len - 1;

    if (*p == 0x80 || *last >= 0x80)
        return false;
    /* A number begins behind an octet without bit H. */
    for (; p != last; p++)
        if (p[1] == 0x80 && p[0] < 0x80)
            return false;
    return true;
}

/* Is it one of the two names that mean a dialogue? */
static bool is_reserved(const struct writer *w, const uint8_t *span)
{
    struct span s = get_span(span);
    const uint8_t *name = w->material + s.place;

    return s.len == 7 && (memcmp(name, structured_name + 2, 7) == 0 ||
                          memcmp(name, unstructured_name + 2, 7) == 0);
}

static bool dialogue_sound(const struct writer *w)
{
    const uint8_t *r = w->record;

    switch (r[3]) {
    case LAYOUT_NONE:
    case LAYOUT_CAUSE:
        return true;
    case LAYOUT_ELEMENT:
        return is_identifier(w, r + 24) && !is_reserved(w, r + 24) && is_element(w, r + 32, 5);
    case LAYOUT_OCTETS:
        return is_identifier(w, r + 24) && !is_reserved(w, r + 24);
    case LAYOUT_ABORT:
        break;
    default:
        if (!is_identifier(w, r + 24))
            return false;
        break;
    }
    return r[40] == 0 || is_user_info(w, r + 32);
}

static inline bool row_sound(const struct writer *w, const uint8_t *row)
{
    bool in_result = row[0] == PLAIN_LAST || row[0] == PLAIN_NOT_LAST;

    if (row[0] == PLAIN_REJECT)
        return true;
    if (row[5] == 0x06 && !is_identifier(w, row + 8))
        return false;
    return row[6] == 0 || is_element(w, row + 16, in_result ? 5 : 4);
}

static bool strings_sound(const struct writer *w)
{
    if (!dialogue_sound(w))
        return false;
    for (unsigned k = 0; k < w->count; k++)
        if (!row_sound(w, w->record + HEAD_SIZE + ROW_SIZE * k))
            return false;
    return true;
}

/* ---- octets ---- */

static inline uint8_t *put_head(uint8_t *o, uint8_t tag, unsigned contents)
{
    *o++ = tag;
    if (contents >= 128)
        *o++ = 0x81;
    *o++ = (uint8_t)contents;
    return o;
}

static inline uint8_t *put_octet(uint8_t *o, uint8_t tag, uint8_t octet)
{
    o[0] = tag;
    o[1] = 1;
    o[2] = octet;
    return o + 3;
}

static inline uint8_t *put_octets(const struct writer *w, uint8_t *o, const uint8_t *span)
{
    struct span s = get_span(span);

    memcpy(o, w->material + s.place, s.len);
    return o + s.len;
}

/* An element around octets of the material. */
static inline uint8_t *put_string(const struct writer *w, uint8_t *o, uint8_t tag, const uint8_t *span)
{
    o = put_head(o, tag, get4(span + 4));
    return put_octets(w, o, span);
}

static inline uint8_t *put_code(const struct writer *w, uint8_t *o, const uint8_t *row)
{
    unsigned n;
    uint32_t code;

    if (row[5] == 0x06)
        return put_string(w, o, 0x06, row + 8);
    code = get4(row + 8);
    n = code_octets(code);
    *o++ = 0x02;
    *o++ = (uint8_t)n;
    while (n-- > 0)
        *o++ = (uint8_t)(code >> 8 * n);
    return o;
}

static uint8_t *put_dialogue(const struct writer *w, uint8_t *o)
{
    const uint8_t *r = w->record;

    o = put_head(o, 0x6B, w->dialogue);
    o = put_head(o, 0x28, w->external);
    if (r[3] == LAYOUT_ELEMENT || r[3] == LAYOUT_OCTETS) {
        o = put_string(w, o, 0x06, r + 24);
        return put_string(w, o, r[3] == LAYOUT_ELEMENT ? 0xA0 : 0x81, r + 32);
    }
    memcpy(o, r[3] == LAYOUT_UNI ? unstructured_name : structured_name, sizeof structured_name);
    o += sizeof structured_name;
    o = put_head(o, 0xA0, w->single);
    o = put_head(o, r[3] == LAYOUT_ABORT ? 0x64 : r[3] == LAYOUT_RESPONSE ? 0x61 : 0x60, w->pdu);
    if (r[3] == LAYOUT_ABORT) {
        o = put_octet(o, 0x80, r[41]);
    } else {
        o = put_head(o, 0xA1, get4(r + 28) + 2);
        o = put_string(w, o, 0x06, r + 24);
    }
    if (r[3] == LAYOUT_RESPONSE) {
        o = put_head(o, 0xA2, 3);
        o = put_octet(o, 0x02, r[41]);
        o = put_head(o, 0xA3, 5);
        o = put_head(o, r[42], 3);
        o = put_octet(o, 0x02, r[43]);
    }
    if (r[40] == 1)
        o = put_string(w, o, 0xBE, r + 32);
    return o;
}

static inline uint8_t *put_row(const struct writer *w, uint8_t *o, unsigned k, const uint8_t *row)
{
    o = put_head(o, row[0], w->rows[k]);
    if (row[1] == 1) {
        o = put_octet(o, 0x02, row[2]);
    } else {
        *o++ = 0x05;
        *o++ = 0x00;
    }
    if (row[0] == PLAIN_REJECT)
        return put_octet(o, row[5], row[7]);
    if (row[3] == 1)
        o = put_octet(o, 0x80, row[4]);
    if (row[0] == PLAIN_LAST || row[0] == PLAIN_NOT_LAST) {
        if (row[5] == 0)
            return o;
        o = put_head(o, 0x30, w->inner[k]);
    }
    o = put_code(w, o, row);
    if (row[6] == 1)
        o = put_octets(w, o, row + 16);
    return o;
}

static void put_message(const struct writer *w, uint8_t *o)
{
    const uint8_t *r = w->record;

    o = put_head(o, r[0], w->message);
    if (r[1] == 1)
        o = put_string(w, o, 0x48, r + 8);
    if (r[2] == 1)
        o = put_string(w, o, 0x49, r + 16);
    if (r[3] == LAYOUT_CAUSE)
        o = put_octet(o, 0x4A, r[41]);
    else if (r[3] != LAYOUT_NONE)
        o = put_dialogue(w, o);
    if (w->count > 0) {
        o = put_head(o, 0x6C, w->components);
        for (unsigned k = 0; k < w->count; k++)
            o = put_row(w, o, k, r + HEAD_SIZE + ROW_SIZE * k);
    }
}

uint64_t plain_write_layout(const uint8_t *record, size_t record_len,
                            const uint8_t *material, size_t material_len,
                            uint8_t *out, size_t out_len)
{
    struct writer w;
    unsigned size;
    int refused;

    if (record_len < RECORD_SIZE)
        return WRONG_PART;
    w.record = record;
    w.material = material;
    w.material_len = material_len;
    w.out_of_range = false;
    w.past_material = false;
    w.pdu = w.single = w.external = w.dialogue = 0;
    w.components = 0;
    refused = measure(&w);
    if (refused != 0)
        return (uint64_t)refused;
    if (!strings_sound(&w))
        return MALFORMED;
    size = element(w.message);
    if (size > PLAIN_MAX_MESSAGE || size > out_len)
        return NO_ROOM;
    put_message(&w, out);
    return (uint64_t)size << 8;
}
