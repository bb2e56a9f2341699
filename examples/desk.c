/* Shows the open transactions.
 *
 *   desk [LINES]
 *
 * Each line is `sent` or `received` with a message in hex, `close` with an ID of
 * ours in hex, or `show`. Prints what each event did in the table of open
 * transactions, and for `show` the table.
 *
 * What a message says of its transaction is in its record:
 *
 *   - Sent: our ID is the originating one. An End and an Abort carry the
 *     partner's alone; the entry that holds it is the transaction. (A host that
 *     has two partners knows its own ID anyway, and looks for nothing.)
 *   - Received: our ID is the destination one, the partner's the originating one.
 *     A Begin has none of ours, and is given the lowest number from 1 on that is
 *     not in use.
 *   - A Unidirectional is of no transaction. */
#include "goldenskep.h"
#include "lines.h"

enum { MESSAGE_ROOM = 1024, LOWEST = 1, HIGHEST = 255 };

/* An ID, and whether there is one. */
struct id {
    int is_known;
    uint8_t octets[4];
    size_t length;
};

static struct id id_at(const uint8_t *octets, goldenskep_span span)
{
    struct id id = { 1, { 0 }, span.length };

    memcpy(id.octets, octets + span.place, span.length);
    return id;
}

static int is_same(struct id a, struct id b)
{
    return a.length == b.length && memcmp(a.octets, b.octets, a.length) == 0;
}

/* The open transaction with this partner's ID: our ID. */
static struct id ours_by_partner(const goldenskep_table *table, struct id partner)
{
    struct id none = { 0, { 0 }, 0 };

    for (int k = 0; k < GOLDENSKEP_MAX_TRANSACTIONS; k++)
        if (goldenskep_entry_state(table, k) != GOLDENSKEP_STATE_IDLE && goldenskep_entry_has_partner(table, k) &&
            is_same(id_at(table->octets, goldenskep_entry_partner(table, k)), partner))
            return id_at(table->octets, goldenskep_entry_ours(table, k));
    return none;
}

static int is_in_use(const goldenskep_table *table, struct id ours)
{
    for (int k = 0; k < GOLDENSKEP_MAX_TRANSACTIONS; k++)
        if (goldenskep_entry_state(table, k) != GOLDENSKEP_STATE_IDLE &&
            is_same(id_at(table->octets, goldenskep_entry_ours(table, k)), ours))
            return 1;
    return 0;
}

/* The lowest number that is no ID of ours: with 64 open it is 65 at most. */
static struct id free_number(const goldenskep_table *table)
{
    struct id id = { 1, { LOWEST }, 1 };

    while (id.octets[0] < HIGHEST && is_in_use(table, id))
        id.octets[0]++;
    return id;
}

static void step(goldenskep_table *table, int event, struct id ours, struct id partner)
{
    uint64_t answer = goldenskep_table_step(table, event, ours.octets, ours.length, partner.octets, partner.length);

    printf("%s", goldenskep_event_words(event));
    if (ours.length > 0) {
        printf(", our ID ");
        print_octets(ours.octets, ours.length);
    }
    if (goldenskep_answer_is_done(answer))
        printf(": %s, entry %d\n", goldenskep_deed_words(goldenskep_answer_deed(answer)), goldenskep_answer_entry(answer));
    else
        printf(": refused %d, %s\n", goldenskep_answer_status(answer),
               goldenskep_status_words(goldenskep_answer_status(answer)));
}

/* The event of a message that was sent, or that was received. */
static int event_of(int kind, int is_sent)
{
    switch (kind) {
    case GOLDENSKEP_MESSAGE_BEGIN: return is_sent ? GOLDENSKEP_EVENT_BEGIN_SENT : GOLDENSKEP_EVENT_BEGIN_RECEIVED;
    case GOLDENSKEP_MESSAGE_CONTINUE: return is_sent ? GOLDENSKEP_EVENT_CONTINUE_SENT : GOLDENSKEP_EVENT_CONTINUE_RECEIVED;
    case GOLDENSKEP_MESSAGE_END: return is_sent ? GOLDENSKEP_EVENT_END_SENT : GOLDENSKEP_EVENT_END_RECEIVED;
    default: return is_sent ? GOLDENSKEP_EVENT_ABORT_SENT : GOLDENSKEP_EVENT_ABORT_RECEIVED;
    }
}

static void take_message(goldenskep_table *table, int is_sent, const uint8_t *message, size_t n)
{
    struct id orig = { 0, { 0 }, 0 }, dest = { 0, { 0 }, 0 };
    goldenskep_record record;
    uint64_t answer = goldenskep_read_record(message, n, &record);
    int kind;

    if (!goldenskep_answer_is_done(answer)) {
        printf("unreadable, %s\n", goldenskep_status_words(goldenskep_answer_status(answer)));
        return;
    }
    kind = goldenskep_record_kind(&record);
    if (goldenskep_record_has_orig(&record))
        orig = id_at(message, goldenskep_record_orig(&record));
    if (goldenskep_record_has_dest(&record))
        dest = id_at(message, goldenskep_record_dest(&record));
    if (kind == GOLDENSKEP_MESSAGE_UNIDIRECTIONAL) {
        printf("Unidirectional, of no transaction\n");
    } else if (!is_sent) {
        step(table, event_of(kind, 0), dest.is_known ? dest : free_number(table), orig);
    } else {
        struct id ours = orig.is_known ? orig : ours_by_partner(table, dest);

        if (ours.is_known)
            step(table, event_of(kind, 1), ours, dest);
        else
            printf("%s, but no open transaction has that partner's ID\n", goldenskep_event_words(event_of(kind, 1)));
    }
}

static void show(const goldenskep_table *table)
{
    printf("%d open\n", goldenskep_table_count(table));
    for (int k = 0; k < GOLDENSKEP_MAX_TRANSACTIONS; k++) {
        goldenskep_span ours = goldenskep_entry_ours(table, k);

        if (goldenskep_entry_state(table, k) == GOLDENSKEP_STATE_IDLE)
            continue;
        printf("    entry %d: our ID ", k);
        print_octets(table->octets + ours.place, ours.length);
        if (goldenskep_entry_has_partner(table, k)) {
            goldenskep_span partner = goldenskep_entry_partner(table, k);

            printf(", partner's ");
            print_octets(table->octets + partner.place, partner.length);
        }
        printf(", %s\n", goldenskep_state_words(goldenskep_entry_state(table, k)));
    }
}

/* What follows the word, if the line begins with it; else NULL. */
static const char *after_word(const char *line, const char *word)
{
    size_t n = strlen(word);

    return strncmp(line, word, n) == 0 && (line[n] == ' ' || line[n] == '\0') ? line + n : NULL;
}

int main(int argc, char **argv)
{
    static char line[LINE_SIZE], comment[LINE_SIZE];
    static goldenskep_table table;
    unsigned long number = 0, count = 0;
    const char *text;
    FILE *file;

    if (argc > 2) {
        fprintf(stderr, "usage: desk [LINES]\n");
        return 2;
    }
    if (!goldenskep_header_fits()) {
        fprintf(stderr, "header and library are not of one layout\n");
        return 2;
    }
    goldenskep_table_init(&table);
    file = open_or_stdin(argv[1]);
    while ((text = next_line(file, line, comment, &number)) != NULL) {
        static uint8_t octets[MESSAGE_ROOM];
        const char *sent = after_word(text, "sent"), *received = after_word(text, "received");
        const char *closed = after_word(text, "close");
        const char *hex = sent != NULL ? sent : received != NULL ? received : closed;
        int n = hex == NULL ? 0 : hex_octets(hex, octets, sizeof octets);

        if (n < 0 || (closed != NULL && n > 4) || (hex == NULL && strcmp(text, "show") != 0)) {
            fprintf(stderr, "line %lu is none of sent, received, close and show, or not in hex\n", number);
            return 2;
        }
        if (*comment != '\0')
            printf("# %s\n", comment);
        printf("%lu ", ++count);
        if (hex == NULL)
            show(&table);
        else if (closed != NULL)
            step(&table, GOLDENSKEP_EVENT_LOCAL_CLOSE, id_at(octets, goldenskep_span_at(0, (uint32_t)n)),
                 id_at(octets, goldenskep_span_at(0, 0)));
        else
            take_message(&table, sent != NULL, octets, (size_t)n);
    }
    return 0;
}
