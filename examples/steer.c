/* Steers messages by a rule file.
 *
 *   steer RULES [MESSAGES]
 *
 * A rule is a line `KIND CODE LINK`: a kind of message (unidirectional, begin,
 * end, continue, abort) or any, a local operation code or any, the number of a
 * link. The first rule that fits a message gives its link. Prints for each
 * message its link, or that no rule fits, or why and where it is unreadable and
 * what is sent back (answer.c makes the octets of it). An unknown type of message
 * (8) is answered as well, with an Abort of cause 0, if its ID is told. */
#include "goldenskep.h"
#include "lines.h"

enum { MAX_RULES = 1000, MESSAGE_ROOM = 1024 };

static goldenskep_rule rules[MAX_RULES];

/* The kind that is called so, or -1. */
static int kind_called(const char *name)
{
    static const struct {
        const char *name;
        int kind;
    } kinds[] = {
        { "any", GOLDENSKEP_MESSAGE_ANY },           { "unidirectional", GOLDENSKEP_MESSAGE_UNIDIRECTIONAL },
        { "begin", GOLDENSKEP_MESSAGE_BEGIN },       { "end", GOLDENSKEP_MESSAGE_END },
        { "continue", GOLDENSKEP_MESSAGE_CONTINUE }, { "abort", GOLDENSKEP_MESSAGE_ABORT },
    };

    for (size_t i = 0; i < sizeof kinds / sizeof kinds[0]; i++)
        if (strcmp(name, kinds[i].name) == 0)
            return kinds[i].kind;
    return -1;
}

/* A whole decimal number in a range; 0 if the text is none. */
static int number_in(const char *text, long long least, long long most, long long *to)
{
    char *end;

    *to = strtoll(text, &end, 10);
    return end != text && *end == '\0' && *to >= least && *to <= most;
}

/* Reads the rule file: how many rules. */
static size_t read_rules(const char *name)
{
    static char line[LINE_SIZE], comment[LINE_SIZE];
    FILE *file = open_or_stdin(name);
    unsigned long number = 0;
    size_t count = 0;
    char *text;

    while ((text = next_line(file, line, comment, &number)) != NULL) {
        char kind_name[16], code_name[16], link_name[16], more;
        int fields = sscanf(text, "%15s %15s %15s %c", kind_name, code_name, link_name, &more);
        long long code = 0, link = 0;
        int kind = fields == 3 ? kind_called(kind_name) : -1;
        int any_code = fields == 3 && strcmp(code_name, "any") == 0;

        if (kind < 0 || !(any_code || number_in(code_name, INT32_MIN, INT32_MAX, &code)) ||
            !number_in(link_name, 0, UINT32_MAX, &link) || count == MAX_RULES) {
            fprintf(stderr, "%s, line %lu: not a rule, or one too many\n", name, number);
            exit(2);
        }
        if (any_code)
            goldenskep_rule_set(&rules[count++], kind, (long)link);
        else
            goldenskep_rule_set_code(&rules[count++], kind, (long)code, (long)link);
    }
    fclose(file);
    return count;
}

static void print_refusal(const uint8_t *message, uint64_t answer)
{
    goldenskep_span orig = goldenskep_answer_orig(answer);
    int status = goldenskep_answer_status(answer);

    printf("refused at octet %lu: %s (%d)\n", (unsigned long)goldenskep_answer_place(answer),
           goldenskep_status_words(status), status);
    if (!goldenskep_answer_has_orig(answer)) {
        printf("    answer to nobody: nothing is sent, as no originating ID was read\n");
        return;
    }
    printf("    answer to ");
    print_octets(message + orig.place, orig.length);
    if (!goldenskep_answer_is_reject(answer)) {
        printf(": Abort, cause %d, %s\n", goldenskep_answer_cause(answer),
               goldenskep_cause_words(goldenskep_answer_cause(answer)));
        return;
    }
    printf(": Reject of component %d, invoke ID ", goldenskep_answer_component(answer));
    if (goldenskep_answer_has_invoke_id(answer))
        printf("%d", goldenskep_answer_invoke_id(answer));
    else
        printf("null");
    printf(", general problem %d, %s\n", goldenskep_answer_problem(answer),
           goldenskep_general_problem_words(goldenskep_answer_problem(answer)));
}

int main(int argc, char **argv)
{
    static uint8_t message[MESSAGE_ROOM];
    size_t count;
    FILE *file;
    int n;

    if (argc != 2 && argc != 3) {
        fprintf(stderr, "usage: steer RULES [MESSAGES]\n");
        return 2;
    }
    if (!goldenskep_header_fits()) {
        fprintf(stderr, "header and library are not of one layout\n");
        return 2;
    }
    count = read_rules(argv[1]);
    file = open_or_stdin(argv[2]);
    while ((n = next_message(file, message, sizeof message)) >= 0) {
        uint64_t answer = goldenskep_steer_rules(message, (size_t)n, rules, count);

        if (goldenskep_answer_is_done(answer))
            printf("link %lu\n", (unsigned long)goldenskep_answer_link(answer));
        else if (goldenskep_answer_status(answer) == GOLDENSKEP_STATUS_NO_RULE)
            printf("no rule\n");
        else
            print_refusal(message, answer);
    }
    return 0;
}
