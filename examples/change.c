/* Changes a parameter of messages.
 *
 *   change COMPONENT ELEMENT [MESSAGES]
 *
 * Reads each message, puts the element, in hex, in the place of the component's
 * parameter, and writes the message again. The other strings need no copy: the
 * message is their material, and the new element stands behind it. */
#include "goldenskep.h"
#include "lines.h"

enum { MESSAGE_ROOM = 1024, ELEMENT_ROOM = 256 };

static void change_message(uint8_t *material, size_t n, int k, const uint8_t *element, size_t element_len)
{
    uint8_t out[GOLDENSKEP_MAX_MESSAGE];
    goldenskep_record record;
    uint64_t answer = goldenskep_read_record(material, n, &record);
    size_t used = n;

    if (!goldenskep_answer_is_done(answer)) {
        printf("unreadable at octet %lu: %s\n", (unsigned long)goldenskep_answer_place(answer),
               goldenskep_status_words(goldenskep_answer_status(answer)));
        return;
    }
    if (k >= goldenskep_record_count(&record)) {
        printf("no component %d\n", k);
        return;
    }
    /* Whether this component may have a parameter, and this one, is for writing to say. */
    goldenskep_component_set_parameter(
        &record, k, goldenskep_append(material, MESSAGE_ROOM + ELEMENT_ROOM, &used, element, element_len));
    answer = goldenskep_write_record(&record, material, used, out, sizeof out);
    if (!goldenskep_answer_is_done(answer)) {
        printf("not written: %s\n", goldenskep_status_words(goldenskep_answer_status(answer)));
        return;
    }
    print_octets(out, goldenskep_answer_length(answer));
    printf("\n");
}

int main(int argc, char **argv)
{
    static uint8_t material[MESSAGE_ROOM + ELEMENT_ROOM], element[ELEMENT_ROOM];
    long k;
    int n, element_len;
    char *end;
    FILE *file;

    if (argc != 3 && argc != 4) {
        fprintf(stderr, "usage: change COMPONENT ELEMENT [MESSAGES]\n");
        return 2;
    }
    if (!goldenskep_header_fits()) {
        fprintf(stderr, "header and library are not of one layout\n");
        return 2;
    }
    k = strtol(argv[1], &end, 10);
    element_len = hex_octets(argv[2], element, sizeof element);
    if (end == argv[1] || *end != '\0' || k < 0 || k >= GOLDENSKEP_MAX_COMPONENTS || element_len < 0) {
        fprintf(stderr, "a component is 0 to 15, an element octets in hex\n");
        return 2;
    }
    file = open_or_stdin(argv[3]);
    while ((n = next_message(file, material, MESSAGE_ROOM)) >= 0)
        change_message(material, (size_t)n, (int)k, element, (size_t)element_len);
    return 0;
}
