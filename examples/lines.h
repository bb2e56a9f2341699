/* What the examples share: messages as lines of hex.
 *
 * One message to a line, spaces between octets as one likes; a line with just -
 * is a message of no octets. Empty lines and what follows a # are left out, but
 * a line that is a comment is shown with the message on the next line. */
#ifndef LINES_H
#define LINES_H

#include <ctype.h>
#include <stdint.h>
#include <stdio.h>
#include <stdlib.h>
#include <string.h>

enum { LINE_SIZE = 4096 };

static inline int digit_value(char c)
{
    if (c >= '0' && c <= '9')
        return c - '0';
    if (c >= 'A' && c <= 'F')
        return c - 'A' + 10;
    if (c >= 'a' && c <= 'f')
        return c - 'a' + 10;
    return -1;
}

/* The octets of a text: how many, or -1 if it is not hex or too long. */
static inline int hex_octets(const char *text, uint8_t *to, size_t room)
{
    size_t n = 0;

    for (;;) {
        while (isspace((unsigned char)*text))
            text++;
        if (*text == '\0')
            return (int)n;
        if (digit_value(text[0]) < 0 || digit_value(text[1]) < 0 || n == room)
            return -1;
        to[n++] = (uint8_t)(digit_value(text[0]) * 16 + digit_value(text[1]));
        text += 2;
    }
}

/* The text of a line from `from` on, without the spaces around it. */
static inline char *stripped(char *from)
{
    char *end = from + strlen(from);

    while (end > from && isspace((unsigned char)end[-1]))
        end--;
    *end = '\0';
    while (isspace((unsigned char)*from))
        from++;
    return from;
}

/* The next line that is not empty, its comment and the spaces around it gone:
 * where it begins in `line`, or NULL at the end of the file. If the line before
 * it is a comment, that is put into `comment`, else nothing. */
static inline char *next_line(FILE *file, char *line, char *comment, unsigned long *number)
{
    *comment = '\0';
    while (fgets(line, LINE_SIZE, file) != NULL) {
        char *mark, *text;

        ++*number;
        if (strlen(line) == LINE_SIZE - 1 && line[LINE_SIZE - 2] != '\n') {
            fprintf(stderr, "line %lu is too long\n", *number);
            exit(2);
        }
        mark = strchr(line, '#');
        if (mark != NULL)
            *mark++ = '\0';
        text = stripped(line);
        if (*text != '\0')
            return text;
        strcpy(comment, mark == NULL ? "" : stripped(mark));
    }
    return NULL;
}

/* The next message: its length, or -1 at the end of the file. Prints its comment
 * line, if it has one, and its number. */
static inline int next_message(FILE *file, uint8_t *to, size_t room)
{
    static char line[LINE_SIZE], comment[LINE_SIZE];
    static unsigned long number, messages;
    const char *text = next_line(file, line, comment, &number);
    int n;

    if (text == NULL)
        return -1;
    n = strcmp(text, "-") == 0 ? 0 : hex_octets(text, to, room);
    if (n < 0) {
        fprintf(stderr, "line %lu is not a message in hex, or too long\n", number);
        exit(2);
    }
    if (*comment != '\0')
        printf("# %s\n", comment);
    printf("%lu ", ++messages);
    return n;
}

static inline FILE *open_or_stdin(const char *name)
{
    FILE *file = name == NULL || strcmp(name, "-") == 0 ? stdin : fopen(name, "r");

    if (file == NULL) {
        perror(name);
        exit(2);
    }
    return file;
}

static inline void print_octets(const uint8_t *octets, size_t n)
{
    for (size_t i = 0; i < n; i++)
        printf("%s%02X", i == 0 ? "" : " ", octets[i]);
}

#endif
