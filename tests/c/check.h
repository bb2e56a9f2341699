/* Counting checks, and octets from hex; C and C++. */
#ifndef CHECK_H
#define CHECK_H

#include <stdint.h>
#include <stdio.h>
#include <string.h>

static unsigned long checks_passed, checks_failed;

#define CHECK(condition) check_((condition) != 0, #condition, __FILE__, __LINE__)

static inline void check_(int passed, const char *condition, const char *file, int line)
{
    if (passed) {
        checks_passed++;
    } else {
        checks_failed++;
        printf("%s:%d: %s\n", file, line, condition);
    }
}

/* The last line, and the exit status. */
static inline int checks_end(void)
{
    printf("%lu passed, %lu failed\n", checks_passed, checks_failed);
    return checks_failed != 0 || checks_passed == 0;
}

static inline uint8_t hex_digit(char c)
{
    static const char digits[] = "0123456789ABCDEF";
    uint8_t digit = 0;

    while (digit < 15 && digits[digit] != c)
        digit++;
    return digit;
}

/* Octets written in hex, perhaps with spaces: how many. */
static inline size_t octets_of(const char *hex, uint8_t *to, size_t room)
{
    size_t n = 0;

    for (; *hex != '\0' && n < room; hex++) {
        if (*hex == ' ')
            continue;
        /* masked, not cast: a cast has another form in C++ */
        to[n++] = (hex_digit(hex[0]) * 16u + hex_digit(hex[1])) & 0xFF;
        hex++;
    }
    return n;
}

#endif
