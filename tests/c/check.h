/*
 * What the test programs share: a difference is printed and counted; bytes are printed in hexadecimal; text is cut
 * into lines and words.
 */
#ifndef CHECK_H
#define CHECK_H

#include <stddef.h>
#include <stdint.h>
#include <stdio.h>
#include <string.h>

static int differences;

static inline void expect(const char *what, int64_t found, int64_t expected)
{
    if (found == expected)
        return;
    printf("DIFFERENCE: %s is %lld, not %lld\n", what, (long long)found, (long long)expected);
    differences++;
}

static inline void print_hex(const uint8_t *bytes, size_t length)
{
    for (size_t k = 0; k < length; k++)
        printf("%02x", bytes[k]);
}

static inline uint8_t hex_digit(char digit)
{
    return (uint8_t)(digit <= '9' ? digit - '0' : digit - 'a' + 10);
}

/* Bytes from lower-case hexadecimal digits; answers how many. */
static inline size_t from_hex(const char *text, uint8_t *bytes)
{
    size_t length = strlen(text) / 2;
    for (size_t k = 0; k < length; k++)
        bytes[k] = (uint8_t)(hex_digit(text[2 * k]) << 4 | hex_digit(text[2 * k + 1]));
    return length;
}

static inline void expect_bytes(const char *what, const uint8_t *found, size_t length, const char *expected)
{
    uint8_t bytes[256];
    if (from_hex(expected, bytes) == length && memcmp(found, bytes, length) == 0)
        return;
    printf("DIFFERENCE: %s is ", what);
    print_hex(found, length);
    printf(", not %s\n", expected);
    differences++;
}

static inline int is(const char *one, const char *other)
{
    return strlen(one) == strlen(other) && memcmp(one, other, strlen(one)) == 0;
}

/* What comes before the text's first mark, or all of it, ended by a zero; the text goes on after that. */
static inline char *cut_off(char **text, char mark)
{
    char *start = *text, *end = start;
    while (*end != mark && *end != '\0')
        end++;
    *text = *end == '\0' ? end : end + 1;
    *end = '\0';
    return start;
}

#endif
