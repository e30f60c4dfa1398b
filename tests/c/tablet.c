/*
 * The tablet's calls on lines of text, for the samples. Of each line that comes on standard input the program
 * takes the first words and prints them with what the library answers, so that a line that has its answer
 * already must come out as it went in.
 *
 * tablet < LINES joins a report as it is heard, one notification a line in hexadecimal, `-` for one of no
 * bytes. Answers `more`; `record` with the record's number, type, new and old base; or `refused` and 10, or 11
 * where a joined record is not well-formed. A line `closes` and the closing response is answered `joined` and
 * how many records there were.
 *
 * tablet TABLE < LINES carries a stamp a line, with its number q. Answers the carried stamp, or `refused` and
 * the number.
 */
#include "check.h"
#include "whiskraven.h"
#include <stdlib.h>

/* One byte more than the largest table, so that a longer one is seen to be too long. */
static uint8_t table[DTS_TABLE_BYTES(DTS_MOST_SLOTS) + 1];
static uint8_t joining[DTS_JOINING_BYTES];
static unsigned joined;
static char input[64 * 1024];

static void refused(int32_t answer)
{
    printf("refused %d\n", (int)-answer);
}

static void read_joined(size_t length)
{
    uint32_t fields[DTS_FIELDS];
    int32_t answer = dts_read(joining + 3, length, fields);
    if (answer < 0) {
        refused(answer);
        return;
    }
    joined++;
    printf("record %u %u %u %u\n", (unsigned)fields[DTS_FIELD_SEQUENCE], (unsigned)fields[DTS_FIELD_TYPE],
           (unsigned)fields[DTS_FIELD_BASE], (unsigned)fields[DTS_FIELD_OLD_BASE]);
}

/* One notification. */
static void join(const char *hex)
{
    uint8_t notification[DTS_LARGEST_PAYLOAD];
    size_t length = strlen(hex) / 2 > sizeof notification ? 0 : from_hex(hex, notification);
    int32_t answer = dts_join(joining, sizeof joining, notification, length);
    printf("%s ", hex);
    if (answer < 0)
        refused(answer);
    else if (answer == 0)
        printf("more\n");
    else
        read_joined((size_t)answer);
}

static void join_line(char *line)
{
    const char *first = cut_off(&line, ' ');
    if (is(first, "closes"))
        printf("closes %s joined %u\n", cut_off(&line, ' '), joined);
    else
        join(first);
}

static void carry_line(char *line, size_t length)
{
    unsigned long stamp = strtoul(cut_off(&line, ' '), NULL, 10), q = strtoul(cut_off(&line, ' '), NULL, 10);
    int64_t carried = 0;
    int32_t answer = dts_carry((uint32_t)stamp, (uint16_t)q, table, length, &carried);
    printf("%lu %lu ", stamp, q);
    if (answer < 0)
        refused(answer);
    else
        printf("%lld\n", (long long)carried);
}

static size_t read_table(const char *name)
{
    FILE *file = fopen(name, "rb");
    if (file == NULL) {
        fprintf(stderr, "tablet: %s can't be read\n", name);
        exit(2);
    }
    size_t length = fread(table, 1, sizeof table, file);
    fclose(file);
    return length;
}

int main(int count, char **arguments)
{
    int carries = count == 2;
    if (count > 2) {
        fprintf(stderr, "usage: tablet [TABLE] < LINES\n");
        return 2;
    }
    size_t length = carries ? read_table(arguments[1]) : 0;
    input[fread(input, 1, sizeof input - 1, stdin)] = '\0';
    for (char *text = input; *text != '\0';) {
        char *line = cut_off(&text, '\n');
        if (carries)
            carry_line(line, length);
        else
            join_line(line);
    }
    return 0;
}
