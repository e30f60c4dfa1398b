/*
 * The ramp's calls on lines of text, for the samples. Of each line that comes on standard input the program takes
 * what is asked and prints it with what the library answers, so that a line that has its answer already must come
 * out as it went in. A word NAME stands for the table FOLDER/NAME.table.
 *
 * ramp beasts FOLDER < LINES asks whether two reads are one beast. A line has of the left side the table, its
 * clock's Base_Time, the stamp and the number noted with it; the same of the right side; and the window. Answers
 * `one` or `two`; or the refusal's number, after `left` or `right` where a side is refused.
 *
 * ramp newest FOLDER < LINES asks for the later of the newest updates. A line has the left table and the right one.
 * Answers the side, the offset and the length of the part; or `refused`, the side if there is one, and the number.
 */
#include "check.h"
#include "whiskraven.h"
#include <stdlib.h>

/* One antenna's. The table has one byte more than the largest, so that a longer one is seen to be too long. */
struct antenna {
    uint8_t table[DTS_TABLE_BYTES(DTS_MOST_SLOTS) + 1];
    size_t length;
    uint32_t base, stamp;
    uint16_t next;
};

static struct antenna left, right;
static const char *folder;
static char input[64 * 1024], *at = input;

static void stop(const char *why)
{
    fprintf(stderr, "ramp: %s\n", why);
    exit(2);
}

/* The table that the line's next word names. */
static void take_table(struct antenna *antenna)
{
    char path[256];
    size_t before = strlen(folder), name = 0;
    at += *at == ' ';
    while (at[name] > ' ')
        name++;
    if (before + 1 + name + sizeof ".table" > sizeof path)
        stop("a name is too long");
    memcpy(path, folder, before);
    path[before] = '/';
    memcpy(path + before + 1, at, name);
    memcpy(path + before + 1 + name, ".table", sizeof ".table");
    FILE *file = fopen(path, "rb");
    if (file == NULL)
        stop("a table can't be read");
    antenna->length = fread(antenna->table, 1, sizeof antenna->table, file);
    fclose(file);
    printf("%.*s ", (int)name, at);
    at += name;
}

static unsigned long take_number(void)
{
    unsigned long number = strtoul(at, &at, 10);
    printf("%lu ", number);
    return number;
}

static void take_read(struct antenna *antenna)
{
    take_table(antenna);
    antenna->base = (uint32_t)take_number();
    antenna->stamp = (uint32_t)take_number();
    antenna->next = (uint16_t)take_number();
}

/* A side as a word with its space; no word where there is none. */
static const char *word(uint32_t side)
{
    switch (side) {
    case DTS_SIDE_NONE: return "";
    case DTS_SIDE_LEFT: return "left ";
    case DTS_SIDE_RIGHT: return "right ";
    default: return "? ";
    }
}

static void beasts_line(void)
{
    uint32_t side = UINT32_C(0xFFFFFFFF);
    take_read(&left);
    take_read(&right);
    uint32_t window = (uint32_t)take_number();
    int32_t answer = dts_one_beast(left.table, left.length, left.base, left.stamp, left.next, right.table,
                                   right.length, right.base, right.stamp, right.next, window, &side);
    if (answer < 0) {
        printf("%s%d\n", word(side), (int)-answer);
        return;
    }
    expect("the side", side, DTS_SIDE_NONE);
    printf("%s\n", answer == DTS_ONE_BEAST ? "one" : answer == DTS_TWO_BEASTS ? "two" : "?");
}

static void newest_line(void)
{
    uint32_t part[DTS_PART_NUMBERS];
    memset(part, 0xFF, sizeof part);
    take_table(&left);
    take_table(&right);
    int32_t answer = dts_newest_update(left.table, left.length, right.table, right.length, part);
    const char *side = word(part[DTS_PART_SIDE]);
    if (answer < 0) {
        expect("a refused part's offset", part[DTS_PART_OFFSET], 0);
        expect("a refused part's length", part[DTS_PART_LENGTH], 0);
        printf("refused %s%d\n", side, (int)-answer);
        return;
    }
    printf("%s%u %u\n", side, (unsigned)part[DTS_PART_OFFSET], (unsigned)part[DTS_PART_LENGTH]);
}

int main(int count, char **arguments)
{
    int beasts = count == 3 && is(arguments[1], "beasts");
    if (!beasts && !(count == 3 && is(arguments[1], "newest")))
        stop("usage: ramp beasts|newest FOLDER < LINES");
    folder = arguments[2];
    input[fread(input, 1, sizeof input - 1, stdin)] = '\0';
    while (*at != '\0') {
        if (beasts)
            beasts_line();
        else
            newest_line();
        while (*at != '\n' && *at != '\0')
            at++;
        at += *at == '\n';
    }
    return differences != 0;
}
