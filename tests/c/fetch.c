/*
 * The calls that fetch only what is missing on lines of text, for the samples: fetch < LINES. Of each line that comes
 * on standard input the program takes what is asked and prints it with ` = ` and what the library answers, so that a
 * line that has its answer already must come out as it went in. It begins with a new map and nothing told.
 *
 * `tell OLDEST NEWEST`, `tell none` and `take NUMBER` answer 0; `propose` answers the two numbers of the request, or
 * `nothing`; `received` answers the count; and each `refused` and the number. A line `words N` has no answer: the map
 * is one of N zero words from there on, and what was told stays.
 */
#include "check.h"
#include "whiskraven.h"
#include <stdlib.h>

/* One word more than a map has, so that one too long can be lent. */
enum { MOST_WORDS = DTS_MAP_WORDS + 1 };
/* What goes with `none` is not looked at; and any value but 0 says that there is a range. */
enum { UNSEEN = 7, ANY = 0xFF };

/* All that the calls are lent, and what it was before a call. */
static struct {
    uint64_t map[MOST_WORDS];
    uint16_t told[DTS_TOLD_NUMBERS];
    uint8_t request[DTS_REQUEST_BYTES];
} lent, before;
static size_t words = DTS_MAP_WORDS;
static char input[64 * 1024];

static void stop(const char *why)
{
    fprintf(stderr, "fetch: %s\n", why);
    exit(2);
}

static unsigned long number(char **line)
{
    return strtoul(cut_off(line, ' '), NULL, 10);
}

static void expect_unchanged(const char *when)
{
    expect(when, memcmp(&lent, &before, sizeof lent), 0);
}

static void print_answer(int32_t answer)
{
    if (answer >= 0) {
        printf("%d\n", (int)answer);
        return;
    }
    printf("refused %d\n", (int)-answer);
    expect_unchanged("what a refused call changes");
}

static void expect_told(unsigned any, unsigned oldest, unsigned newest)
{
    expect("told: any", lent.told[DTS_TOLD_ANY], any);
    expect("told: the oldest", lent.told[DTS_TOLD_OLDEST], oldest);
    expect("told: the newest", lent.told[DTS_TOLD_NEWEST], newest);
}

static void tell_none(void)
{
    int32_t answer = dts_fetch_tell(lent.map, words, lent.told, 0, UNSEEN, UNSEEN);
    printf("tell none = ");
    print_answer(answer);
    if (answer == 0)
        expect_told(0, 0, 0);
}

static void tell(uint16_t oldest, uint16_t newest)
{
    int32_t answer = dts_fetch_tell(lent.map, words, lent.told, ANY, oldest, newest);
    printf("tell %u %u = ", oldest, newest);
    print_answer(answer);
    if (answer == 0)
        expect_told(1, oldest, newest);
}

static void tell_line(char *line)
{
    char *first = cut_off(&line, ' ');
    if (is(first, "none"))
        tell_none();
    else
        tell((uint16_t)strtoul(first, NULL, 10), (uint16_t)number(&line));
}

static void take_line(char *line)
{
    uint16_t taken = (uint16_t)number(&line);
    printf("take %u = ", taken);
    print_answer(dts_fetch_take(lent.map, words, lent.told, taken));
}

static void propose(void)
{
    const uint8_t *request = lent.request;
    int32_t answer = dts_fetch_propose(lent.map, words, lent.told, lent.request);
    printf("propose = ");
    if (answer < 0) {
        print_answer(answer);
    } else if (answer == 0) {
        printf("nothing\n");
        expect_unchanged("what changes where nothing is missing");
    } else {
        printf("%d %d\n", request[3] | request[4] << 8, request[5] | request[6] << 8);
        expect("the request's length", answer, DTS_REQUEST_BYTES);
        expect_bytes("the request's first bytes", request, 3, "010401");
    }
}

static void received(void)
{
    printf("received = ");
    print_answer(dts_fetch_received(lent.map, words));
}

static void words_line(char *line)
{
    words = number(&line);
    if (words > MOST_WORDS)
        stop("a map has too many words");
    memset(lent.map, 0, sizeof lent.map);
    printf("words %lu\n", (unsigned long)words);
}

static void play(char *line)
{
    const char *call = cut_off(&line, ' ');
    memcpy(&before, &lent, sizeof before);
    if (is(call, "tell"))
        tell_line(line);
    else if (is(call, "take"))
        take_line(line);
    else if (is(call, "propose"))
        propose();
    else if (is(call, "received"))
        received();
    else if (is(call, "words"))
        words_line(line);
    else
        stop("a line begins with no call");
}

int main(void)
{
    input[fread(input, 1, sizeof input - 1, stdin)] = '\0';
    for (char *text = input; *text != '\0';)
        play(cut_off(&text, '\n'));
    return differences != 0;
}
