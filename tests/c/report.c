/*
 * Prints a whole report of a log table as it goes over the air: report REQUEST P.. < TABLE. The request is in
 * hexadecimal, such as 0101 for all records. The sizes are those of the notifications in turn, the last one's
 * of all that follow. One notification a line in hexadecimal; at last `closes` and the closing response. Where
 * nothing is held, the request itself is answered and no report runs: one line, `answers` and the response. A
 * call that is refused ends the report: `refused` and its number.
 *
 * report asked REQUEST.. < TABLE prints a line for each request, an operator and its operand in hexadecimal: the
 * request, the response to Number, and the numbers of the records that the report hands over.
 */
#include "check.h"
#include "whiskraven.h"
#include <stdlib.h>

/* One byte more than the largest table, so that a longer input is seen to be too long. */
static uint8_t table[DTS_TABLE_BYTES(DTS_MOST_SLOTS) + 1];
static uint8_t state[DTS_STATE_BYTES];
static uint8_t out[DTS_LARGEST_PAYLOAD];

static void line(const char *word, size_t length)
{
    printf("%s", word);
    print_hex(out, length);
    printf("\n");
}

static int refused(int32_t answer)
{
    printf("refused %d\n", -answer);
    return 1;
}

/* A clock that has just been started, over a table of one slot that is then put aside. */
static void start(void)
{
    uint8_t other[DTS_TABLE_BYTES(1)];
    expect("start", dts_start(state, sizeof state, other, sizeof other), 0);
    expect("switches", dts_switches(state, sizeof state, 1, 1, 1), 0);
}

static int32_t access_records(size_t length, const uint8_t *write, size_t written)
{
    return dts_racp_write(state, sizeof state, table, length, write, written, out, sizeof out);
}

static int32_t notify(size_t length, uint32_t p)
{
    return dts_notify(state, sizeof state, table, length, p, out, sizeof out);
}

/* `sizes` ends with NULL and has at least one. */
static int report(size_t length, const char *request, char **sizes)
{
    uint8_t write[DTS_LONGEST_WRITE];
    size_t written = from_hex(request, write);
    int32_t answer = access_records(length, write, written);
    if (answer < 0)
        return refused(answer);
    if (answer > 0) {
        line("answers ", (size_t)answer);
        return 0;
    }
    for (;;) {
        uint32_t p = (uint32_t)strtoul(*sizes, NULL, 10);
        if (sizes[1] != NULL)
            sizes++;
        answer = notify(length, p);
        if (answer <= 0)
            return refused(answer);
        if (answer >= DTS_CLOSING) {
            line("closes ", (size_t)(answer - DTS_CLOSING));
            return 0;
        }
        line("", (size_t)answer);
    }
}

/* The records of the running report by number. A notification of this size has a whole record, which begins with it. */
static int handed_over(size_t length)
{
    int32_t answer;
    while ((answer = notify(length, DTS_LARGEST_PAYLOAD)) < DTS_CLOSING) {
        if (answer <= 0)
            return refused(answer);
        printf(" %d", out[1] | out[2] << 8);
    }
    expect_bytes("the closing response", out, (size_t)(answer - DTS_CLOSING), "06000101");
    return 0;
}

/* Where nothing matches, the report has that one response. */
static int ask(size_t length, const char *request)
{
    uint8_t write[DTS_LONGEST_WRITE] = {DTS_RACP_NUMBER_OPCODE};
    size_t written = strlen(request) / 2 < sizeof write ? 1 + from_hex(request, write + 1) : 0;
    int32_t answer = access_records(length, write, written);
    printf("%s ", request);
    if (answer < 0)
        return refused(answer);
    print_hex(out, (size_t)answer);
    write[0] = DTS_RACP_REPORT_OPCODE;
    answer = access_records(length, write, written);
    if (answer < 0)
        return refused(answer);
    if (answer > 0)
        expect_bytes("the report's response", out, (size_t)answer, "06000106");
    else if (handed_over(length))
        return 1;
    printf("\n");
    return 0;
}

static int ask_all(size_t length, char **requests)
{
    int ended = 0;
    for (; *requests != NULL && !ended; requests++)
        ended = ask(length, *requests);
    return ended;
}

int main(int count, char **arguments)
{
    if (count < 3 || strlen(arguments[1]) > 2 * DTS_LONGEST_WRITE) {
        fprintf(stderr, "usage: report REQUEST P.. < TABLE\n       report asked REQUEST.. < TABLE\n");
        return 2;
    }
    start();
    size_t length = fread(table, 1, sizeof table, stdin);
    int asked = is(arguments[1], "asked");
    int ended = asked ? ask_all(length, arguments + 2) : report(length, arguments[1], arguments + 2);
    return ended || differences != 0;
}
