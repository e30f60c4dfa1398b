/*
 * Times eight things on the proved code: one line each, a name and the nanoseconds that one took, the best of
 * ROUNDS rounds. reference/examples/bench.rs does the same on the reference, and the last two on a map of a byte a
 * number, and divides. A time says something only where the code runs without an emulator.
 */
#define _POSIX_C_SOURCE 199309L /* clock_gettime */
#include "check.h"
#include "whiskraven.h"
#include <time.h>

/* A Time_Update of 24 bytes goes in two segments where a notification has 20. */
enum { ROUNDS = 5, SLOTS = DTS_MOST_SLOTS, SEGMENTS = 2 * SLOTS };

static uint8_t state[DTS_STATE_BYTES], out[DTS_LARGEST_PAYLOAD];
static uint8_t small[DTS_TABLE_BYTES(4)], large[DTS_TABLE_BYTES(SLOTS)];
static struct {
    uint8_t bytes[DTS_SMALLEST_PAYLOAD];
    size_t length;
} heard[SEGMENTS];
static uint64_t map[DTS_MAP_WORDS];
static uint16_t told[DTS_TOLD_NUMBERS];
static const uint8_t force[] = {0x03, 0x43, 0x00, 0x00, 0x08, 0xAF, 0x2F, 0x04, 0x00, 0x02, 0x01};

static void start(uint8_t *table, size_t length)
{
    expect("start", dts_start(state, sizeof state, table, length), 0);
    expect("switches", dts_switches(state, sizeof state, 1, 1, 1), 0);
}

static void update(uint8_t *table, size_t length)
{
    expect("update", dts_dtcp_write(state, sizeof state, table, length, force, sizeof force, out, sizeof out), 3);
}

/* q is the next number: no record is looked at, and only the table's soundness is paid. */
static void soundness(void)
{
    int64_t carried;
    expect("carry", dts_carry(800000000, SLOTS, large, sizeof large, &carried), 0);
}

static void dtcp_write(void)
{
    update(small, sizeof small);
}

/* The same where the log is long: what a reader in its season has. */
static void dtcp_write_full(void)
{
    update(large, sizeof large);
}

static void carrying(void)
{
    int64_t carried;
    expect("carry", dts_carry(800000000, 0, large, sizeof large, &carried), 0);
}

static void begin(void)
{
    const uint8_t all[] = {0x01, 0x01};
    expect("report", dts_racp_write(state, sizeof state, large, sizeof large, all, sizeof all, out, sizeof out), 0);
}

static int32_t next(void)
{
    return dts_notify(state, sizeof state, large, sizeof large, DTS_SMALLEST_PAYLOAD, out, sizeof out);
}

static void report(void)
{
    begin();
    for (int k = 0; k < SEGMENTS; k++)
        expect("segment", next() < DTS_CLOSING, 1);
    expect("closing", next(), DTS_CLOSING + 4);
}

/* Keeps the segments of the report, so that joining them can be timed alone. */
static void hear(void)
{
    begin();
    for (int k = 0; k < SEGMENTS; k++) {
        heard[k].length = (size_t)next();
        memcpy(heard[k].bytes, out, sizeof heard[k].bytes);
    }
    expect("closing", next(), DTS_CLOSING + 4);
}

static void joining(void)
{
    uint8_t joined[DTS_JOINING_BYTES] = {0};
    uint32_t fields[DTS_FIELDS];
    int records = 0;
    for (int k = 0; k < SEGMENTS; k++) {
        int32_t length = dts_join(joined, sizeof joined, heard[k].bytes, heard[k].length);
        if (length > 0) {
            expect("read", dts_read(joined + 3, (size_t)length, fields), 0);
            records++;
        }
    }
    expect("records", records, SLOTS);
}

/* All numbers from oldest to newest are told, and all but the newest received. */
static void receive(uint16_t oldest, uint16_t newest)
{
    expect("tell", dts_fetch_tell(map, DTS_MAP_WORDS, told, 1, oldest, newest), 0);
    for (uint16_t number = oldest; number != newest; number++)
        expect("take", dts_fetch_take(map, DTS_MAP_WORDS, told, number), 0);
}

static void proposal(void)
{
    uint8_t request[DTS_REQUEST_BYTES];
    expect("propose", dts_fetch_propose(map, DTS_MAP_WORDS, told, request), DTS_REQUEST_BYTES);
    expect("first", request[3] | request[4] << 8, told[DTS_TOLD_NEWEST]);
}

static double now(void)
{
    struct timespec time;
    clock_gettime(CLOCK_MONOTONIC, &time);
    return (double)time.tv_sec * 1e9 + (double)time.tv_nsec;
}

static void measure(const char *name, void (*one)(void), int times)
{
    double best = 0;
    for (int round = 0; round < ROUNDS; round++) {
        double begin = now();
        for (int k = 0; k < times; k++)
            one();
        double each = (now() - begin) / times;
        best = round == 0 || each < best ? each : best;
    }
    printf("%s %.0f\n", name, best);
}

int main(void)
{
    start(small, sizeof small);
    measure("dtcp_write", dtcp_write, 200000);
    start(large, sizeof large);
    for (int k = 0; k < SLOTS; k++)
        update(large, sizeof large);
    measure("soundness", soundness, 1000);
    measure("carrying", carrying, 1000);
    measure("report", report, 1);
    hear();
    measure("joining", joining, 100);
    measure("dtcp_write_full", dtcp_write_full, 1000);
    receive(100, 100 + SLOTS - 1);
    measure("proposal", proposal, 100000);
    receive(0, 65535);
    measure("proposal_all", proposal, 10000);
    return differences != 0;
}
