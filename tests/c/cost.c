/*
 * Makes one kind of call a number of times over a full table of so many slots, a ramp's calls over two of them:
 * cost KIND SLOTS TIMES. For counting instructions: what TIMES more cost is the difference of two counts
 * (tools/cost, which names the kinds). Each call finds the state that the first one found. The calls that fetch take
 * no table but a map, and SLOTS are words of it. The calls that join and read take neither, and SLOTS is nothing to
 * them; in upper case such a kind is the same loop with a function in it that does nothing.
 */
#include "check.h"
#include "whiskraven.h"
#include <stdlib.h>

static uint8_t state[DTS_STATE_BYTES], found[DTS_STATE_BYTES], out[DTS_LARGEST_PAYLOAD];
static uint8_t table[DTS_TABLE_BYTES(DTS_MOST_SLOTS)], request[DTS_REQUEST_BYTES];
static uint8_t back[DTS_TABLE_BYTES(DTS_MOST_SLOTS)], report[DTS_REPORT_BYTES(DTS_MOST_SLOTS)];
static size_t length, asked;
static const uint8_t force[] = {0x03, 0x43, 0x00, 0x00, 0x08, 0xAF, 0x2F, 0x04, 0x00, 0x02, 0x01};

static int32_t update(void)
{
    return dts_dtcp_write(state, sizeof state, table, length, force, sizeof force, out, sizeof out);
}

static int32_t access_records(void)
{
    return dts_racp_write(state, sizeof state, table, length, request, asked, out, sizeof out);
}

static int32_t notify(uint32_t p)
{
    return dts_notify(state, sizeof state, table, length, p, out, sizeof out);
}

static int32_t carry(uint16_t q)
{
    int64_t carried;
    return dts_carry(800000000, q, table, length, &carried);
}

/* Each stamp is carried over all records of its table. */
static int32_t one_beast(void)
{
    uint32_t side;
    return dts_one_beast(table, length, 800000000, 800000000, 0, back, length, 800000000, 800000000, 0, 0, &side);
}

static int32_t newest_update(void)
{
    uint32_t part[DTS_PART_NUMBERS];
    return dts_newest_update(table, length, back, length, part);
}

/* A full table, numbers 0 to slots - 1: the record of the first update, or of a fault, again and again. */
static void fill(unsigned slots, int faults)
{
    length = DTS_TABLE_BYTES(slots);
    expect("start", dts_start(state, sizeof state, table, length), 0);
    expect("switches", dts_switches(state, sizeof state, 1, 1, 1), 0);
    if (faults)
        expect("fault", dts_fault(state, sizeof state, table, length, out, sizeof out), 0);
    else
        expect("update", update(), 3);
    for (unsigned k = 1; k < slots; k++) {
        uint8_t *slot = table + DTS_TABLE_BYTES(k);
        memcpy(slot, table + DTS_HEADER_BYTES, DTS_SLOT_BYTES);
        slot[1] = (uint8_t)k;
        slot[2] = (uint8_t)(k >> 8);
    }
    table[2] = table[8] = (uint8_t)slots;
    table[3] = table[9] = (uint8_t)(slots >> 8);
}

enum { REPORT = 1, NUMBER = 4 };                                /* opcodes.. */
enum { ALL = 1, AT_LEAST = 3, RANGE = 4, FIRST = 5, LAST = 6 }; /* ..and operators of the RACP */

/* What is to be written to the RACP. */
static void ask(uint8_t opcode, uint8_t operator, unsigned minimum, unsigned maximum)
{
    const uint8_t bytes[] = {opcode, operator, 0x01, (uint8_t)minimum, (uint8_t)(minimum >> 8),
                             (uint8_t)maximum, (uint8_t)(maximum >> 8)};
    memcpy(request, bytes, sizeof request);
    asked = operator == RANGE ? 7 : operator == AT_LEAST ? 5 : 2;
}

/*
 * The first call's state: for o and t a report runs already; for g the table's last byte is damaged; a ramp has the
 * same log at the right as at the left.
 */
static void prepare(char kind, unsigned newest)
{
    switch (kind) {
    case 'n': ask(NUMBER, ALL, 0, 0); break;
    case 'a': ask(NUMBER, AT_LEAST, 0, 0); break;
    case 'b': ask(NUMBER, RANGE, 0, newest); break;
    case 'p': ask(REPORT, RANGE, newest, newest); break;
    case 'o': ask(REPORT, FIRST, 0, 0); break;
    case 't': ask(REPORT, ALL, 0, 0); break;
    default: ask(REPORT, LAST, 0, 0);
    }
    memcpy(back, table, length);
    if (kind == 'g')
        table[length - 1] = 1;
    if (kind == 'o' || kind == 't')
        expect("report", access_records(), 0);
    memcpy(found, state, sizeof found);
}

static int32_t once(char kind, uint16_t next)
{
    switch (kind) {
    case 's': case 'f': return carry(next);
    case 'c': return carry(0);
    case 'g': return dts_salvage(table, length, back, length, report, sizeof report);
    case 'e': return one_beast() - DTS_ONE_BEAST;
    case 'h': return newest_update();
    case 'i': return newest_update() + DTS_REFUSED_NO_UPDATE;
    case 'w': return update() - 3;
    case 'd': return dts_device_time(state, sizeof state, table, length, out, sizeof out) - DTS_DEVICE_TIME_BYTES;
    case 'n': case 'a': case 'b': return access_records() - 4;
    case 'o': return notify(DTS_LARGEST_PAYLOAD) - (1 + DTS_TIME_UPDATE_BYTES);
    case 't': return notify(DTS_SMALLEST_PAYLOAD) - DTS_SMALLEST_PAYLOAD;
    default: return access_records();
    }
}

static void with_table(char kind, unsigned slots, unsigned long times)
{
    fill(slots, kind == 'f' || kind == 'i');
    prepare(kind, slots - 1);
    for (unsigned long k = 0; k < times; k++) {
        expect("call", once(kind, (uint16_t)slots), 0);
        memcpy(state, found, sizeof state);
    }
}

static uint64_t map[DTS_MAP_WORDS];
static uint16_t told[DTS_TOLD_NUMBERS];

static int32_t tell(unsigned newest)
{
    return dts_fetch_tell(map, DTS_MAP_WORDS, told, 1, 0, (uint16_t)newest);
}

static int32_t fetch_once(char kind, unsigned words)
{
    switch (kind) {
    case 'k': case 'm': return dts_fetch_propose(map, DTS_MAP_WORDS, told, request) - DTS_REQUEST_BYTES;
    case 'x': return tell(64 * words - 1);
    case 'y': return dts_fetch_received(map, DTS_MAP_WORDS) - (int32_t)(64 * words);
    default: return dts_fetch_take(map, DTS_MAP_WORDS, told, (uint16_t)(64 * words - 1));
    }
}

/* The map begins with so many full words, and they are told; for k one number more, for m they are empty. */
static void fetching(char kind, unsigned words, unsigned long times)
{
    if (words == 0 || words >= DTS_MAP_WORDS)
        exit(2);
    memset(map, kind == 'm' ? 0 : 0xFF, words * sizeof map[0]);
    expect("tell", tell(kind == 'k' ? 64 * words : 64 * words - 1), 0);
    for (unsigned long k = 0; k < times; k++)
        expect("fetch", fetch_once(kind, words), 0);
}

/* Each call of the tablet finds a joining state of its own, so that none is restored between them. */
enum { MOST_TIMES = 128 };
static uint8_t joinings[MOST_TIMES][DTS_JOINING_BYTES];
static uint32_t fields[DTS_FIELDS];

/* With these in the calls' place the loop around them can be counted alone. */
static int32_t no_join(uint8_t *joining, size_t joining_length, const uint8_t *notification, size_t notification_length)
{
    (void)joining, (void)joining_length, (void)notification, (void)notification_length;
    return 0;
}

static int32_t no_read(const uint8_t *bytes, size_t bytes_length, uint32_t *read)
{
    (void)bytes, (void)bytes_length, (void)read;
    return 0;
}

static int32_t (*volatile join)(uint8_t *, size_t, const uint8_t *, size_t) = dts_join;
static int32_t (*volatile read_record)(const uint8_t *, size_t, uint32_t *) = dts_read;

static void begin_all(void)
{
    for (int k = 0; k < MOST_TIMES; k++)
        expect("begin", dts_join(joinings[k], sizeof joinings[k], out, DTS_SMALLEST_PAYLOAD), 0);
}

/* j: the first segment of a Time_Update, in a notification of 20 bytes; l: the last, in one of 6. */
static void joining(char kind, int none, unsigned long times)
{
    int32_t length, expected = kind == 'l' && !none ? DTS_TIME_UPDATE_BYTES : 0;
    if (times > MOST_TIMES)
        exit(2);
    fill(1, 0);
    ask(REPORT, ALL, 0, 0);
    expect("report", access_records(), 0);
    length = notify(DTS_SMALLEST_PAYLOAD);
    if (kind == 'l') {
        begin_all();
        length = notify(DTS_SMALLEST_PAYLOAD);
    }
    join = none ? no_join : dts_join;
    for (unsigned long k = 0; k < times; k++)
        expect("join", join(joinings[k], sizeof joinings[k], out, (size_t)length), expected);
}

/* u: a Time_Update of 24 bytes, v: a Time_Fault of 20. A slot has the record's length before the record. */
static void reading(char kind, int none, unsigned long times)
{
    fill(1, kind == 'v');
    read_record = none ? no_read : dts_read;
    for (unsigned long k = 0; k < times; k++)
        expect("read", read_record(table + DTS_HEADER_BYTES + 1, table[DTS_HEADER_BYTES], fields), 0);
}

int main(int count, char **words)
{
    if (count != 4)
        return 2;
    char kind = words[1][0];
    unsigned slots = (unsigned)strtoul(words[2], 0, 10);
    unsigned long times = strtoul(words[3], 0, 10);
    int none = kind >= 'A' && kind <= 'Z';
    if (none)
        kind = (char)(kind - 'A' + 'a');
    switch (kind) {
    case 'j': case 'l': joining(kind, none, times); break;
    case 'u': case 'v': reading(kind, none, times); break;
    case 'k': case 'm': case 'x': case 'y': case 'z': fetching(kind, slots, times); break;
    default: with_table(kind, slots, times);
    }
    return differences != 0;
}
