/*
 * Plays calls that come on standard input: the comparison in reference/ drives the archive through it.
 *
 * A request is the function's number (its place in `functions`), then its arguments in C's order: a number is
 * 4 bytes, a buffer 4 bytes of length and its bytes, `fields`, `carried`, `side`, `part`, `told`, `request` and a
 * map, 8 bytes a word, too. The reply is the answer in 4 bytes, then for each buffer of the call, const or not, a
 * byte: 0, it holds what it held; or 1, and its bytes. All little endian, and so must be the machine, whose words a
 * map has. The program ends with its input.
 *
 * Each buffer is lent so that its last byte is followed by memory that may not be touched: a call that
 * reads or writes past a buffer's end stops the program.
 */
#define _DEFAULT_SOURCE /* MAP_ANONYMOUS */
#include "whiskraven.h"
#include <stdio.h>
#include <stdlib.h>
#include <string.h>
#include <sys/mman.h>

enum {
    MOST_BYTES = 128 * 1024, /* of a buffer; more than the largest table, since longer ones are lent too */
    GUARD_BYTES = 64 * 1024, /* no page is larger, and each is a part of it */
    MOST_ARGUMENTS = 10
};

struct argument {
    uint32_t number;
    uint8_t *bytes;
    size_t length;
    uint8_t *end;
    uint8_t before[MOST_BYTES];
};

/* For each function its arguments: n a number, b a buffer. */
static const char *const functions[] = {
    "bb", "bn", "bnnn", "b", "bbb", "bbbb", "bbbb", "bbnb", "bb", "bb", "bb", "nnbb", "bbb", "b", "b", "n", "bbb",
    "bnnnbnnnnb", "bbb", "bbnnn", "bbb", "bbn", "b",
};

static struct argument arguments[MOST_ARGUMENTS];

static void stop(const char *why)
{
    fprintf(stderr, "pipe: %s\n", why);
    exit(2);
}

/* Room for one buffer, with the guard after it. */
static uint8_t *end_of_room(void)
{
    size_t size = MOST_BYTES + 2 * (size_t)GUARD_BYTES;
    uint8_t *room = mmap(NULL, size, PROT_READ | PROT_WRITE, MAP_PRIVATE | MAP_ANONYMOUS, -1, 0);
    if (room == MAP_FAILED)
        stop("no memory");
    uint8_t *end = room + MOST_BYTES + GUARD_BYTES - (uintptr_t)room % GUARD_BYTES;
    if (mprotect(end, GUARD_BYTES, PROT_NONE) != 0)
        stop("no guard");
    return end;
}

static void get(void *bytes, size_t length)
{
    if (fread(bytes, 1, length, stdin) != length)
        stop("the input ends inside a request");
}

static uint32_t get_number(void)
{
    uint8_t bytes[4];
    get(bytes, sizeof bytes);
    return bytes[0] | (uint32_t)bytes[1] << 8 | (uint32_t)bytes[2] << 16 | (uint32_t)bytes[3] << 24;
}

static void put_number(uint32_t number)
{
    const uint8_t bytes[4] = {(uint8_t)number, (uint8_t)(number >> 8), (uint8_t)(number >> 16), (uint8_t)(number >> 24)};
    fwrite(bytes, 1, sizeof bytes, stdout);
}

static void get_buffer(struct argument *argument)
{
    argument->length = get_number();
    if (argument->length > MOST_BYTES)
        stop("a buffer is too long");
    argument->bytes = argument->end - argument->length;
    get(argument->before, argument->length);
    memcpy(argument->bytes, argument->before, argument->length);
}

static void put_buffer(const struct argument *argument)
{
    uint8_t changed = memcmp(argument->bytes, argument->before, argument->length) != 0;
    fwrite(&changed, 1, 1, stdout);
    if (changed)
        fwrite(argument->bytes, 1, argument->length, stdout);
}

#define BUFFER(k) arguments[k].bytes, arguments[k].length
#define NUMBER(k) arguments[k].number
#define MAP(k) (uint64_t *)(void *)arguments[k].bytes, arguments[k].length / sizeof(uint64_t)
#define TOLD(k) (uint16_t *)(void *)arguments[k].bytes

/* `fields`, `carried`, `side`, `part`, `told` and a map end at a multiple of their alignment, and so begin at one. */
static int32_t call(unsigned function)
{
    switch (function) {
    case 0: return dts_start(BUFFER(0), BUFFER(1));
    case 1: return dts_seconds(BUFFER(0), NUMBER(1));
    case 2: return dts_switches(BUFFER(0), (uint8_t)NUMBER(1), (uint8_t)NUMBER(2), (uint8_t)NUMBER(3));
    case 3: return dts_disconnect(BUFFER(0));
    case 4: return dts_fault(BUFFER(0), BUFFER(1), BUFFER(2));
    case 5: return dts_dtcp_write(BUFFER(0), BUFFER(1), BUFFER(2), BUFFER(3));
    case 6: return dts_racp_write(BUFFER(0), BUFFER(1), BUFFER(2), BUFFER(3));
    case 7: return dts_notify(BUFFER(0), BUFFER(1), NUMBER(2), BUFFER(3));
    case 8: return dts_join(BUFFER(0), BUFFER(1));
    case 9: return dts_read(BUFFER(0), (uint32_t *)(void *)arguments[1].bytes);
    case 10: return dts_keep(BUFFER(0), BUFFER(1));
    case 11: return dts_carry(NUMBER(0), (uint16_t)NUMBER(1), BUFFER(2), (int64_t *)(void *)arguments[3].bytes);
    case 12: return dts_device_time(BUFFER(0), BUFFER(1), BUFFER(2));
    case 13: return dts_feature(BUFFER(0));
    case 14: return dts_parameters(BUFFER(0));
    case 15: return dts_att_error(NUMBER(0));
    case 16: return dts_salvage(BUFFER(0), BUFFER(1), BUFFER(2));
    case 17: return dts_one_beast(BUFFER(0), NUMBER(1), NUMBER(2), (uint16_t)NUMBER(3), BUFFER(4), NUMBER(5), NUMBER(6),
                                  (uint16_t)NUMBER(7), NUMBER(8), (uint32_t *)(void *)arguments[9].bytes);
    case 18: return dts_newest_update(BUFFER(0), BUFFER(1), (uint32_t *)(void *)arguments[2].bytes);
    case 19: return dts_fetch_tell(MAP(0), TOLD(1), (uint8_t)NUMBER(2), (uint16_t)NUMBER(3), (uint16_t)NUMBER(4));
    case 20: return dts_fetch_propose(MAP(0), TOLD(1), arguments[2].bytes);
    case 21: return dts_fetch_take(MAP(0), TOLD(1), (uint16_t)NUMBER(2));
    default: return dts_fetch_received(MAP(0));
    }
}

static void play(unsigned function)
{
    const char *kinds = functions[function];
    size_t count = strlen(kinds);
    for (size_t k = 0; k < count; k++) {
        if (kinds[k] == 'n')
            arguments[k].number = get_number();
        else
            get_buffer(&arguments[k]);
    }
    put_number((uint32_t)call(function));
    for (size_t k = 0; k < count; k++) {
        if (kinds[k] == 'b')
            put_buffer(&arguments[k]);
    }
    fflush(stdout);
}

int main(void)
{
    for (size_t k = 0; k < MOST_ARGUMENTS; k++)
        arguments[k].end = end_of_room();
    uint8_t function;
    while (fread(&function, 1, 1, stdin) == 1) {
        if (function >= sizeof functions / sizeof functions[0])
            stop("no such function");
        play(function);
    }
    return 0;
}
