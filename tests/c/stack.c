/*
 * The stack that each entry point uses, in bytes. An entry point is called on a painted stack of its own, and the
 * lowest byte that changed looked for: what is counted goes from there up to the caller's stack pointer as it is just
 * before the call, on x86-64 with the return address. Each call is made with two paints, from the same memory, so
 * that no byte is missed that was written with the paint. Room at the bottom of a frame that is never written is not
 * seen: the compiler's own report has it (tools/cost). Calls go the long way: a full table of 1,023 slots, a running
 * report, a record that is joined, read, kept, carried, a table that is salvaged, a ramp with two such tables, a map with
 * full words and empty ones. One line each; of joining and reading one for each kind of call too, and last what a task
 * needs that does both. None may use more than the header says.
 */
#include "check.h"
#include "whiskraven.h"

/* ON_STACK: of the arguments at most so many are the caller's, at its stack pointer and above, in 8 bytes each. */
enum { ARGUMENTS = 12, ON_STACK = 6, BELOW = 1 << 16, SLOTS = DTS_MOST_SLOTS };
/* What the header allows any call, and joining and reading: a quarter of what their task has on the antenna board. */
enum { ANY_CALL = 640, JOINING_TASK = 128 };
/* What a full segment at the smallest payload has of a Time_Update, and what is left for the second. */
enum { BODY = DTS_SMALLEST_PAYLOAD - 1, REST = DTS_TIME_UPDATE_BYTES - BODY };
/* The slot that gets wet. What is salvaged reports H and the offset, and that slot with those before it, the oldest. */
enum { WET = SLOTS / 2, OLDEST = 2, ENTRIES = 2 + WET - OLDEST + 1 };

typedef void (*entry_point)(void);

/*
 * Calls entry with twelve arguments and with the stack pointer at top, and comes back to its own stack. What the
 * entry point does not take it does not look at. The register that holds the caller's own stack pointer meanwhile is
 * one that every function leaves as it was.
 */
int32_t call_on(uint8_t *top, entry_point entry, const uintptr_t arguments[ARGUMENTS]);

#if defined __x86_64__
/* From the seventh argument on they are on the stack. */
__asm__(".text\n"
        ".globl call_on\n"
        "call_on:\n"
        "    pushq %rbp\n"
        "    movq %rsp, %rbp\n"
        "    movq %rdi, %rsp\n"
        "    movq %rsi, %rax\n"
        "    movq %rdx, %r10\n"
        "    movq 48(%r10), %r11\n"
        "    movq %r11, (%rsp)\n"
        "    movq 56(%r10), %r11\n"
        "    movq %r11, 8(%rsp)\n"
        "    movq 64(%r10), %r11\n"
        "    movq %r11, 16(%rsp)\n"
        "    movq 72(%r10), %r11\n"
        "    movq %r11, 24(%rsp)\n"
        "    movq 80(%r10), %r11\n"
        "    movq %r11, 32(%rsp)\n"
        "    movq 88(%r10), %r11\n"
        "    movq %r11, 40(%rsp)\n"
        "    movq (%r10), %rdi\n"
        "    movq 8(%r10), %rsi\n"
        "    movq 16(%r10), %rdx\n"
        "    movq 24(%r10), %rcx\n"
        "    movq 32(%r10), %r8\n"
        "    movq 40(%r10), %r9\n"
        "    callq *%rax\n"
        "    movq %rbp, %rsp\n"
        "    popq %rbp\n"
        "    retq\n");
#elif defined __aarch64__
/* From the ninth argument on they are on the stack. */
__asm__(".text\n"
        ".globl call_on\n"
        "call_on:\n"
        "    stp x29, x30, [sp, #-16]!\n"
        "    mov x29, sp\n"
        "    mov sp, x0\n"
        "    mov x9, x1\n"
        "    mov x10, x2\n"
        "    ldp x11, x12, [x10, #64]\n"
        "    stp x11, x12, [sp]\n"
        "    ldp x11, x12, [x10, #80]\n"
        "    stp x11, x12, [sp, #16]\n"
        "    ldp x0, x1, [x10]\n"
        "    ldp x2, x3, [x10, #16]\n"
        "    ldp x4, x5, [x10, #32]\n"
        "    ldp x6, x7, [x10, #48]\n"
        "    blr x9\n"
        "    mov sp, x29\n"
        "    ldp x29, x30, [sp], #16\n"
        "    ret\n");
#else
#error "no way to call an entry point on a stack of its own is known for this processor"
#endif

/* The stack to be painted, and above it the room for arguments. */
static uint8_t stack[BELOW + 8 * ON_STACK] __attribute__((aligned(16)));

/* All that the calls write, and what it was before a call. */
static struct {
    uint8_t state[DTS_STATE_BYTES], out[DTS_LARGEST_PAYLOAD];
    uint8_t table[DTS_TABLE_BYTES(SLOTS)], copy[DTS_TABLE_BYTES(SLOTS)];
    uint8_t joining[DTS_JOINING_BYTES], too_long[DTS_JOINING_BYTES + 1];
    uint32_t fields[DTS_FIELDS];
    int64_t carried;
    uint8_t salvaged[DTS_TABLE_BYTES(SLOTS)], report[DTS_REPORT_ENTRY_BYTES * ENTRIES];
    uint32_t side, part[DTS_PART_NUMBERS];
    uint64_t map[DTS_MAP_WORDS];
    uint16_t told[DTS_TOLD_NUMBERS];
    uint8_t request[DTS_REQUEST_BYTES];
} lent, before;
/* Two segments of a Time_Update; records. */
static uint8_t first[DTS_SMALLEST_PAYLOAD], last[1 + REST];
static uint8_t unknown[DTS_TIME_UPDATE_BYTES], time_fault[DTS_TIME_FAULT_BYTES];
static uint8_t *const joined = lent.joining + 3;
static const uint8_t force[] = {0x03, 0x43, 0x00, 0x00, 0x08, 0xAF, 0x2F, 0x04, 0x00, 0x02, 0x01};
static const uint8_t all[] = {0x01, 0x01};

struct call {
    const char *name;
    entry_point entry;
    int32_t expected;
    uintptr_t arguments[ARGUMENTS];
};

/* Bytes below the caller that a call changes where they were painted so. */
static long changed(const struct call *call, uint8_t paint)
{
    long low = 0;
    lent = before;
    memset(stack, paint, BELOW);
    expect(call->name, call_on(stack + BELOW, call->entry, call->arguments), call->expected);
    while (low < BELOW && stack[low] == paint)
        low++;
    return BELOW - low;
}

static long larger(long one, long other)
{
    return one > other ? one : other;
}

static long print(const char *name, long bytes)
{
    printf("%-30s %4ld\n", name, bytes);
    return bytes;
}

static long measure(const struct call *call)
{
    before = lent;
    changed(call, 0); /* the loader finds memset and memcpy at their first call, on this stack too */
    long bytes = larger(changed(call, 0xA5), changed(call, 0x5A));
    expect("within the stack of any call", bytes <= ANY_CALL, 1);
    return print(call->name, bytes);
}

#define MEASURE(name, expected, entry, ...) \
    measure(&(const struct call){name, (entry_point)(entry), expected, {__VA_ARGS__}})
#define BYTES(buffer) (uintptr_t)(buffer), sizeof(buffer)
#define STATE BYTES(lent.state)
#define TABLE BYTES(lent.table)
#define COPY BYTES(lent.copy)
#define OUT BYTES(lent.out)
#define JOINING BYTES(lent.joining)
#define JOINED(length) (uintptr_t)joined, length
#define MAP (uintptr_t)lent.map, DTS_MAP_WORDS
#define TOLD (uintptr_t)lent.told

/* A Time_Fault, from the log of another reader: a slot has the record's length before the record. */
static void note_fault(void)
{
    const size_t state = sizeof lent.state, copy = sizeof lent.copy;
    expect("start", dts_start(lent.state, state, lent.copy, copy), 0);
    expect("fault", dts_fault(lent.state, state, lent.copy, copy, lent.out, sizeof lent.out), 0);
    memcpy(time_fault, lent.copy + DTS_HEADER_BYTES + 1, sizeof time_fault);
}

static void fill(void)
{
    const size_t state = sizeof lent.state, table = sizeof lent.table, out = sizeof lent.out;
    for (int k = 0; k < SLOTS; k++)
        expect("update", dts_dtcp_write(lent.state, state, lent.table, table, force, sizeof force, lent.out, out), 3);
}

/* The record that was notified whole, in two segments with the next counters; and one of no known type. */
static void cut(void)
{
    const uint8_t *record = lent.out + 1;
    first[0] = DTS_SEGMENT_FIRST | 1 << DTS_SEGMENT_COUNTER_SHIFT;
    memcpy(first + 1, record, BODY);
    last[0] = DTS_SEGMENT_LAST | 2 << DTS_SEGMENT_COUNTER_SHIFT;
    memcpy(last + 1, record + BODY, REST);
    memcpy(unknown, record, sizeof unknown);
    unknown[2] = DTS_TYPE_TIME_UPDATE + 1;
}

/* The deepest of each kind of call. Those that are refused come first: they leave nothing joined. */
static long measure_join(void)
{
    long most = MEASURE("dts_join, no bytes", -DTS_REFUSED_SEGMENT, dts_join, JOINING, (uintptr_t)first, 0);
    most = larger(most, MEASURE("dts_join, a state of 49 bytes", -DTS_REFUSED_SEGMENT, dts_join, BYTES(lent.too_long),
                                BYTES(first)));
    most = larger(most, MEASURE("dts_join, a whole record", DTS_TIME_UPDATE_BYTES, dts_join, JOINING,
                                (uintptr_t)lent.out, 1 + DTS_TIME_UPDATE_BYTES));
    most = larger(most, MEASURE("dts_join, a first segment", 0, dts_join, JOINING, BYTES(first)));
    most = larger(most, MEASURE("dts_join, a last segment", DTS_TIME_UPDATE_BYTES, dts_join, JOINING, BYTES(last)));
    return print("dts_join", most);
}

static long measure_read(void)
{
    uintptr_t fields = (uintptr_t)lent.fields;
    long most = MEASURE("dts_read, a Time_Update", 0, dts_read, JOINED(DTS_TIME_UPDATE_BYTES), fields);
    most = larger(most, MEASURE("dts_read, a Time_Fault", 0, dts_read, BYTES(time_fault), fields));
    most = larger(most, MEASURE("dts_read, no known type", -DTS_REFUSED_RECORD, dts_read, BYTES(unknown), fields));
    return print("dts_read", most);
}

/* The tablet has all of the log, and the record that was joined is the one to come. */
static void copy_log(void)
{
    memcpy(lent.copy, lent.table, sizeof lent.copy);
    memcpy(joined, lent.copy + 8, 2);
}

/* At the left the log, at the right its copy with a record more: each stamp is carried over all that its table has. */
static void measure_ramp(void)
{
    const uint32_t time = 800000000;
    MEASURE("dts_one_beast", DTS_ONE_BEAST, dts_one_beast, TABLE, time, time, 1, COPY, time, time, 2, DTS_WIDEST_WINDOW,
            (uintptr_t)&lent.side);
    MEASURE("dts_newest_update", 0, dts_newest_update, TABLE, COPY, (uintptr_t)lent.part);
}

/*
 * The map's upper half is full. The told range leaves out 63 numbers in the middle of the map: from the oldest it goes
 * over full words, on from 65,535 to 0, and over empty words, a run that ends with the newest.
 */
static void measure_fetch(void)
{
    const unsigned half = 64 * DTS_MAP_WORDS / 2, oldest = half + 32, newest = half - 32;
    memset(lent.map + DTS_MAP_WORDS / 2, 0xFF, sizeof lent.map / 2);
    MEASURE("dts_fetch_tell", 0, dts_fetch_tell, MAP, TOLD, 1, oldest, newest);
    MEASURE("dts_fetch_propose", DTS_REQUEST_BYTES, dts_fetch_propose, MAP, TOLD, (uintptr_t)lent.request);
    MEASURE("dts_fetch_take", 0, dts_fetch_take, MAP, TOLD, newest);
    MEASURE("dts_fetch_received", 2 * half - oldest + 1, dts_fetch_received, MAP);
}

/* The newer records are the longer run; the copy's oldest stands in slot 2, after one update and one record kept. */
static void soak(void)
{
    memset(lent.copy + DTS_TABLE_BYTES(WET), 0xFF, DTS_SLOT_BYTES);
}

int main(void)
{
    note_fault();
    MEASURE("dts_start", 0, dts_start, STATE, TABLE);
    MEASURE("dts_switches", 0, dts_switches, STATE, 1, 1, 1);
    fill();
    MEASURE("dts_seconds", 0, dts_seconds, STATE, 1);
    MEASURE("dts_dtcp_write", 3, dts_dtcp_write, STATE, TABLE, BYTES(force), OUT);
    MEASURE("dts_racp_write", 0, dts_racp_write, STATE, TABLE, BYTES(all), OUT);
    MEASURE("dts_notify", 1 + DTS_TIME_UPDATE_BYTES, dts_notify, STATE, TABLE, DTS_LARGEST_PAYLOAD, OUT);
    cut();
    long join = measure_join();
    long read = measure_read();
    copy_log();
    MEASURE("dts_keep", 0, dts_keep, COPY, JOINED(DTS_TIME_UPDATE_BYTES));
    measure_ramp();
    measure_fetch();
    soak();
    MEASURE("dts_salvage", DTS_REPORT_ENTRY_BYTES * ENTRIES, dts_salvage, COPY, BYTES(lent.salvaged),
            BYTES(lent.report));
    MEASURE("dts_carry", 0, dts_carry, 800000000, 1, TABLE, (uintptr_t)&lent.carried);
    MEASURE("dts_device_time", DTS_DEVICE_TIME_BYTES, dts_device_time, STATE, TABLE, OUT);
    MEASURE("dts_feature", DTS_FEATURE_BYTES, dts_feature, OUT);
    MEASURE("dts_parameters", DTS_PARAMETERS_BYTES, dts_parameters, OUT);
    MEASURE("dts_att_error", DTS_ATT_PROCEDURE_IN_PROGRESS, dts_att_error, 6);
    MEASURE("dts_fault", 4, dts_fault, STATE, TABLE, OUT);
    MEASURE("dts_disconnect", 0, dts_disconnect, STATE);
    long task = print("join, then read", larger(join, read));
    expect("within the joining task's stack", task <= JOINING_TASK, 1);
    return differences != 0;
}
