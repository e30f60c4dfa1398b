/*
 * The example of include/whiskraven.h, whole: a new reader is started, a client sets its time, the power goes
 * and comes back, and a stamp is carried. Then its memory is damaged: first the state, then the log. It links
 * the archive and nothing else. The lines between the two marks are the header's, letter for letter.
 */
#include "check.h"
#include "whiskraven.h"

static void show_trouble(int32_t answer)
{
    printf("trouble: refusal %d\n", (int)-answer);
}

static void send_error_response(uint8_t error)
{
    printf("error response %02x\n", error);
}

static void send_write_response(void)
{
    printf("write response\n");
}

static void send_indication(const uint8_t *bytes, size_t length)
{
    printf("indication ");
    print_hex(bytes, length);
    printf("\n");
}

static void store(void);

/* ---- The header's example ---- */

// Kept over power-off, together.
static uint8_t state[DTS_STATE_BYTES], table[DTS_TABLE_BYTES(4)];

// At least 0, or the refusal that a person must see. The seconds are those since both were stored.
static int32_t power_on(int new_reader, uint32_t seconds_since)
{
    uint8_t out[DTS_OUT_BYTES], spare[DTS_TABLE_BYTES(1)];
    int32_t answer;

    if (new_reader)
        return dts_start(state, sizeof state, table, sizeof table);
    dts_disconnect(state, sizeof state); // a state that this refuses is refused below too
    answer = dts_device_time(state, sizeof state, table, sizeof table, out, sizeof out);
    if (answer == -DTS_REFUSED_STATE) {
        dts_start(state, sizeof state, spare, sizeof spare);
        return dts_fault(state, sizeof state, table, sizeof table, out, sizeof out);
    }
    return answer < 0 ? answer : dts_seconds(state, sizeof state, seconds_since);
}

// The ATT error for an answer below 0.
static uint8_t att_error(int32_t answer)
{
    int32_t error = dts_att_error((uint32_t)-answer);

    if (error != 0)
        return (uint8_t)error;
    show_trouble(answer); // not the client's fault, so a person must see it
    return DTS_ATT_UNLIKELY_ERROR;
}

// The client has written to the Device Time Control Point.
static void dtcp_written(const uint8_t *write, size_t length)
{
    uint8_t out[DTS_OUT_BYTES];
    int32_t answer = dts_dtcp_write(state, sizeof state, table, sizeof table, write, length, out, sizeof out);

    if (answer < 0) { // nothing has changed
        send_error_response(att_error(answer));
        return;
    }
    store(); // both buffers, before the client hears of it
    send_write_response();
    send_indication(out, (size_t)answer);
}

/* ---- The header's example ends ---- */

/* What stands in for flash: both buffers in one piece. */
static struct { uint8_t state[sizeof state], table[sizeof table]; } flash;

static void store(void)
{
    memcpy(flash.state, state, sizeof state);
    memcpy(flash.table, table, sizeof table);
}

/* The power goes, and the buffers come back as they were stored. */
static void power_off(void)
{
    memcpy(state, flash.state, sizeof state);
    memcpy(table, flash.table, sizeof table);
}

static const uint8_t propose[] = {
    DTS_DTCP_PROPOSE_OPCODE, DTS_FLAG_EPOCH_2000 | DTS_FLAG_QUALIFIED_LOCAL | DTS_FLAG_UTC_ALIGNED, 0x00,
    0x00, 0x08, 0xAF, 0x2F, 0x04, 0x00, 0x02, 0x01,
};

static void expect_device_time(const char *expected)
{
    uint8_t out[DTS_OUT_BYTES];
    expect("reading Device Time", dts_device_time(state, sizeof state, table, sizeof table, out, sizeof out),
           DTS_DEVICE_TIME_BYTES);
    expect_bytes("Device Time", out, DTS_DEVICE_TIME_BYTES, expected);
}

/* A stamp of 800,000,050 with number 1. */
static void expect_carried(int32_t refusal)
{
    int64_t carried = 0;
    expect("carrying", -dts_carry(800000050, 1, table, sizeof table, &carried), refusal);
    if (refusal == 0)
        printf("carried %lld\n", (long long)carried);
    else
        printf("not carried: refusal %d\n", (int)refusal);
}

/* The log is kept, and says that the clock was lost. */
static void a_damaged_state(void)
{
    printf("- the state is damaged\n");
    power_off();
    state[31] = 1;
    expect("power on", power_on(0, 60), 0);
    expect_device_time("809d9e25" "80" "ff" "1900" "0200");
    expect_carried(DTS_REFUSED_FAULT);
    store();
}

/* Nothing is erased; each write is answered with an error, and the trouble is shown. */
static void a_damaged_log(void)
{
    printf("- the log is damaged\n");
    power_off();
    table[15] = 1;
    expect("power on", power_on(0, 60), -DTS_REFUSED_TABLE);
    dtcp_written(propose, sizeof propose);
    expect("the log's next number", table[8], 2);
}

int main(void)
{
    printf("- a new reader\n");
    expect("power on", power_on(1, 0), 0);
    dtcp_written(propose, sizeof propose);
    expect("switches", dts_switches(state, sizeof state, 1, 1, 1), 0);
    dtcp_written(propose, sizeof propose);
    expect("seconds", dts_seconds(state, sizeof state, 50), 0);
    store();
    printf("- power goes and comes back\n");
    power_off();
    expect("power on", power_on(0, 60), 0);
    expect_device_time("6e08af2f" "04" "00" "1600" "0100");
    expect_carried(0);
    store();
    a_damaged_state();
    a_damaged_log();
    return differences != 0;
}
