/*
 * The reader's firmware: it takes ATT requests, calls the library, and sends what the library gives. All
 * rules of the Device Time Service are the library's; here stand handles, the MTU, and the order on the link.
 */
#include "radio.h"
#include "whiskraven.h"
#include <stdlib.h>
#include <string.h>

enum { MOST_WAITING = 4 };

/*
 * What outlives power-off. Here it is ordinary memory that the tests may spoil; a real reader brings it back
 * from flash. `started` is the firmware's own mark: 0 in a reader that has never run.
 */
struct kept reader_kept;
#define STATE reader_kept.state, sizeof reader_kept.state
#define TABLE reader_kept.table, sizeof reader_kept.table

/* The client's subscriptions, as the library took them over. */
struct switches { uint8_t dtcp, racp, log; };
static struct switches switches;
static uint32_t mtu = ATT_DEFAULT_MTU;

/* The last refusal that is no client's fault and that nobody else hears of; for the fitter's lamp. */
static int32_t trouble;

/* Units that wait for the link; an indication is confirmed before anything else is sent. */
static struct pdu waiting[MOST_WAITING];
static size_t waiting_count;
static int unconfirmed;

/* A client has one request under way, so at most a response and two indications wait. */
static struct pdu *to_send(uint8_t opcode)
{
    if (waiting_count == MOST_WAITING)
        exit(3);
    struct pdu *pdu = &waiting[waiting_count++];
    pdu->bytes[0] = opcode;
    pdu->length = 1;
    return pdu;
}

static void add(struct pdu *pdu, const uint8_t *bytes, size_t length)
{
    memcpy(pdu->bytes + pdu->length, bytes, length);
    pdu->length += length;
}

static void add16(struct pdu *pdu, uint32_t number)
{
    const uint8_t bytes[2] = {(uint8_t)number, (uint8_t)(number >> 8)};
    add(pdu, bytes, sizeof bytes);
}

static void send_error(uint8_t request, uint16_t handle, uint8_t error)
{
    struct pdu *pdu = to_send(ATT_ERROR_RESPONSE);
    add(pdu, &request, 1);
    add16(pdu, handle);
    add(pdu, &error, 1);
}

/* 4, 5 and 6 have an ATT error of their own; the others are no fault of the client's, and are noted. */
static void send_refusal(uint8_t request, uint16_t handle, int32_t answer)
{
    int32_t error = dts_att_error((uint32_t)-answer);
    if (error == 0) {
        trouble = answer;
        error = DTS_ATT_UNLIKELY_ERROR;
    }
    send_error(request, handle, (uint8_t)error);
}

static void send_value(uint8_t opcode, uint16_t handle, const uint8_t *value, size_t length)
{
    struct pdu *pdu = to_send(opcode);
    add16(pdu, handle);
    add(pdu, value, length);
}

/* No client is there: nothing is subscribed to, nothing waits. */
static void link_gone(void)
{
    memset(&switches, 0, sizeof switches);
    mtu = ATT_DEFAULT_MTU;
    waiting_count = 0;
    unconfirmed = 0;
}

/* The clock is lost, the log is not: a new clock over the kept log, with a Time_Fault to show it. */
static int32_t new_clock(void)
{
    uint8_t out[DTS_OUT_BYTES], spare[DTS_TABLE_BYTES(1)];
    int32_t answer = dts_start(STATE, spare, sizeof spare);
    return answer < 0 ? answer : dts_fault(STATE, TABLE, out, sizeof out);
}

/* Only a new reader is started. One that has run keeps its log, also where its state is damaged. */
int32_t reader_power_on(uint32_t seconds_since)
{
    uint8_t out[DTS_OUT_BYTES];
    int32_t answer;
    link_gone();
    trouble = 0;
    if (!reader_kept.started) {
        answer = dts_start(STATE, TABLE);
        reader_kept.started = answer == 0;
        return answer;
    }
    dts_disconnect(STATE); /* a state that it refuses is refused in the next line too */
    answer = dts_device_time(STATE, TABLE, out, sizeof out);
    if (answer == -DTS_REFUSED_STATE)
        return new_clock();
    return answer < 0 ? answer : dts_seconds(STATE, seconds_since);
}

int32_t reader_trouble(void)
{
    return trouble;
}

int32_t reader_seconds(uint32_t n)
{
    return dts_seconds(STATE, n);
}

/* A fault that ends a report has a response for the client. */
int32_t reader_fault(void)
{
    uint8_t out[DTS_OUT_BYTES];
    int32_t answer = dts_fault(STATE, TABLE, out, sizeof out);
    if (answer > 0)
        send_value(ATT_INDICATION, HANDLE_RACP, out, (size_t)answer);
    return answer;
}

int32_t reader_disconnect(void)
{
    link_gone();
    return dts_disconnect(STATE);
}

static void read_value(uint16_t handle)
{
    uint8_t out[DTS_OUT_BYTES];
    int32_t answer;
    switch (handle) {
    case HANDLE_FEATURE:
        answer = dts_feature(out, sizeof out);
        break;
    case HANDLE_PARAMETERS:
        answer = dts_parameters(out, sizeof out);
        break;
    case HANDLE_DEVICE_TIME:
        answer = dts_device_time(STATE, TABLE, out, sizeof out);
        break;
    default:
        send_error(ATT_READ_REQUEST, handle, ATT_READ_NOT_PERMITTED);
        return;
    }
    if (answer < 0)
        send_refusal(ATT_READ_REQUEST, handle, answer);
    else
        add(to_send(ATT_READ_RESPONSE), out, (size_t)answer);
}

/*
 * One of the three descriptors: two bytes, of which the value's own bit counts. `wanted` is how the switches
 * are to be; they are so only when the library has taken them.
 */
static void write_descriptor(uint16_t handle, uint8_t bit, const uint8_t *value, size_t length)
{
    struct switches wanted = switches;
    uint8_t *on = handle == HANDLE_DTCP_CCC ? &wanted.dtcp : handle == HANDLE_RACP_CCC ? &wanted.racp : &wanted.log;
    if (length != 2) {
        send_error(ATT_WRITE_REQUEST, handle, ATT_INVALID_ATTRIBUTE_LENGTH);
        return;
    }
    *on = value[0] & bit;
    int32_t answer = dts_switches(STATE, wanted.dtcp, wanted.racp, wanted.log);
    if (answer < 0) {
        send_refusal(ATT_WRITE_REQUEST, handle, answer);
        return;
    }
    switches = wanted;
    to_send(ATT_WRITE_RESPONSE);
}

/* A refusal becomes the error response. Else the write is answered first, and then comes what is indicated. */
static void write_control_point(uint16_t handle, const uint8_t *value, size_t length)
{
    uint8_t out[DTS_OUT_BYTES];
    int32_t answer = handle == HANDLE_DTCP
        ? dts_dtcp_write(STATE, TABLE, value, length, out, sizeof out)
        : dts_racp_write(STATE, TABLE, value, length, out, sizeof out);
    if (answer < 0) {
        send_refusal(ATT_WRITE_REQUEST, handle, answer);
        return;
    }
    to_send(ATT_WRITE_RESPONSE);
    if (answer > 0)
        send_value(ATT_INDICATION, handle, out, (size_t)answer);
}

static void write_value(uint16_t handle, const uint8_t *value, size_t length)
{
    switch (handle) {
    case HANDLE_DTCP:
    case HANDLE_RACP:
        write_control_point(handle, value, length);
        break;
    case HANDLE_DTCP_CCC:
    case HANDLE_RACP_CCC:
        write_descriptor(handle, CCC_INDICATIONS, value, length);
        break;
    case HANDLE_LOG_CCC:
        write_descriptor(handle, CCC_NOTIFICATIONS, value, length);
        break;
    default:
        send_error(ATT_WRITE_REQUEST, handle, ATT_WRITE_NOT_PERMITTED);
    }
}

/* Both sides use the smaller of the two sizes. */
static void exchange_mtu(uint32_t client)
{
    mtu = client < ATT_DEFAULT_MTU ? ATT_DEFAULT_MTU : client < ATT_LARGEST_MTU ? client : ATT_LARGEST_MTU;
    add16(to_send(ATT_EXCHANGE_MTU_RESPONSE), ATT_LARGEST_MTU);
}

void reader_receive(const struct pdu *pdu)
{
    uint8_t opcode = pdu->bytes[0];
    if (opcode == ATT_CONFIRMATION) {
        unconfirmed = 0;
        return;
    }
    if (pdu->length < ATT_HEADER) {
        send_error(opcode, 0, ATT_REQUEST_NOT_SUPPORTED);
        return;
    }
    uint16_t handle = (uint16_t)(pdu->bytes[1] | pdu->bytes[2] << 8);
    switch (opcode) {
    case ATT_EXCHANGE_MTU_REQUEST:
        exchange_mtu(handle);
        break;
    case ATT_READ_REQUEST:
        read_value(handle);
        break;
    case ATT_WRITE_REQUEST:
        write_value(handle, pdu->bytes + ATT_HEADER, pdu->length - ATT_HEADER);
        break;
    default:
        send_error(opcode, handle, ATT_REQUEST_NOT_SUPPORTED);
    }
}

/*
 * A running report goes on whenever the link is free: the library says when there is none. Any other refusal
 * means that it cannot go on. It has no response for that, so the reader notes it and ends the connection.
 */
static void next_of_report(void)
{
    uint8_t out[DTS_LARGEST_PAYLOAD];
    int32_t answer = dts_notify(STATE, TABLE, mtu - ATT_HEADER, out, sizeof out);
    if (answer >= DTS_CLOSING)
        send_value(ATT_INDICATION, HANDLE_RACP, out, (size_t)(answer - DTS_CLOSING));
    else if (answer > 0)
        send_value(ATT_NOTIFICATION, HANDLE_LOG, out, (size_t)answer);
    else if (answer != -DTS_REFUSED_NO_REPORT) {
        trouble = answer;
        reader_disconnect();
    }
}

int reader_send(struct pdu *pdu)
{
    if (unconfirmed)
        return 0;
    if (waiting_count == 0)
        next_of_report();
    if (waiting_count == 0)
        return 0;
    *pdu = waiting[0];
    memmove(waiting, waiting + 1, --waiting_count * sizeof waiting[0]);
    unconfirmed = pdu->bytes[0] == ATT_INDICATION;
    return 1;
}
