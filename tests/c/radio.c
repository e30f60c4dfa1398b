/*
 * The tablet, one afternoon of it, and a day on which it fetches twice: it speaks to the reader only through the link
 * of radio.h, joins, reads, keeps, carries and finds what is missing with the library, and holds every value against
 * constants worked out from the papers' cases by hand. What crosses the link is printed; tests/c/radio.transcript is
 * what should come out. Any difference is printed as such, and then the program's status is not 0.
 */
#include "radio.h"
#include "check.h"
#include "whiskraven.h"

/* ---- The link, seen from the tablet ---- */

static const char *name_of(unsigned handle)
{
    switch (handle) {
    case HANDLE_FEATURE: return "Feature";
    case HANDLE_PARAMETERS: return "Parameters";
    case HANDLE_DEVICE_TIME: return "Device Time";
    case HANDLE_LOG: return "log";
    case HANDLE_LOG_CCC: return "log switch";
    case HANDLE_DTCP: return "DTCP";
    case HANDLE_DTCP_CCC: return "DTCP switch";
    case HANDLE_RACP: return "RACP";
    case HANDLE_RACP_CCC: return "RACP switch";
    default: return "unknown handle";
    }
}

static unsigned handle_of(const struct pdu *pdu)
{
    return pdu->bytes[1] | (unsigned)pdu->bytes[2] << 8;
}

/* What follows opcode and handle; nothing where no unit came. */
static size_t value_length(const struct pdu *pdu)
{
    return pdu->length < ATT_HEADER ? 0 : pdu->length - ATT_HEADER;
}

static void print_valued(const char *what, const struct pdu *pdu)
{
    printf("%s %s ", what, name_of(handle_of(pdu)));
    print_hex(pdu->bytes + ATT_HEADER, value_length(pdu));
    printf("\n");
}

static void print_pdu(const struct pdu *pdu)
{
    switch (pdu->bytes[0]) {
    case ATT_ERROR_RESPONSE: printf("reader  error %02x\n", pdu->bytes[4]); break;
    case ATT_EXCHANGE_MTU_REQUEST: printf("tablet  MTU %u\n", handle_of(pdu)); break;
    case ATT_EXCHANGE_MTU_RESPONSE: printf("reader  MTU %u\n", handle_of(pdu)); break;
    case ATT_READ_REQUEST: printf("tablet  reads %s\n", name_of(handle_of(pdu))); break;
    case ATT_READ_RESPONSE:
        printf("reader  ");
        print_hex(pdu->bytes + 1, pdu->length - 1);
        printf("\n");
        break;
    case ATT_WRITE_REQUEST: print_valued("tablet  writes", pdu); break;
    case ATT_WRITE_RESPONSE: printf("reader  written\n"); break;
    case ATT_NOTIFICATION: print_valued("reader  notifies", pdu); break;
    case ATT_INDICATION: print_valued("reader  indicates", pdu); break;
    default: printf("unknown unit %02x\n", pdu->bytes[0]);
    }
}

/* The next unit from the reader; one of opcode 0 if there is none. */
static struct pdu heard(void)
{
    struct pdu pdu = {{0}, 0};
    if (reader_send(&pdu))
        print_pdu(&pdu);
    return pdu;
}

static void confirm(void)
{
    const struct pdu confirmation = {{ATT_CONFIRMATION}, 1};
    reader_receive(&confirmation);
}

/* Sends a request with a handle (or an MTU) and a value; the reader's response. */
static struct pdu asked_with(uint8_t opcode, unsigned handle, const uint8_t *value, size_t length)
{
    struct pdu pdu = {{opcode, (uint8_t)handle, (uint8_t)(handle >> 8)}, ATT_HEADER + length};
    memcpy(pdu.bytes + ATT_HEADER, value, length);
    print_pdu(&pdu);
    reader_receive(&pdu);
    return heard();
}

/* The value in hexadecimal. */
static struct pdu asked(uint8_t opcode, unsigned handle, const char *value)
{
    uint8_t bytes[ATT_LARGEST_MTU - ATT_HEADER];
    return asked_with(opcode, handle, bytes, from_hex(value, bytes));
}

/* ---- What the tablet expects ---- */

static void expect_write_response(const struct pdu *pdu)
{
    expect("the response to a write", pdu->bytes[0], ATT_WRITE_RESPONSE);
}

static void expect_written(unsigned handle, const char *value)
{
    struct pdu pdu = asked(ATT_WRITE_REQUEST, handle, value);
    expect_write_response(&pdu);
}

static void expect_error_to(uint8_t request, unsigned handle, const char *value, int error)
{
    struct pdu pdu = asked(request, handle, value);
    expect("the response to a request", pdu.bytes[0], ATT_ERROR_RESPONSE);
    expect("the request of the error", pdu.bytes[1], request);
    expect("the handle of the error", pdu.bytes[2], handle);
    expect("the ATT error", pdu.bytes[4], error);
}

static void expect_error(unsigned handle, const char *value, int error)
{
    expect_error_to(ATT_WRITE_REQUEST, handle, value, error);
}

static struct pdu expect_read(unsigned handle, const char *value)
{
    struct pdu pdu = asked(ATT_READ_REQUEST, handle, "");
    expect("the response to a read", pdu.bytes[0], ATT_READ_RESPONSE);
    expect_bytes(name_of(handle), pdu.bytes + 1, pdu.length == 0 ? 0 : pdu.length - 1, value);
    return pdu;
}

static struct pdu expect_indication(unsigned handle, const char *value)
{
    struct pdu pdu = heard();
    expect("an indication", pdu.bytes[0], ATT_INDICATION);
    expect("its handle", handle_of(&pdu), handle);
    expect_bytes("what is indicated", pdu.bytes + ATT_HEADER, value_length(&pdu), value);
    confirm();
    return pdu;
}

static struct pdu expect_segment(const char *segment)
{
    struct pdu pdu = heard();
    expect("a notification", pdu.bytes[0], ATT_NOTIFICATION);
    expect("its handle", handle_of(&pdu), HANDLE_LOG);
    expect_bytes("a segment", pdu.bytes + ATT_HEADER, value_length(&pdu), segment);
    return pdu;
}

static void expect_quiet(void)
{
    struct pdu pdu = heard();
    expect("the length of a unit that should not be", (int64_t)pdu.length, 0);
}

/* A write to a control point that is answered by an indication. */
static struct pdu expect_response(unsigned handle, const char *write, const char *response)
{
    expect_written(handle, write);
    return expect_indication(handle, response);
}

static void exchange_mtu(unsigned mtu)
{
    struct pdu pdu = asked(ATT_EXCHANGE_MTU_REQUEST, mtu, "");
    expect("the response to an MTU", pdu.bytes[0], ATT_EXCHANGE_MTU_RESPONSE);
}

static void subscribe(void)
{
    expect_written(HANDLE_DTCP_CCC, "0200");
    expect_written(HANDLE_RACP_CCC, "0200");
    expect_written(HANDLE_LOG_CCC, "0100");
}

/* A client exchanges the MTU once in a connection: another size is another connection. */
static void reconnect(unsigned mtu)
{
    printf("tablet  goes and comes back\n");
    expect("disconnect", reader_disconnect(), 0);
    expect_quiet();
    if (mtu != ATT_DEFAULT_MTU)
        exchange_mtu(mtu);
    subscribe();
}

static void let_pass(uint32_t n, int32_t expected)
{
    int32_t answer = reader_seconds(n);
    printf("clock   %u seconds: answer %d\n", (unsigned)n, (int)answer);
    expect("seconds", answer, expected);
}

/* ---- The tablet's copy of the log ---- */

enum { SLOTS = 4 };

static uint8_t joining[DTS_JOINING_BYTES];
static uint8_t copy[DTS_TABLE_BYTES(SLOTS)];
static size_t copy_length;

/* Beside the copy: the map of the numbers received, and the range that was told last. */
static uint64_t map[DTS_MAP_WORDS];
static uint16_t told[DTS_TOLD_NUMBERS];

/* Empty, with so many slots, and with a new map. */
static void start_copy(unsigned slots)
{
    memset(map, 0, sizeof map);
    memset(told, 0, sizeof told);
    memset(copy, 0, sizeof copy);
    copy_length = DTS_TABLE_BYTES(slots);
    copy[0] = (uint8_t)slots;
    copy[4] = DTS_HEADER_BYTES;
}

/* The record that stands in the joining state. */
static int32_t keep_record(size_t length)
{
    return dts_keep(copy, copy_length, joining + 3, length);
}

static void expect_next(unsigned next)
{
    expect("the copy's next number", copy[8] | copy[9] << 8, next);
}

/* Its sequence number. */
static uint16_t read_record(size_t length)
{
    uint32_t fields[DTS_FIELDS];
    expect("reading a record", dts_read(joining + 3, length, fields), 0);
    printf("tablet  record %u type %u base %u old base %u\n", (unsigned)fields[DTS_FIELD_SEQUENCE],
           (unsigned)fields[DTS_FIELD_TYPE], (unsigned)fields[DTS_FIELD_BASE], (unsigned)fields[DTS_FIELD_OLD_BASE]);
    return (uint16_t)fields[DTS_FIELD_SEQUENCE];
}

/* What is kept is taken in; where the tablet was told no range that changes nothing. */
static void take(const struct pdu *pdu)
{
    int32_t answer = dts_join(joining, sizeof joining, pdu->bytes + ATT_HEADER, value_length(pdu));
    expect("a segment refused", answer < 0, 0);
    if (answer > 0) {
        uint16_t number = read_record((size_t)answer);
        expect("keeping a record", keep_record((size_t)answer), 0);
        expect("taking its number in", dts_fetch_take(map, DTS_MAP_WORDS, told, number), 0);
    }
}

/* A report: its notifications in hexadecimal, the closing response. The copy's next number is then the reader's. */
static void hear(unsigned next, const char *const *segments, const char *closing)
{
    memset(joining, 0, sizeof joining);
    for (; *segments != NULL; segments++) {
        struct pdu pdu = expect_segment(*segments);
        take(&pdu);
    }
    expect_indication(HANDLE_RACP, closing);
    expect_quiet();
    expect_next(next);
}

/* Fetches records into a copy of so many slots. */
static void fetch_into(unsigned slots, unsigned next, const char *request, const char *const *segments, const char *closing)
{
    start_copy(slots);
    expect_written(HANDLE_RACP, request);
    hear(next, segments, closing);
}

static void fetch(unsigned next, const char *request, const char *const *segments, const char *closing)
{
    fetch_into(SLOTS, next, request, segments, closing);
}

static void expect_carried(uint32_t stamp, uint16_t q, int32_t refusal, int64_t expected)
{
    int64_t carried = 0;
    expect("carrying", -dts_carry(stamp, q, copy, copy_length, &carried), refusal);
    expect("the carried stamp", carried, expected);
    if (refusal != 0)
        printf("tablet  stamp %u with number %u: refused %d\n", (unsigned)stamp, q, (int)refusal);
    else
        printf("tablet  stamp %u with number %u is carried to %lld\n", (unsigned)stamp, q, (long long)carried);
}

/* ---- Fetching only what is missing ---- */

static uint16_t number_at(const uint8_t *bytes)
{
    return (uint16_t)(bytes[0] | bytes[1] << 8);
}

/* What the reader holds: Device Time ends with the log's next number, the response to Number of all with the count. */
static void learn(const char *device_time, const char *number)
{
    struct pdu time = expect_read(HANDLE_DEVICE_TIME, device_time);
    struct pdu count = expect_response(HANDLE_RACP, "0401", number);
    uint16_t next = number_at(time.bytes + 1 + 8), held = number_at(count.bytes + ATT_HEADER + 2);
    uint16_t oldest = (uint16_t)(next - held), newest = (uint16_t)(next - 1);
    expect("telling", dts_fetch_tell(map, DTS_MAP_WORDS, told, held != 0, oldest, newest), 0);
    if (held == 0)
        printf("tablet  is told none\n");
    else
        printf("tablet  is told %u to %u\n", oldest, newest);
}

static void expect_received(int32_t expected)
{
    int32_t received = dts_fetch_received(map, DTS_MAP_WORDS);
    printf("tablet  has received %d\n", (int)received);
    expect("how many numbers are received", received, expected);
}

/* What is proposed, no bytes where nothing is missing, goes out as it is. */
static void propose(const char *expected)
{
    uint8_t request[DTS_REQUEST_BYTES];
    int32_t answer = dts_fetch_propose(map, DTS_MAP_WORDS, told, request);
    expect("a proposal refused", answer < 0, 0);
    expect_bytes("what is proposed", request, answer < 0 ? 0 : (size_t)answer, expected);
    if (answer <= 0) {
        printf("tablet  misses nothing\n");
        return;
    }
    struct pdu pdu = asked_with(ATT_WRITE_REQUEST, HANDLE_RACP, request, sizeof request);
    expect_write_response(&pdu);
}

/* ---- The afternoon ---- */

#define RECORD_0_START "00000100000016001900000004000201" "0008af"
#define RECORD_0_END "2f" "809d9e25"
#define RECORD_1_START "01000100000016001600000004000201" "4608af"
#define RECORD_1_END "2f" "6408af2f"

static const char *const two_records_at_20[] = {
    "01" RECORD_0_START, "06" RECORD_0_END, "09" RECORD_1_START, "0e" RECORD_1_END, NULL,
};
static const char *const two_records_whole[] = {
    "03" RECORD_0_START RECORD_0_END, "07" RECORD_1_START RECORD_1_END, NULL,
};

static void a_new_reader(void)
{
    printf("- a new reader\n");
    expect("power on", reader_power_on(0), 0);
    expect_read(HANDLE_FEATURE, "ffff0204");
    expect_read(HANDLE_PARAMETERS, "ffff0000");
    expect_read(HANDLE_DEVICE_TIME, "809d9e25" "80" "ff" "1900" "0000");
    expect_error(HANDLE_DTCP, "0243000008af2f04000201", DTS_ATT_CCC_IMPROPERLY_CONFIGURED);
    expect_error(HANDLE_RACP, "0101", DTS_ATT_CCC_IMPROPERLY_CONFIGURED);
    expect_error(HANDLE_RACP, "", DTS_ATT_INVALID_LENGTH);
    subscribe();
}

/* Cases 10 and 11. */
static void an_empty_log(void)
{
    printf("- an empty log\n");
    expect_response(HANDLE_RACP, "0401", "05000000");
    expect_response(HANDLE_RACP, "0101", "06000106");
    expect_response(HANDLE_RACP, "0100", "06000103");
    expect_response(HANDLE_RACP, "0201", "06000202");
    expect_response(HANDLE_RACP, "04040105000300", "05000000");
    expect_response(HANDLE_RACP, "0300", "06000307");
    expect_quiet();
}

/* Cases 1, 2 and the first half of 6. */
static void the_time_is_set(void)
{
    printf("- the time is set, and set back\n");
    expect_response(HANDLE_DTCP, "0243000008af2f04000201", "090201");
    let_pass(50, 0);
    expect_read(HANDLE_DEVICE_TIME, "3208af2f" "04" "00" "1600" "0100");
    let_pass(50, 0);
    expect_response(HANDLE_DTCP, "024300e559b02f04000201", "0902050100");
    expect_response(HANDLE_DTCP, "0243004608af2f04000201", "090201");
    let_pass(40, 0);
    expect_read(HANDLE_DEVICE_TIME, "6e08af2f" "04" "00" "1600" "0200");
}

/* Cases 6, 7 and 9: 800,000,110 - 800,000,020 is 90, the seconds that ran. */
static void the_log_is_fetched(void)
{
    printf("- the log is fetched at several sizes, and stamps are carried\n");
    fetch(2, "0101", two_records_at_20, "06000101");
    expect_carried(800000050, 1, 0, 800000020);
    expect_carried(800000110, 2, 0, 800000110);
    reconnect(25 + ATT_HEADER);
    fetch(2, "0101", two_records_whole, "06000101");
    expect_carried(800000050, 1, 0, 800000020);
    reconnect(ATT_LARGEST_MTU);
    fetch(2, "0701", two_records_whole, "08000200");
    fetch(2, "0106", (const char *const[]){"03" RECORD_1_START RECORD_1_END, NULL}, "06000101");
    expect_carried(800000050, 1, 0, 800000020);
    expect_carried(800000050, 0, DTS_REFUSED_NOT_HELD, 0);
    expect_response(HANDLE_RACP, "0401", "05000200");
}

static void writes_during_a_report(void)
{
    printf("- writes during a report\n");
    expect_written(HANDLE_RACP, "0101");
    expect_segment(two_records_whole[0]);
    expect_error(HANDLE_RACP, "0401", DTS_ATT_PROCEDURE_IN_PROGRESS);
    expect_error(HANDLE_DTCP, "0343000008af2f04000201", DTS_ATT_PROCEDURE_IN_PROGRESS);
    expect_error(HANDLE_DTCP, "000102030405060708090a0b0c0d0e0f1011121314", DTS_ATT_INVALID_LENGTH);
    expect_response(HANDLE_RACP, "0300", "06000301");
    expect_quiet();
}

/* The report ends; the record shows the count before the fault; no stamp is carried over it. */
static void a_time_fault(void)
{
    static const char *const only_the_fault[] = {
        "01" "020000000000" "1900" "1600" "0000" "4608af2f" "6e08af", "06" "2f", NULL,
    };
    printf("- a time fault during a report\n");
    reconnect(ATT_DEFAULT_MTU);
    expect_written(HANDLE_RACP, "0101");
    expect_segment(two_records_at_20[0]);
    printf("clock   time fault\n");
    expect("a fault that ends a report", reader_fault(), 4);
    expect_indication(HANDLE_RACP, "06000108");
    expect_quiet();
    expect_read(HANDLE_DEVICE_TIME, "4608af2f" "04" "00" "1900" "0300");
    fetch(3, "0103010200", only_the_fault, "06000101");
    expect_carried(800000110, 2, DTS_REFUSED_FAULT, 0);
    expect_carried(800000070, 3, 0, 800000070);
}

/* Cases 3, 4, 5, 12; the log of four slots overwrites its oldest records, and a number that is gone matches nothing. */
static void the_ends_of_the_ranges(void)
{
    printf("- the ends of the ranges\n");
    expect_response(HANDLE_DTCP, "0343007f9d9e2504000201", "0903050400");
    expect_response(HANDLE_DTCP, "034300809d9e2504000201", "090301");
    expect_response(HANDLE_DTCP, "034300801319bc04000201", "0903050400");
    expect_response(HANDLE_DTCP, "0343007f1319bc04000201", "090301");
    let_pass(0, 0);
    let_pass(1, -DTS_REFUSED_PAST_LAST);
    expect_response(HANDLE_DTCP, "0343000008af2f38000201", "090301");
    expect_response(HANDLE_DTCP, "0343000008af2fd0000201", "090301");
    expect_response(HANDLE_DTCP, "0343000008af2f80000201", "090301");
    expect_response(HANDLE_DTCP, "0343000008af2f39000201", "0903050400");
    expect_response(HANDLE_DTCP, "0343000008af2fcf000201", "0903050400");
    expect_response(HANDLE_RACP, "0401", "05000400");
    expect_response(HANDLE_RACP, "0402010300", "05000000");
    expect_response(HANDLE_RACP, "0403010300", "05000000");
    expect_read(HANDLE_DEVICE_TIME, "0008af2f" "80" "00" "1200" "0800");
}

/* Numbers 4 to 7: any number may come first into a copy, and a shorter copy has the newest. */
static void a_log_in_use(void)
{
    static const char *const four_records[] = {
        "03" "04000100000016001600010004000201" "7f1319bc" "809d9e25",
        "07" "05000100000016001600010038000201" "0008af2f" "7f1319bc",
        "0b" "060001000000160016000100d0000201" "0008af2f" "0008af2f",
        "0f" "07000100000012001600010080000201" "0008af2f" "0008af2f",
        NULL,
    };
    printf("- a log that no longer begins at 0\n");
    reconnect(25 + ATT_HEADER);
    fetch(8, "0101", four_records, "06000101");
    expect_carried(631152000, 4, 0, 800000000);
    expect_carried(631152000, 3, DTS_REFUSED_NOT_HELD, 0);
    fetch_into(2, 8, "0101", four_records, "06000101");
    expect_carried(800000000, 6, 0, 800000000);
    expect_carried(800000000, 5, DTS_REFUSED_NOT_HELD, 0);
    expect("keeping the newest again", keep_record(DTS_TIME_UPDATE_BYTES), -DTS_REFUSED_NOT_NEXT);
    expect("keeping a part of it", keep_record(DTS_TIME_FAULT_BYTES), -DTS_REFUSED_RECORD);
    expect_next(8);
}

/* Nothing more of the report comes, and what is switched on has to be switched on again. */
static void the_tablet_goes(void)
{
    printf("- the tablet goes in the middle of a report\n");
    expect_written(HANDLE_RACP, "0101");
    expect("disconnect", reader_disconnect(), 0);
    expect_quiet();
    expect_error(HANDLE_RACP, "0401", DTS_ATT_CCC_IMPROPERLY_CONFIGURED);
    subscribe();
    expect_response(HANDLE_RACP, "0401", "05000400");
}

static void power_comes_back(uint32_t seconds_since, int32_t expected)
{
    int32_t answer = reader_power_on(seconds_since);
    printf("clock   power on after %u seconds: answer %d\n", (unsigned)seconds_since, (int)answer);
    expect("power on", answer, expected);
    expect_quiet();
}

/* Clock and log are kept, the report and the client's subscriptions are not. */
static void the_power_goes(void)
{
    printf("- the power goes in the middle of a report\n");
    expect_written(HANDLE_RACP, "0101");
    power_comes_back(25, 0);
    expect_error(HANDLE_RACP, "0401", DTS_ATT_CCC_IMPROPERLY_CONFIGURED);
    expect_read(HANDLE_DEVICE_TIME, "1908af2f" "80" "00" "1200" "0800");
    subscribe();
    expect_response(HANDLE_RACP, "0401", "05000400");
    expect("trouble", reader_trouble(), 0);
}

/* A switch that the library did not take is not taken over; the log outlives its clock and shows the loss. */
static void the_state_is_damaged(void)
{
    static const char *const the_fault[] = {
        "01" "080000000000" "1900" "1900" "0000" "809d9e25" "809d9e", "06" "25", NULL,
    };
    printf("- the state is damaged\n");
    reader_kept.state[DTS_STATE_BYTES - 1] ^= 1;
    expect_error(HANDLE_LOG_CCC, "0000", DTS_ATT_UNLIKELY_ERROR);
    expect("trouble", reader_trouble(), -DTS_REFUSED_STATE);
    reader_kept.state[DTS_STATE_BYTES - 1] ^= 1;
    expect_written(HANDLE_DTCP_CCC, "0200");
    expect_response(HANDLE_RACP, "0401", "05000400");
    reader_kept.state[DTS_STATE_BYTES - 1] ^= 1;
    power_comes_back(25, 0);
    expect_read(HANDLE_DEVICE_TIME, "809d9e25" "80" "ff" "1900" "0900");
    subscribe();
    fetch(9, "0106", the_fault, "06000101");
    expect_carried(800000025, 8, DTS_REFUSED_FAULT, 0);
}

/* The report cannot go on, nothing is erased, and every request that needs the log is answered with an error. */
static void the_log_is_damaged(void)
{
    printf("- the log is damaged in the middle of a report\n");
    expect_written(HANDLE_RACP, "0101");
    reader_kept.table[DTS_HEADER_BYTES - 1] ^= 1;
    expect_quiet();
    expect("trouble", reader_trouble(), -DTS_REFUSED_TABLE);
    expect_error(HANDLE_DTCP, "0343000008af2f04000201", DTS_ATT_UNLIKELY_ERROR);
    expect_error_to(ATT_READ_REQUEST, HANDLE_DEVICE_TIME, "", DTS_ATT_UNLIKELY_ERROR);
    power_comes_back(25, -DTS_REFUSED_TABLE);
    printf("fitter  mends the log\n");
    reader_kept.table[DTS_HEADER_BYTES - 1] ^= 1;
    power_comes_back(25, 0);
    expect_read(HANDLE_DEVICE_TIME, "999d9e25" "80" "ff" "1900" "0900");
}

/* ---- A day with two fetches ---- */

#define RECORD_2 "02000100000016001600000004000201" "7808af2f" "6e08af2f"
#define RECORD_3 "03000100000016001600000004000201" "9608af2f" "9608af2f"
#define RECORD_4 "04000100000016001600000004000201" "cd08af2f" "c808af2f"
#define RECORD_5 "05000100000016001600000004000201" "cd08af2f" "cd08af2f"

/* Another log has a copy and a map of its own. It is empty, so nothing is missing. */
static void another_reader(void)
{
    printf("- another reader, in the morning\n");
    memset(&reader_kept, 0, sizeof reader_kept);
    expect("power on", reader_power_on(0), 0);
    exchange_mtu(25 + ATT_HEADER);
    subscribe();
    start_copy(SLOTS);
    learn("809d9e25" "80" "ff" "1900" "0000", "05000000");
    expect_received(0);
    propose("");
}

static void the_first_fetch(void)
{
    static const char *const three_records[] = {
        "03" RECORD_0_START RECORD_0_END, "07" RECORD_1_START RECORD_1_END, "0b" RECORD_2, NULL,
    };
    printf("- the first fetch of the day\n");
    expect_response(HANDLE_DTCP, "0243000008af2f04000201", "090201");
    let_pass(100, 0);
    expect_response(HANDLE_DTCP, "0243004608af2f04000201", "090201");
    let_pass(40, 0);
    expect_response(HANDLE_DTCP, "0243007808af2f04000201", "090201");
    learn("7808af2f" "04" "00" "1600" "0300", "05000300");
    expect_received(0);
    propose("01040100000200");
    hear(3, three_records, "06000101");
    expect_received(3);
    propose("");
}

/* Record 3 has a free slot, record 4 overwrites record 0. 800,000,205 - 800,000,035 is 170, the seconds that ran. */
static void the_second_fetch(void)
{
    printf("- the second fetch, of the new records alone\n");
    let_pass(30, 0);
    expect_response(HANDLE_DTCP, "0243009608af2f04000201", "090201");
    let_pass(50, 0);
    expect_response(HANDLE_DTCP, "024300cd08af2f04000201", "090201");
    learn("cd08af2f" "04" "00" "1600" "0500", "05000400");
    expect_received(2);
    propose("01040103000400");
    hear(5, (const char *const[]){"03" RECORD_3, "07" RECORD_4, NULL}, "06000101");
    expect_received(4);
    propose("");
    expect_carried(800000050, 1, 0, 800000035);
    expect_carried(800000050, 0, DTS_REFUSED_NOT_HELD, 0);
}

/* Record 5 overwrites record 1 after another tablet was told of it: the tablet learns anew what the reader holds. */
static void a_run_that_is_gone(void)
{
    static const char *const four_records[] = {
        "03" RECORD_2, "07" RECORD_3, "0b" RECORD_4, "0f" RECORD_5, NULL,
    };
    printf("- a run whose first record is overwritten before it is asked for\n");
    start_copy(SLOTS);
    learn("cd08af2f" "04" "00" "1600" "0500", "05000400");
    expect_response(HANDLE_DTCP, "024300cd08af2f04000201", "090201");
    propose("01040101000400");
    expect_indication(HANDLE_RACP, "06000106");
    expect_quiet();
    learn("cd08af2f" "04" "00" "1600" "0600", "05000400");
    expect_received(0);
    propose("01040102000500");
    hear(6, four_records, "06000101");
    expect_received(4);
    propose("");
}

int main(void)
{
    a_new_reader();
    an_empty_log();
    the_time_is_set();
    the_log_is_fetched();
    writes_during_a_report();
    a_time_fault();
    the_ends_of_the_ranges();
    a_log_in_use();
    the_tablet_goes();
    the_power_goes();
    the_state_is_damaged();
    the_log_is_damaged();
    another_reader();
    the_first_fetch();
    the_second_fetch();
    a_run_that_is_gone();
    printf("%d differences\n", differences);
    return differences != 0;
}
