/*
 * Whiskraven: a Bluetooth Device Time Service reader's clock with its log of clock changes, the log's
 * transfer over the air, and the tablet's half that reads it.
 *
 * ONE LIBRARY. This header and libwhiskraven.a, which tools/archive makes for x86-64 and for 64-bit Arm. Its
 * names begin with dts_ and DTS_, for the service. It calls nothing but memcpy, memmove, memset and memcmp,
 * which C compilers take for granted, allocates nothing and keeps nothing between calls. All that a reader is
 * stands in two buffers that the caller owns and lends: a state and a log table.
 *
 * ANSWERS. Every function returns an int32_t. At least 0: done, and the answer is what the function says.
 * Below 0: refused, and minus the answer is the refusal number (DTS_REFUSED_..). Refusals are tested in
 * the order in which each function lists them, and the first that applies is the answer. A refused call
 * leaves every lent byte as it was, with these exceptions: dts_join then zeroes the joining state;
 * dts_one_beast and dts_newest_update say in a number of the caller's which side was refused.
 * Every input has an answer; there is no "undefined if the table is damaged".
 *
 * BUFFERS. A buffer is a pointer and its length in bytes. Bytes of `out` past those that the answer counts
 * keep their old values. Where a parameter is const, the buffer is only read. Numbers in buffers are little
 * endian. docs/FORMAT.md has the log table, the records and the notifications byte by byte. A tablet's map is no
 * such buffer: its length counts words of 64 bits, each a number in the machine's own byte order.
 *
 * POWER ON. A reader keeps its state and its table over power-off. dts_start is for a new reader only: it
 * erases the log, and with it what every stamp needs that was noted before.
 *   1. A new reader, which your own mark in its memory tells: dts_start. Set the mark when that is stored.
 *   2. Any other: bring both buffers back and call dts_disconnect, since no client is there any more. Then
 *      dts_device_time, which only reads, tests both:
 *      10  both are sound and stay as they are. Then dts_seconds with the seconds since they were stored.
 *          If your hardware can't tell them, the clock has lost its time: dts_fault.
 *      -2  the state is damaged, the log is sound. Keep the log: dts_start with the state and a spare table
 *          makes a new clock, and dts_fault with the kept table logs that the time was lost. Stamps from
 *          before are then refused with 13, as they must be.
 *      -1  the log is damaged. Leave the bytes as they are and tell the fitter, who may still read them or get a
 *          log back from them (dts_salvage); until then requests get DTS_ATT_UNLIKELY_ERROR. Starting anew is a
 *          person's choice: the numbers begin at 0 again, so it is another reader from then on, and no stamp noted
 *          before may be carried over its log.
 * Store state and table together, as one write that is there whole or not at all, and before the response
 * goes out. Buffers of two moments can both be sound, and then the log does not show how the clock was set:
 * where you can't be sure that they belong together, call dts_fault. Seconds alone need no storing where your
 * hardware counts on: they are handed over at power-on.
 *
 * REFUSALS AND THE CLIENT. dts_att_error gives the ATT error of 4, 5 and 6. For 1, 2 and 3 it gives 0: the
 * client did nothing wrong. It must have an error response all the same, DTS_ATT_UNLIKELY_ERROR; and those
 * refusals must not get lost, for 1 and 2 say that memory is damaged, and 3 that the firmware lends too little.
 * Where dts_notify gives one of them, its report can't go on: close the connection and call dts_disconnect.
 * A switch counts as the client wrote it only where dts_switches answered 0. A write that is taken is answered
 * in this order: the write response, then the indication.
 *
 * FETCHING. A tablet that keeps a copy of a log (dts_keep) fetches only what is missing there. Beside the copy it
 * has a map, one bit for each of the 65,536 sequence numbers, and the three numbers of `told`, the range that it was
 * told last; both are all zero with a new copy. It keeps copy, map and told over power-off, stored together as one
 * write. A fetch:
 *   1. Read Device Time, and then ask the number of all records (RACP 04 01). The newest number that the reader holds
 *      is Device Time's next number - 1, the oldest is next - count, modulo 65,536; where the count is 0 it holds none.
 *      dts_fetch_tell.
 *   2. dts_fetch_propose. 0: nothing is missing, and the fetch is over. 7: write the request to the RACP.
 *   3. Join and read what comes: the run's first record, then one number after the other. Keep each (dts_keep), and
 *      then take its number in (dts_fetch_take). With a record out of turn do neither: one before it was lost on the
 *      way, and is asked for again. After the closing response 06 00 01 01 go on with 2, after any other with 1.
 * A run whose first record was overwritten in the meantime matches nothing, and the response is 06 00 01 06: tell
 * again, with 1. Where dts_keep refuses a run's first record with 23, records before it were overwritten and never
 * fetched: begin a new copy with a new map. Between two tellings fewer than 64,000 new records may be logged: after
 * more of them a bit can stand for the record that had the number before (docs/FORMAT.md).
 *
 * VERSION. DTS_VERSION_MINOR rises where something is added: what compiled before still does, and means the
 * same. DTS_VERSION_MAJOR rises where that is not so, or where a state or a table that was stored before would
 * mean something else. Header and archive belong together: take both from one folder.
 *
 * WHAT THE PROOF COVERS. Each function is proved, for all bytes of all lent buffers and all numbers, to give
 * the answer and the bytes that docs/PROMISES.md says, to do nothing undefined, and to return. That is said of
 * the program in its own language, Rattle. The step from there to the archive's machine code is the compiler's
 * (LLVM), for either processor, and no proof covers it: the archive is tested instead, call by call against a
 * second implementation. The functions rely on the caller for what follows, and cannot see whether it holds:
 *   - each pointer is valid for as many bytes as its length says, a map's for as many words, for writing too where
 *     it is not const; it is not NULL, even where the length is 0;
 *   - no length is larger than its buffer, and no buffer has more than PTRDIFF_MAX bytes;
 *   - buffers lent to one call do not overlap, and nobody else changes them during the call (an interrupt
 *     that calls into the same state does);
 *   - `fields` points to DTS_FIELDS numbers, `part` to DTS_PART_NUMBERS, `told` to DTS_TOLD_NUMBERS, `carried` to one
 *     int64_t and `side` to one uint32_t; these and a map are aligned for their types. `request` points to
 *     DTS_REQUEST_BYTES bytes;
 *   - memcpy, memmove, memset and memcmp do what C says;
 *   - there is stack below the call: at most 128 bytes for dts_join and dts_read, at most 640 for any other,
 *     measured on both processors (docs/BENCHMARKS.md has each);
 *   - the bytes reach the table's memory and stay there: a write to flash, a loss of power and the radio are
 *     the caller's.
 *
 * EXAMPLE. The heart of a reader's firmware. tests/c/example.c has these lines too, with stand-ins for flash
 * and radio; the gate compares the two, compiles that file and runs it.
 *
 *     // Kept over power-off, together.
 *     static uint8_t state[DTS_STATE_BYTES], table[DTS_TABLE_BYTES(4)];
 *
 *     // At least 0, or the refusal that a person must see. The seconds are those since both were stored.
 *     static int32_t power_on(int new_reader, uint32_t seconds_since)
 *     {
 *         uint8_t out[DTS_OUT_BYTES], spare[DTS_TABLE_BYTES(1)];
 *         int32_t answer;
 *
 *         if (new_reader)
 *             return dts_start(state, sizeof state, table, sizeof table);
 *         dts_disconnect(state, sizeof state); // a state that this refuses is refused below too
 *         answer = dts_device_time(state, sizeof state, table, sizeof table, out, sizeof out);
 *         if (answer == -DTS_REFUSED_STATE) {
 *             dts_start(state, sizeof state, spare, sizeof spare);
 *             return dts_fault(state, sizeof state, table, sizeof table, out, sizeof out);
 *         }
 *         return answer < 0 ? answer : dts_seconds(state, sizeof state, seconds_since);
 *     }
 *
 *     // The ATT error for an answer below 0.
 *     static uint8_t att_error(int32_t answer)
 *     {
 *         int32_t error = dts_att_error((uint32_t)-answer);
 *
 *         if (error != 0)
 *             return (uint8_t)error;
 *         show_trouble(answer); // not the client's fault, so a person must see it
 *         return DTS_ATT_UNLIKELY_ERROR;
 *     }
 *
 *     // The client has written to the Device Time Control Point.
 *     static void dtcp_written(const uint8_t *write, size_t length)
 *     {
 *         uint8_t out[DTS_OUT_BYTES];
 *         int32_t answer = dts_dtcp_write(state, sizeof state, table, sizeof table, write, length, out, sizeof out);
 *
 *         if (answer < 0) { // nothing has changed
 *             send_error_response(att_error(answer));
 *             return;
 *         }
 *         store(); // both buffers, before the client hears of it
 *         send_write_response();
 *         send_indication(out, (size_t)answer);
 *     }
 */
#ifndef WHISKRAVEN_H
#define WHISKRAVEN_H

#include <stddef.h>
#include <stdint.h>

#ifdef __cplusplus
extern "C" {
#endif

/* This header's version: see VERSION above. */
#define DTS_VERSION_MAJOR 4
#define DTS_VERSION_MINOR 3

/* Sizes, in bytes. */
enum {
    DTS_STATE_BYTES = 32,         /* a state has exactly these */
    DTS_JOINING_BYTES = 48,       /* a joining state has exactly these */
    DTS_RECORD_BYTES = 45,        /* a record has at most these */
    DTS_TIME_UPDATE_BYTES = 24,   /* a Time_Update record */
    DTS_TIME_FAULT_BYTES = 20,    /* a Time_Fault record */
    DTS_HEADER_BYTES = 16,        /* the log table's header */
    DTS_SLOT_BYTES = 64,          /* each of its slots */
    DTS_MOST_SLOTS = 1023,        /* a table has 1 to so many slots */
    DTS_OUT_BYTES = 20,           /* an output has at least these; for dts_notify at least p */
    DTS_LONGEST_WRITE = 20,       /* a control point write has 1 to so many */
    DTS_SMALLEST_PAYLOAD = 20,    /* p of dts_notify: ATT_MTU - 3, from this.. */
    DTS_LARGEST_PAYLOAD = 244,    /* ..to this */
    DTS_DEVICE_TIME_BYTES = 10,
    DTS_FEATURE_BYTES = 4,
    DTS_PARAMETERS_BYTES = 4,
    DTS_REPORT_ENTRY_BYTES = 16,  /* an entry of dts_salvage's report */
    DTS_REQUEST_BYTES = 7         /* a request of dts_fetch_propose has exactly these */
};

/* The bytes of a log table with so many slots: 80 for 1, 65,488 for 1,023. */
#define DTS_TABLE_BYTES(slots) (DTS_HEADER_BYTES + DTS_SLOT_BYTES * (slots))

/* Room for any report of dts_salvage on a table with so many slots: an entry for each, and for five header fields. */
#define DTS_REPORT_BYTES(slots) (DTS_REPORT_ENTRY_BYTES * ((slots) + 5))

/* Base_Time counts seconds since 2000-01-01, from 2020-01-01 to the last second of 2099. */
#define DTS_FIRST_BASE_TIME UINT32_C(631152000)
#define DTS_LAST_BASE_TIME UINT32_C(3155759999)

/* dts_notify adds this to the number of bytes where they close the report. */
enum { DTS_CLOSING = 256 };

/* Refusal numbers; an answer below 0 is minus one of these. There is no 9, and none from 14 to 17 or 22. */
enum {
    DTS_REFUSED_TABLE = 1,        /* the log table is not sound */
    DTS_REFUSED_STATE = 2,        /* the state has another length, another encoding, or breaks a rule */
    DTS_REFUSED_OUTPUT = 3,       /* an output is too short, p is outside 20 to 244, or a map has not 1,024 words */
    DTS_REFUSED_LENGTH = 4,       /* a control point write of 0 bytes or over 20 */
    DTS_REFUSED_SWITCHED_OFF = 5, /* the indications or notifications it needs are off */
    DTS_REFUSED_RUNNING = 6,      /* a report is running, and the write is no RACP Abort */
    DTS_REFUSED_PAST_LAST = 7,    /* the clock would pass the end of 2099 */
    DTS_REFUSED_NO_REPORT = 8,    /* a notification is asked for, and no report is running */
    DTS_REFUSED_SEGMENT = 10,     /* a segment that does not follow */
    DTS_REFUSED_RECORD = 11,      /* the bytes are not a well-formed record */
    DTS_REFUSED_NOT_HELD = 12,    /* a record logged after the stamp is no longer held */
    DTS_REFUSED_FAULT = 13,       /* a Time_Fault lies after the stamp */
    DTS_REFUSED_WINDOW = 18,      /* the window is wider than DTS_WIDEST_WINDOW seconds */
    DTS_REFUSED_NO_UPDATE = 19,   /* neither of two log tables holds a Time_Update */
    DTS_REFUSED_SIZE = 20,        /* no log table has so many bytes */
    DTS_REFUSED_NO_RECORD = 21,   /* a damaged log table without one well-formed record */
    DTS_REFUSED_NOT_NEXT = 23     /* the number of a record to be kept does not follow */
};

/* ATT errors: of refusals 4, 5, 6, as dts_att_error gives them; and for 1, 2, 3, which are not the client's. */
enum {
    DTS_ATT_INVALID_LENGTH = 0x0D,
    DTS_ATT_CCC_IMPROPERLY_CONFIGURED = 0xFD,
    DTS_ATT_PROCEDURE_IN_PROGRESS = 0xFE,
    DTS_ATT_UNLIKELY_ERROR = 0x0E
};

/* Bluetooth's assigned numbers of the service and its characteristics, 16-bit UUIDs. */
enum {
    DTS_UUID_SERVICE = 0x1847,
    DTS_UUID_FEATURE = 0x2B8E,
    DTS_UUID_PARAMETERS = 0x2B8F,
    DTS_UUID_DEVICE_TIME = 0x2B90,
    DTS_UUID_DTCP = 0x2B91,       /* the Device Time Control Point; a client has its indications */
    DTS_UUID_LOG = 0x2B92,        /* Time Change Log Data; a client has its notifications */
    DTS_UUID_RACP = 0x2A52        /* the Record Access Control Point; a client has its indications */
};

/* Bits of a status: of the clock, in Device Time, and in records. */
enum {
    DTS_STATUS_TIME_FAULT = 0x0001,
    DTS_STATUS_UTC_ALIGNED = 0x0002,
    DTS_STATUS_QUALIFIED_LOCAL = 0x0004,
    DTS_STATUS_ASKS_UPDATE = 0x0008,
    DTS_STATUS_EPOCH_2000 = 0x0010 /* set in every status */
};

/* The bytes that stand for unknown. */
enum {
    DTS_UNKNOWN_ZONE = 128,
    DTS_UNKNOWN_DST = 255,
    DTS_UNKNOWN_ACCURACY = 255
};

/* The Device Time Control Point: opcodes of a write and of the response. */
enum {
    DTS_DTCP_PROPOSE_OPCODE = 2,
    DTS_DTCP_FORCE_OPCODE = 3,
    DTS_DTCP_RESPONSE_OPCODE = 9
};

/*
 * Flags of a proposed time, which follow the opcode; the other bits are ignored. Qualified local counts only
 * with UTC aligned, a known zone and DST, and a source that can vouch for them: not 0, 3 (radio time), 4 or 7.
 */
enum {
    DTS_FLAG_UTC_ALIGNED = 0x0001,
    DTS_FLAG_QUALIFIED_LOCAL = 0x0002,
    DTS_FLAG_EPOCH_2000 = 0x0040  /* must be set */
};

/* Values in its response. */
enum {
    DTS_DTCP_SUCCESS = 1,
    DTS_DTCP_OPCODE_NOT_SUPPORTED = 2,
    DTS_DTCP_INVALID_OPERAND = 3,
    DTS_DTCP_PROCEDURE_REJECTED = 5 /* then two bytes of DTS_REJECTED_.. */
};

/* Why a time was rejected: all that apply. */
enum {
    DTS_REJECTED_UNREALISTIC = 0x0001,
    DTS_REJECTED_OUT_OF_RANGE = 0x0004,
    DTS_REJECTED_LOWER_QUALITY = 0x0020,
    DTS_REJECTED_WRONG_EPOCH = 0x0040
};

/* The Record Access Control Point: opcodes of a write.. */
enum {
    DTS_RACP_REPORT_OPCODE = 1,
    DTS_RACP_ABORT_OPCODE = 3,
    DTS_RACP_NUMBER_OPCODE = 4,
    DTS_RACP_COMBINED_OPCODE = 7
};

/* ..and of a response. */
enum {
    DTS_RACP_NUMBER_RESPONSE = 5, /* then 0 and the count, 2 bytes */
    DTS_RACP_CODE_RESPONSE = 6,   /* then 0, the opcode that was asked, a code */
    DTS_RACP_COMBINED_RESPONSE = 8 /* then 0 and the count, 2 bytes */
};

/*
 * Operators; the operand of 2 to 4 is DTS_RACP_SEQUENCE_TYPE and one number or two. A number names the held record
 * that has it, and records go by age: 65,535 and all newer goes on to 0. Where no held record has the number, or
 * the maximum's is older than the minimum's, nothing matches.
 */
enum {
    DTS_RACP_NULL = 0,            /* of an Abort, and of responses */
    DTS_RACP_ALL_RECORDS = 1,
    DTS_RACP_AT_MOST = 2,         /* the named record and all older */
    DTS_RACP_AT_LEAST = 3,        /* the named record and all newer */
    DTS_RACP_WITHIN_RANGE = 4,    /* from the minimum's record forward to the maximum's */
    DTS_RACP_FIRST_RECORD = 5,
    DTS_RACP_LAST_RECORD = 6
};
enum { DTS_RACP_SEQUENCE_TYPE = 1 };

/* Codes in a response. */
enum {
    DTS_RACP_SUCCESS = 1,
    DTS_RACP_OPCODE_NOT_SUPPORTED = 2,
    DTS_RACP_INVALID_OPERATOR = 3,
    DTS_RACP_OPERATOR_NOT_SUPPORTED = 4,
    DTS_RACP_INVALID_OPERAND = 5,
    DTS_RACP_NO_RECORDS_FOUND = 6,
    DTS_RACP_ABORT_UNSUCCESSFUL = 7,
    DTS_RACP_PROCEDURE_NOT_COMPLETED = 8,
    DTS_RACP_OPERAND_NOT_SUPPORTED = 9
};

/* The header byte of a notification: two bits, and above them the counter. */
enum {
    DTS_SEGMENT_FIRST = 0x01,
    DTS_SEGMENT_LAST = 0x02,
    DTS_SEGMENT_COUNTER_SHIFT = 2
};

/* A record's type. */
enum {
    DTS_TYPE_TIME_FAULT = 0,
    DTS_TYPE_TIME_UPDATE = 1
};

/* Where dts_read puts what; 0 where the record's type has no such field. */
enum {
    DTS_FIELD_SEQUENCE = 0,
    DTS_FIELD_TYPE = 1,           /* DTS_TYPE_.. */
    DTS_FIELD_STATUS = 2,         /* DTS_STATUS_.. */
    DTS_FIELD_OLD_STATUS = 3,
    DTS_FIELD_FAULT_COUNT = 4,
    DTS_FIELD_ZONE = 5,           /* the byte: 208 to 255 are -48 to -1, 128 is unknown */
    DTS_FIELD_DST = 6,
    DTS_FIELD_SOURCE = 7,
    DTS_FIELD_ACCURACY = 8,
    DTS_FIELD_BASE = 9,           /* the time received or loaded */
    DTS_FIELD_OLD_BASE = 10,      /* the clock just before */
    DTS_FIELDS = 11
};

/*
 * THE STATE. 0-3 Base_Time, 4 zone, 5 DST, 6 source, 7 accuracy, 8-9 status, 10-11 fault count, 12-15 last
 * UTC-aligned time, 16 switches (bit 0 DTCP, 1 RACP, 2 log), 17 running report's opcode (0: none),
 * 18 operator, 19-20 minimum, 21-22 maximum, 23 counter, 24 whether a record is left (0 or 1), 25-26 its
 * number, 27 bytes of it sent, 28-31 zero. A state has one encoding, with 0 in fields without meaning; any
 * other bytes are refusal 2. Calls that take the table too look the report's next record up in it.
 * It may be copied, stored and brought back; a state brought back with another table is tested like any.
 */

/* ---- The reader: the clock and its events ---- */

/*
 * Starts a new reader: 2020-01-01, in time fault, all switches off, an empty log. What the buffers held does
 * not matter, and is gone: a reader that has a log is not started again (see POWER ON). Answers 0; then every
 * byte of both is rewritten, the table zeroed but for N and the offset 16.
 * Refuses: 1 (the size is not DTS_TABLE_BYTES of 1 to 1,023), 2 (the state's length is not 32).
 */
int32_t dts_start(uint8_t *state, size_t state_length, uint8_t *table, size_t table_length);

/*
 * n seconds have gone by: Base_Time rises by n, which may be 0. Answers 0.
 * Refuses: 2, 7.
 */
int32_t dts_seconds(uint8_t *state, size_t state_length, uint32_t n);

/*
 * The client's three subscriptions: indications of the DTCP, indications of the RACP, notifications of the
 * log. 0 is off, any other value is on. A running report goes on whatever they are. Answers 0.
 * Refuses: 2. Then the switches are what they were, and the client's write gets an error response.
 */
int32_t dts_switches(uint8_t *state, size_t state_length, uint8_t dtcp, uint8_t racp, uint8_t log);

/*
 * The client has gone: all switches off, a running report ends without response. Clock and log stay.
 * Answers 0. Takes no table, so it also frees a state whose report no longer fits its table.
 * Refuses: 2.
 */
int32_t dts_disconnect(uint8_t *state, size_t state_length);

/*
 * The clock has lost its time: Base_Time becomes the last UTC-aligned time, and a Time_Fault is logged.
 * Answers 0, or 4 where that ends a report: out then holds the RACP response 06 00 op 08 to be indicated.
 * Refuses: 1, 2, 3.
 */
int32_t dts_fault(uint8_t *state, size_t state_length, uint8_t *table, size_t table_length,
                  uint8_t *out, size_t out_length);

/* ---- The reader: what a client writes and reads ---- */

/*
 * A write to the Device Time Control Point. Answers 3 or 5, the length of the response in out, to be
 * indicated: 09 op 01 taken (the clock is set and one Time_Update logged), 09 op 02, 09 op 03, or
 * 09 op 05 and two bytes of flags. Any response but 09 op 01 leaves state and table as they were.
 * Refuses: 1, 2, 3, 4, 5 (DTCP indications off), 6.
 */
int32_t dts_dtcp_write(uint8_t *state, size_t state_length, uint8_t *table, size_t table_length,
                       const uint8_t *write, size_t write_length, uint8_t *out, size_t out_length);

/*
 * A write to the Record Access Control Point. Answers 4, the length of the response in out, to be
 * indicated; or 0: a report has begun, out is untouched, and dts_notify gives its notifications.
 * Refuses: 1, 2, 3, 4, 5 (RACP indications or log notifications off), 6 (an Abort passes).
 */
int32_t dts_racp_write(uint8_t *state, size_t state_length, const uint8_t *table, size_t table_length,
                       const uint8_t *write, size_t write_length, uint8_t *out, size_t out_length);

/*
 * The running report's next notification, of at most p bytes; p is ATT_MTU - 3 and may change from call to
 * call. Answers 2 to p, the length of a segment in out, to be notified on the log; or DTS_CLOSING + 4: out
 * holds the closing RACP response, to be indicated, and the report is over. (06 00 01 01 can be a segment's
 * bytes too: the answer alone tells them apart.)
 * Refuses: 1, 2, 3 (also p outside 20 to 244 or above out_length), 8.
 */
int32_t dts_notify(uint8_t *state, size_t state_length, const uint8_t *table, size_t table_length,
                   uint32_t p, uint8_t *out, size_t out_length);

/*
 * The Device Time characteristic as a client reads it. Answers 10: Base_Time 4, zone 1, DST 1, status 2,
 * the log's next sequence number 2. A client keeps the first and the last as a stamp with its number.
 * Refuses: 1, 2, 3.
 */
int32_t dts_device_time(const uint8_t *state, size_t state_length, const uint8_t *table, size_t table_length,
                        uint8_t *out, size_t out_length);

/* The Device Time Feature characteristic. Answers 4: FF FF 02 04. Refuses: 3. */
int32_t dts_feature(uint8_t *out, size_t out_length);

/* The Device Time Parameters characteristic. Answers 4: FF FF 00 00. Refuses: 3. */
int32_t dts_parameters(uint8_t *out, size_t out_length);

/*
 * The ATT error for a refusal number, given as a positive number: 0x0D for 4, 0xFD for 5, 0xFE for 6. 0 for
 * any other number: those are not the client's fault. Send DTS_ATT_UNLIKELY_ERROR then, never 0.
 */
int32_t dts_att_error(uint32_t number);

/* ---- The tablet: joining, reading, keeping, carrying, salvage ---- */

/*
 * Takes one notification of the log. The joining state is 48 bytes: 0 phase (0 empty, 1 a whole record,
 * 2 inside one), 1 next counter, 2 length, 3-47 the record's bytes. Zero all 48 before each report.
 * Answers 0: more to come; 1 to 45: a whole record of that length stands in joining[3..].
 * Refuses: 10 (also a joining state of another length or outside its ranges). Then every byte lent is zeroed.
 */
int32_t dts_join(uint8_t *joining, size_t joining_length, const uint8_t *notification, size_t notification_length);

/*
 * Reads a record into 11 numbers, in the order of DTS_FIELD_... Answers 0; refused, fields is untouched.
 * Refuses: 11.
 */
int32_t dts_read(const uint8_t *bytes, size_t bytes_length, uint32_t fields[DTS_FIELDS]);

/*
 * Keeps a record in the tablet's own copy of a log. The copy is a table of any permitted size, empty at
 * first: zero it but for N in bytes 0-1 and 16 in byte 4, or let dts_start do so with a state that is not used.
 * Into an empty copy any number may come first, and the next number becomes that number plus 1 (after 65,535
 * comes 0); then only the next number may come. Where all slots are taken the oldest record is overwritten.
 * Answers 0. So a report of all records, joined and kept in order, leaves the newest of the reader's records,
 * as many as fit, and its next number.
 * Refuses: 1, 11, 23 (the copy holds records, and this one's number is not the next).
 */
int32_t dts_keep(uint8_t *table, size_t table_length, const uint8_t *record, size_t record_length);

/*
 * Carries a stamp over the clock changes logged since it was taken. q was the log's next sequence number
 * then; the table is the log now, or the tablet's own copy of it (dts_keep).
 * Answers 0 and sets *carried: the clock's present Base_Time minus *carried is the seconds that ran since,
 * if fewer than 65,536 records were logged since. It may be below 0. Refused, *carried is untouched.
 * Refuses: 1, 12, 13.
 */
int32_t dts_carry(uint32_t stamp, uint16_t q, const uint8_t *table, size_t table_length, int64_t *carried);

/*
 * Gets a log back from a table that may be damaged. A sound table comes back as it is, with an empty report. Of
 * any other the longest run of well-formed records with numbers one after the other is kept, the last of equal
 * ones, and written into a new table of the input's size; the report has an entry for each header field that is
 * another now and for each slot that isn't kept (docs/FORMAT.md has the rules and the entries byte by byte).
 * Answers the report's length in bytes: 0 to DTS_REPORT_BYTES of its slots. The table in `table` has as many bytes
 * as the input. Stamps may be carried over it only where its newest record is the last one that the reader wrote.
 * Refuses: 20, 21, 3 (table_length below input_length, or the report doesn't fit); of a sound table 3 alone.
 */
int32_t dts_salvage(const uint8_t *input, size_t input_length, uint8_t *table, size_t table_length,
                    uint8_t *report, size_t report_length);

/* An entry's first byte: a slot that isn't kept, or the header field that is another now. */
enum {
    DTS_ENTRY_SLOT = 0,           /* its place is in bytes 2-3 */
    DTS_ENTRY_SLOTS = 1,          /* N; of a field the old value is in bytes 4-9, the new one in bytes 10-15 */
    DTS_ENTRY_HELD = 2,           /* H */
    DTS_ENTRY_OFFSET = 3,         /* the oldest record's offset */
    DTS_ENTRY_NEXT = 4,           /* the next sequence number */
    DTS_ENTRY_REST = 5            /* header bytes 10-15 */
};

/* ---- The tablet: a ramp of two antennas ---- */

/* The two sides of a ramp, and what dts_one_beast answers. */
enum {
    DTS_SIDE_NONE = 0,
    DTS_SIDE_LEFT = 1,
    DTS_SIDE_RIGHT = 2
};
enum {
    DTS_ONE_BEAST = 1,
    DTS_TWO_BEASTS = 2
};
enum { DTS_WIDEST_WINDOW = 60 };  /* in seconds */

/*
 * One beast or two? Both antennas have read one ear tag. Of each side: its log now, or the tablet's own copy of it
 * (dts_keep); its clock's Base_Time now, at one instant for both; the stamp it noted; and its log's next sequence
 * number then. Each stamp is carried (dts_carry), and its age is its clock's Base_Time minus the carried stamp.
 * Answers DTS_ONE_BEAST where the two ages differ by at most `window` seconds, else DTS_TWO_BEASTS, and sets *side
 * to DTS_SIDE_NONE. So it is one beast exactly where at most so many seconds ran between the two reads, however often
 * either clock was set, if fewer than 65,536 records were logged on each side since.
 * Refuses: 18 (*side is DTS_SIDE_NONE); of the left side 1, 12, 13 (DTS_SIDE_LEFT); of the right side 1, 12, 13
 * (DTS_SIDE_RIGHT).
 */
int32_t dts_one_beast(const uint8_t *left, size_t left_length, uint32_t left_base, uint32_t left_stamp,
                      uint16_t left_next, const uint8_t *right, size_t right_length, uint32_t right_base,
                      uint32_t right_stamp, uint16_t right_next, uint32_t window, uint32_t *side);

/* Where dts_newest_update puts what. */
enum {
    DTS_PART_SIDE = 0,            /* DTS_SIDE_.. */
    DTS_PART_OFFSET = 1,          /* of the record's first byte, from that table's start */
    DTS_PART_LENGTH = 2,          /* the record's bytes */
    DTS_PART_NUMBERS = 3
};

/*
 * The later of two logs' newest Time_Updates: of each log the newest by age, and of these two the one with the
 * larger new base, the left one where they are equal, the only one where the other log holds none.
 * Answers 0 and sets part: which table, and where in it the record's bytes stand, for dts_read.
 * Refuses: 1 of the left table, 1 of the right one, 19. Then part's side is the refused table's (DTS_SIDE_NONE
 * for 19), its offset and its length are 0.
 */
int32_t dts_newest_update(const uint8_t *left, size_t left_length, const uint8_t *right, size_t right_length,
                          uint32_t part[DTS_PART_NUMBERS]);

/* ---- The tablet: fetching only what is missing ---- */

/* A map has exactly so many words. Bit b of word w, 0 the lowest, stands for the sequence number 64 * w + b. */
enum { DTS_MAP_WORDS = 1024 };

/* What stands where in told. */
enum {
    DTS_TOLD_ANY = 0,             /* 0: none, and the other two are not looked at; any other value: a range */
    DTS_TOLD_OLDEST = 1,          /* its first number.. */
    DTS_TOLD_NEWEST = 2,          /* ..and its last, going forward */
    DTS_TOLD_NUMBERS = 3
};

/*
 * Before a fetch: tells what the reader holds now. Where `any` is 0 that is no record, and oldest and newest are not
 * looked at. With any other value it is the numbers from oldest forward to newest; after 65,535 comes 0, so any two
 * numbers are a range, of 1 to 65,536. Every bit of the map outside is cleared, and told becomes 1, oldest, newest,
 * or 0, 0, 0 for no record. What stood in told is not looked at. Answers 0.
 * Refuses: 3 (words is not DTS_MAP_WORDS).
 */
int32_t dts_fetch_tell(uint64_t *map, size_t words, uint16_t told[DTS_TOLD_NUMBERS], uint8_t any, uint16_t oldest,
                       uint16_t newest);

/*
 * Proposes what to fetch: the first run of numbers of the told range whose bits are not set, from the oldest forward
 * and as long as it can be. It may go on from 65,535 to 0.
 * Answers DTS_REQUEST_BYTES, and request has the write to the RACP that asks for the run: 01 04 01, its first number
 * 2, its last number 2. Or 0: nothing is missing, and request is untouched.
 * Refuses: 3 (words is not DTS_MAP_WORDS).
 */
int32_t dts_fetch_propose(const uint64_t *map, size_t words, const uint16_t told[DTS_TOLD_NUMBERS],
                          uint8_t request[DTS_REQUEST_BYTES]);

/*
 * Takes a record in by its number: the number's bit is set where it lies in the told range; any other number changes
 * nothing. Answers 0 either way.
 * Refuses: 3 (words is not DTS_MAP_WORDS).
 */
int32_t dts_fetch_take(uint64_t *map, size_t words, const uint16_t told[DTS_TOLD_NUMBERS], uint16_t number);

/*
 * How many numbers are received. Answers the count of ones in the map, 0 to 65,536.
 * Refuses: 3 (words is not DTS_MAP_WORDS).
 */
int32_t dts_fetch_received(const uint64_t *map, size_t words);

#ifdef __cplusplus
}
#endif

#endif
