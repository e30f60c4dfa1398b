/*
 * One link between a reader and a tablet: ATT protocol data units, each a few bytes, handed over in one
 * process where a radio would send them. radio_reader.c is the reader's firmware, radio.c the tablet.
 */
#ifndef RADIO_H
#define RADIO_H

#include "whiskraven.h"

enum {
    ATT_ERROR_RESPONSE = 0x01,
    ATT_EXCHANGE_MTU_REQUEST = 0x02,
    ATT_EXCHANGE_MTU_RESPONSE = 0x03,
    ATT_READ_REQUEST = 0x0A,
    ATT_READ_RESPONSE = 0x0B,
    ATT_WRITE_REQUEST = 0x12,
    ATT_WRITE_RESPONSE = 0x13,
    ATT_NOTIFICATION = 0x1B,
    ATT_INDICATION = 0x1D,
    ATT_CONFIRMATION = 0x1E
};

enum {
    ATT_INVALID_HANDLE = 0x01,
    ATT_READ_NOT_PERMITTED = 0x02,
    ATT_WRITE_NOT_PERMITTED = 0x03,
    ATT_REQUEST_NOT_SUPPORTED = 0x06,
    ATT_INVALID_ATTRIBUTE_LENGTH = 0x0D
};

/* The handles of the service's values, and of the three descriptors that switch indications and notifications. */
enum {
    HANDLE_FEATURE = 0x12,
    HANDLE_PARAMETERS = 0x14,
    HANDLE_DEVICE_TIME = 0x16,
    HANDLE_LOG = 0x18,
    HANDLE_LOG_CCC = 0x19,
    HANDLE_DTCP = 0x1B,
    HANDLE_DTCP_CCC = 0x1C,
    HANDLE_RACP = 0x1E,
    HANDLE_RACP_CCC = 0x1F
};

/* What a client writes to a descriptor. */
enum { CCC_NOTIFICATIONS = 1, CCC_INDICATIONS = 2 };

enum { ATT_DEFAULT_MTU = 23, ATT_LARGEST_MTU = 247, ATT_HEADER = 3 };

struct pdu {
    uint8_t bytes[ATT_LARGEST_MTU];
    size_t length;
};

/* The reader's memory that outlives power-off; the tablet's program spoils it where a test needs that. */
enum { READER_SLOTS = 4 };
struct kept {
    uint8_t started;
    uint8_t state[DTS_STATE_BYTES];
    uint8_t table[DTS_TABLE_BYTES(READER_SLOTS)];
};
extern struct kept reader_kept;

/* The reader's own events; each answers what the library answered. */
int32_t reader_power_on(uint32_t seconds_since);
int32_t reader_seconds(uint32_t n);
int32_t reader_fault(void);
int32_t reader_disconnect(void);

/* The last refusal since power-on that is no fault of the client's, below 0; 0 if there was none. */
int32_t reader_trouble(void);

/* A unit has come from the tablet. */
void reader_receive(const struct pdu *pdu);

/* The next unit to the tablet; 0 if there is none just now. */
int reader_send(struct pdu *pdu);

#endif
