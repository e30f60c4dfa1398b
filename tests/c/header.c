/* The header alone, twice, as C99: it needs nothing before it, and its sizes are those of the papers. */
#include "whiskraven.h"
#include "whiskraven.h"

typedef char smallest_table[DTS_TABLE_BYTES(1) == 80 ? 1 : -1];
typedef char largest_table[DTS_TABLE_BYTES(DTS_MOST_SLOTS) == 65488 ? 1 : -1];
typedef char one_bit_for_each_number[64 * DTS_MAP_WORDS == 65536 ? 1 : -1];
typedef char seconds_of_80_years[DTS_LAST_BASE_TIME - DTS_FIRST_BASE_TIME == 2524607999u ? 1 : -1];

/* The status of a new reader, that after case 1, and case 1's flags. */
typedef char new_reader[(DTS_STATUS_TIME_FAULT | DTS_STATUS_ASKS_UPDATE | DTS_STATUS_EPOCH_2000) == 0x19 ? 1 : -1];
typedef char set_reader[(DTS_STATUS_UTC_ALIGNED | DTS_STATUS_QUALIFIED_LOCAL | DTS_STATUS_EPOCH_2000) == 0x16 ? 1 : -1];
typedef char flags[(DTS_FLAG_UTC_ALIGNED | DTS_FLAG_QUALIFIED_LOCAL | DTS_FLAG_EPOCH_2000) == 0x43 ? 1 : -1];

/* Arrays and const buffers go in without a cast. */
int32_t header_compiles(uint8_t state[DTS_STATE_BYTES], const uint8_t table[DTS_TABLE_BYTES(1)]);

int32_t header_compiles(uint8_t state[DTS_STATE_BYTES], const uint8_t table[DTS_TABLE_BYTES(1)])
{
    uint8_t out[DTS_OUT_BYTES];
    uint32_t fields[DTS_FIELDS];
    return dts_device_time(state, DTS_STATE_BYTES, table, DTS_TABLE_BYTES(1), out, sizeof out)
        + dts_read(table, DTS_TIME_UPDATE_BYTES, fields);
}
