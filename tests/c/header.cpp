// The header alone, twice, as C++17: C names, the same sizes.
#include "whiskraven.h"
#include "whiskraven.h"

static_assert(DTS_TABLE_BYTES(DTS_MOST_SLOTS) == 65488, "the largest table");

extern "C" {
using carry = int32_t (*)(uint32_t, uint16_t, const uint8_t *, size_t, int64_t *);
}
extern const carry carries;
const carry carries = dts_carry;
