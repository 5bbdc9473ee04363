/* The table of a checksum, filled at the first use, and the sum. */
#include "host.h"

static u32 table[256];
static int filled;

static u32 entry(u32 byte) {
    for (int bit = 0; bit < 8; bit++)
        byte = byte & 1 ? byte >> 1 ^ 0xEDB88320u : byte >> 1;
    return byte;
}

static void fill(void) {
    for (u32 k = 0; k < 256; k++)
        table[k] = entry(k);
    filled = 1;
}

u32 checksum(const u8 *bytes, u64 count) {
    u32 sum = ~0u;
    if (!filled)
        fill();
    for (u64 k = 0; k < count; k++)
        sum = table[(sum ^ bytes[k]) & 255] ^ sum >> 8;
    return ~sum;
}
