/* A checksum (CRC-32) of a text in another file, by a table in a third: 414fa339, in decimal digits. */
#include "host.h"

extern const char text[];
extern const u64 text_length;
u32 checksum(const u8 *bytes, u64 count);

int main(void) {
    u32 whole = checksum((const u8 *)text, text_length);
    put_number(whole);
    put("\n");
    return (int)(checksum((const u8 *)text, 3) % 100);
}
