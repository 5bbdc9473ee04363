/* Quotients, and the digits that they give. */
#include "large.h"

u32 divide(struct large *number, u32 by) {
    u64 rest = 0;
    for (int k = LIMBS - 1; k >= 0; k--) {
        rest = rest << 32 | number->limbs[k];
        number->limbs[k] = (u32)(rest / by);
        rest %= by;
    }
    return (u32)rest;
}

int is_zero(const struct large *number) {
    u32 all = 0;
    for (int k = 0; k < LIMBS; k++)
        all |= number->limbs[k];
    return all == 0;
}

void put_large(struct large *number) {
    static char digits[128];
    int at = 127;
    do
        digits[--at] = (char)('0' + divide(number, 10));
    while (!is_zero(number));
    put(digits + at);
}
