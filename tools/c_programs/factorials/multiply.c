/* Products of a large number and a small one. */
#include "large.h"

void become(struct large *number, u32 value) {
    for (int k = 1; k < LIMBS; k++)
        ((volatile u32 *)number->limbs)[k] = 0;
    number->limbs[0] = value;
}

void multiply(struct large *number, u32 by) {
    u64 carry = 0;
    for (int k = 0; k < LIMBS; k++) {
        carry += (u64)number->limbs[k] * by;
        number->limbs[k] = (u32)carry;
        carry >>= 32;
    }
}
