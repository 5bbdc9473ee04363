/* Two orders, each with a function of this file. */
#include "heap.h"

static int compare_longs(const void *a, const void *b) {
    long x = *(const long *)a, y = *(const long *)b;
    return (x > y) - (x < y);
}

static int compare_bytes(const void *a, const void *b) {
    return *(const u8 *)b - *(const u8 *)a;
}

const struct order rising = {sizeof(long), compare_longs};
const struct order falling_bytes = {1, compare_bytes};
