/* Sorts numbers by each of a table of orders, which are called through pointers, and writes what
   stands at some places. */
#include "host.h"

#define COUNT 20000

typedef int (*order)(u32, u32);

static int rises(u32 a, u32 b) {
    return a < b;
}

static int falls(u32 a, u32 b) {
    return a > b;
}

static int rises_by_low_byte(u32 a, u32 b) {
    return (a & 255) != (b & 255) ? (a & 255) < (b & 255) : a < b;
}

struct named_order {
    const char *name;
    order before;
};

static const struct named_order orders[] = {
    {"rising", rises},
    {"falling", falls},
    {"rising by the low byte", rises_by_low_byte},
};

static u32 numbers[COUNT];

static void fill(u32 seed) {
    for (int k = 0; k < COUNT; k++) {
        seed = seed * 1664525 + 1013904223;
        numbers[k] = seed;
    }
}

static void sort(u32 *first, u32 *last, order before) {
    while (first < last) {
        u32 pivot = first[(last - first) / 2];
        u32 *low = first;
        u32 *high = last;
        while (low <= high) {
            while (before(*low, pivot))
                low++;
            while (before(pivot, *high))
                high--;
            if (low > high)
                break;
            u32 kept = *low;
            *low++ = *high;
            *high-- = kept;
        }
        if (high - first < last - low) {
            sort(first, high, before);
            first = low;
        } else {
            sort(low, last, before);
            last = high;
        }
    }
}

static int is_sorted(order before) {
    for (int k = 1; k < COUNT; k++)
        if (before(numbers[k], numbers[k - 1]))
            return 0;
    return 1;
}

int main(void) {
    int sorted = 0;
    for (u64 k = 0; k < sizeof orders / sizeof orders[0]; k++) {
        fill((u32)k + 1);
        sort(numbers, numbers + COUNT - 1, orders[k].before);
        sorted += is_sorted(orders[k].before);
        put(orders[k].name);
        for (int at = 0; at < COUNT; at += 4999) {
            put(" ");
            put_number(numbers[at]);
        }
        put("\n");
    }
    return sorted;
}
