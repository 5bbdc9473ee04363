/* A heap over any items, by a function that compares two of them. */
#include "heap.h"

static void exchange(u8 *a, u8 *b, u64 size) {
    while (size--) {
        u8 held = *a;
        *a++ = *b;
        *b++ = held;
    }
}

static void sink(u8 *items, u64 k, u64 count, const struct order *order) {
    for (;;) {
        u64 below = 2 * k + 1;
        if (below >= count)
            return;
        if (below + 1 < count && order->compare(items + below * order->size, items + (below + 1) * order->size) < 0)
            below++;
        if (order->compare(items + k * order->size, items + below * order->size) >= 0)
            return;
        exchange(items + k * order->size, items + below * order->size, order->size);
        k = below;
    }
}

void sort(void *items, u64 count, const struct order *order) {
    for (u64 k = count / 2; k-- > 0;)
        sink(items, k, count, order);
    for (u64 left = count; left-- > 1;) {
        exchange(items, (u8 *)items + left * order->size, order->size);
        sink(items, 0, left, order);
    }
}
