#ifndef HEAP_H
#define HEAP_H
#include "host.h"

struct order {
    u64 size;
    int (*compare)(const void *, const void *);
};

extern const struct order rising, falling_bytes;
void sort(void *items, u64 count, const struct order *order);

#endif
