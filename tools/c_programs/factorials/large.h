#ifndef LARGE_H
#define LARGE_H
#include "host.h"

enum { LIMBS = 12 };
struct large {
    u32 limbs[LIMBS];
};

void become(struct large *number, u32 value);
void multiply(struct large *number, u32 by);
u32 divide(struct large *number, u32 by);
int is_zero(const struct large *number);
void put_large(struct large *number);

#endif
