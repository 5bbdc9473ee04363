/* The other file: a number is odd where it isn't 0, and the one before it is even. */
#include "../host.h"

int calls;
int is_even(u64 number);

int is_odd(u64 number) {
    calls++;
    return number != 0 && is_even(number - 1);
}
