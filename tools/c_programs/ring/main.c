/* Four files that call each other in a ring. Each has local symbols of the same names. */
#include "host.h"

long north(long steps);
static long count;
static void note(void) { count++; }

long west(long steps) {
    note();
    return steps ? north(steps - 1) + count : 100;
}

int main(void) {
    long all = north(13);
    put_number((u64)all);
    put("\n");
    return (int)(all % 256);
}
