/* The variables, some with bytes and some without. */
#include "host.h"

extern int first_of_all;
long total = 1;
const char *const greeting = "sum and mean: ";
int grid[3][4] = {{1, 2}, {3, 4}};
static u64 zeros[6];
struct pair {
    u64 first;
    int *second;
} pair = {sizeof zeros, &first_of_all};
