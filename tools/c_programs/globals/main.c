/* Variables that other files have, read, written and pointed to. */
#include "host.h"

extern long total;
extern const char *const greeting;
extern int grid[3][4];
extern struct pair {
    u64 first;
    int *second;
} pair;
void add(long amount);
long mean(void);

int first_of_all = 3;
int *first_place = &first_of_all;

int main(void) {
    for (int k = 0; k < 10; k++)
        add(k * k);
    put(greeting);
    put_number((u64)total);
    put(" ");
    put_number((u64)mean());
    put(" ");
    grid[2][3] = 7;
    *pair.second += 5;
    put_number((u64)(grid[2][3] + grid[1][1] + first_of_all));
    put("\n");
    return (int)(total % 100) + (int)pair.first;
}
