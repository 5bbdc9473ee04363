/* Local symbols of the same names in three files, each of which is reached from outside by its address. */
#include "host.h"

static int count = 1;
static int step(void) { return ++count; }
int first(void);
int second(void);
int *first_count(void);
int *second_count(void);

int main(void) {
    int all = first() + second() + step();
    *first_count() = 4;
    *second_count() += 5;
    all += first() + second() + step();
    put_number((u64)all);
    put(" ");
    put_number((u64)count);
    put("\n");
    return all % 251;
}
