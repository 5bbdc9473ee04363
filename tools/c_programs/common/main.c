/* Common variables: three files have them, and they are one each; one of them another file defines. */
#include "host.h"

int hits;
long table[16];
char name[8];
int defined;
void fill(void);
int sum(void);

int main(void) {
    hits++;
    fill();
    put(name);
    put(" ");
    put_number((u64)sum());
    put(" ");
    put_number((u64)defined);
    put("\n");
    return hits;
}
