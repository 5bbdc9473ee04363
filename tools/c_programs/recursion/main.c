/* Functions of three files that call each other and themselves, and a count of all calls. */
#include "host.h"

unsigned calls;
unsigned female(unsigned n);
unsigned male(unsigned n);
unsigned ackermann(unsigned m, unsigned n);
unsigned peter(unsigned m, unsigned n);

int main(void) {
    for (unsigned k = 0; k < 16; k++) {
        put_number(female(k));
        put(male(k) == female(k) ? "= " : " ");
    }
    put_number(ackermann(2, 9) + peter(3, 3));
    put("\n");
    return (int)(calls % 199);
}
