/* One file of a program of two: a number is even where it is 0, or the one before it is odd. Says whether 7 is even,
   and returns how many calls that took. */
#include "../host.h"

extern int calls;
int is_odd(u64 number);

int is_even(u64 number) {
    calls++;
    return number == 0 || is_odd(number - 1);
}

int main(void) {
    put(is_even(7) ? "7 is even\n" : "7 is odd\n");
    return calls;
}
