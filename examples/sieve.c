/* Counts the primes below 1,000,000, and returns how many have the last digit 7, modulo 256. */
#include "host.h"

#define LIMIT 1000000

static u8 is_composite[LIMIT];

static void strike_multiples(u64 prime) {
    for (u64 k = prime * prime; k < LIMIT; k += prime)
        is_composite[k] = 1;
}

int main(void) {
    u64 primes = 0;
    u64 sevens = 0;
    for (u64 k = 2; k < LIMIT; k++) {
        if (is_composite[k])
            continue;
        strike_multiples(k);
        primes++;
        if (k % 10 == 7)
            sevens++;
    }
    put_number(primes);
    put(" primes, ");
    put_number(sevens);
    put(" end in 7\n");
    return (int)(sevens % 256);
}
