/* What memory alone takes for dependencies at random: for each of N instances, eight reads, each at a place that
   the one before gives, in N rows of WIDTH bytes.

       cc -O2 random_reads.c -o random_reads && ./random_reads N WIDTH

   It prints N and the processor time in milliseconds. Twice as many rows take two to four times as long where they
   grow past a cache, so no layout of a frontier's tables makes random dependencies take at most twice as long. */
#include <stdint.h>
#include <stdio.h>
#include <stdlib.h>
#include <time.h>

static double milliseconds(void) {
    struct timespec now;
    clock_gettime(CLOCK_PROCESS_CPUTIME_ID, &now);
    return now.tv_sec * 1e3 + now.tv_nsec / 1e6;
}

int main(int argc, char **argv) {
    uint32_t count = argc > 1 ? atoi(argv[1]) : 0, width = argc > 2 ? atoi(argv[2]) : 0;
    if (count == 0 || width < 4)
        return 2;
    char *rows = calloc(count, width);
    if (!rows)
        return 1;
    for (uint32_t i = 0; i < count; i++)
        *(uint32_t *)(rows + (uint64_t)i * width) = i * 2654435761u % count;
    uint64_t seed = 1, sum = 0;
    double begun = milliseconds();
    for (uint32_t i = 0; i < count; i++) {
        uint32_t at = i;
        for (int k = 0; k < 8; k++) {
            seed = seed * 6364136223846793005u + 1442695040888963407u;
            at = (*(uint32_t *)(rows + (uint64_t)at * width) + (uint32_t)(seed >> 40)) % count;
        }
        sum += at;
    }
    double spent = milliseconds() - begun;
    printf("%u %.2f\n", count, spent);
    return sum == 1;
}
