/* What changes them, and one that no other file sees. */
extern long total;
static long count;

void add(long amount) {
    total += amount;
    count++;
}

long mean(void) { return count ? total / count : 0; }
