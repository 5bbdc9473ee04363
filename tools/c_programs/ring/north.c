/* The north of the ring. */
long east(long steps);
static long count = 2;
static void note(void) { count += 2; }

long north(long steps) {
    note();
    return steps ? east(steps - 1) + count : count;
}
