/* The east of the ring. */
long south(long steps);
static long count = 3;
static void note(void) { count += 3; }

long east(long steps) {
    note();
    return steps ? south(steps - 1) + count : count;
}
