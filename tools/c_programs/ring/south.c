/* The south of the ring. */
long west(long steps);
static long count = 5;
static void note(void) { count += 5; }

long south(long steps) {
    note();
    return steps ? west(steps - 1) + count : count;
}
