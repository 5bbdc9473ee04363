/* The same names, with other values. */
static int count = 3;
static int step(void) {
    static int calls = 100;
    calls += count;
    return calls;
}

int second(void) { return step() - count; }
int *second_count(void) { return &count; }
