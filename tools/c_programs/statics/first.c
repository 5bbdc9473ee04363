/* Names that each file has for itself. */
static int count = 10;
static int step(void) {
    static int calls;
    calls += count;
    return calls;
}

int first(void) { return step() + step(); }
int *first_count(void) { return &count; }
