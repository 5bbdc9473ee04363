/* Sections of each kind, weak, hidden, common, local and undefined symbols. */
extern int outside(int);
__attribute__((weak)) int may_miss(int);
__attribute__((visibility("hidden"))) int quiet = 7;
__attribute__((common)) long shared[4];
static int counts[8] = {1, 2, 3};
static int zeros[100];
const char *const words[] = {"one", "two"};
__attribute__((section(".rodata.more"), aligned(64))) const int more = 9;
__attribute__((weak)) int twice(int x) { return 2 * x; }
static int step(int x) { return x + counts[x & 7] + zeros[x & 63]; }
int sum(int n)
{
    int total = quiet;
    for (int i = 0; i < n; i++)
        total += step(i) + outside(i) + (may_miss ? may_miss(i) : twice(i));
    shared[0] = total;
    return total;
}
__attribute__((constructor)) void first(void) { zeros[0] = 1; }
__attribute__((destructor)) void last(void) { zeros[0] = 2; }
