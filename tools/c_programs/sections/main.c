/* Sections by name, hidden and protected symbols, and a second name of a function and of a variable. */
#include "host.h"

int shown(int number);
int renamed(int number);
extern int other_name;
extern int kept_apart;
int hidden(int number) __attribute__((visibility("hidden")));

__attribute__((section(".text.fast"))) static int fast(int number) { return 2 * number; }
__attribute__((section(".data.own"))) int own = 4;
static const int constant[] __attribute__((section(".rodata.own"))) = {10, 20, 30};

int main(void) {
    other_name += own;
    put_number((u64)shown(other_name));
    put(" ");
    put_number((u64)renamed(kept_apart));
    put(" ");
    put_number((u64)hidden(constant[fast(1)]));
    put("\n");
    return shown(0) + renamed(0) + hidden(0);
}
