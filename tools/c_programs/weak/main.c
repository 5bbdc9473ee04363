/* Weak definitions that another file replaces, and some that stay; weak references that nothing defines. */
#include "host.h"

extern int limit;
extern int spare __attribute__((weak));
int scaled(int number);
int shifted(int number);
int absent(int number) __attribute__((weak));
int present(int number) __attribute__((weak));

__attribute__((weak)) int own(int number) { return number + 1; }

int main(void) {
    put_number((u64)scaled(limit));
    put(" ");
    put_number((u64)shifted(limit));
    put(" ");
    put_number((u64)own(limit));
    put(absent ? " absent" : " nowhere");
    put(present ? " present" : " missing");
    put(&spare ? " spare\n" : " none\n");
    return (absent ? absent(limit) : 40) + (present ? present(limit) : 0);
}
