/* A machine with a stack, whose code and whose output are in other files. */
#include "host.h"
#include "machine.h"

void print(long number) {
    put_number((u64)number);
    put(" ");
}

int main(void) {
    long last = run(code, 300);
    put("\n");
    return (int)(last % 101);
}
