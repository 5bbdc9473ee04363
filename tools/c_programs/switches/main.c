/* Tables that compilers make of cases, and one of labels. */
#include "host.h"

const char *day(int number);
int stepped(int kind, int number);
int threaded(const unsigned char *code, int number);

int main(void) {
    static const unsigned char code[] = {1, 3, 2, 3, 1, 0};
    int number = 9;
    for (int k = 0; k < 20; k++)
        number = stepped(k, number);
    for (int k = -1; k < 8; k++) {
        put(day(k));
        put(" ");
    }
    put_number((u64)(unsigned)threaded(code, 3));
    put("\n");
    return number & 127;
}
