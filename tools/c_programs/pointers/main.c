/* Functions by their addresses: a table of another file's, one that is handed in, and one that comes back. */
#include "host.h"

typedef long (*step)(long);
struct command {
    const char *name;
    step run;
};
extern const struct command commands[];
extern const int command_count;
long apply(step one, step other, long number);
step chosen(int which);

static long own(long number) { return number - 1; }

int main(void) {
    long number = 3;
    for (int k = 0; k < command_count; k++) {
        put(commands[k].name);
        number = commands[k].run(number);
    }
    put("= ");
    put_number((u64)number);
    number = apply(own, chosen(1), number);
    put(" ");
    put_number((u64)number);
    put(chosen(0) == commands[0].run ? " same\n" : " other\n");
    return (int)(number & 255);
}
