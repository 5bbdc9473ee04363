/* A line that grows. */
#include "words.h"

char line[256];
static u64 used;

void add(const char *at, u64 length) {
    for (u64 k = 0; k < length && used < sizeof line - 2; k++)
        line[used++] = k ? at[k] : upper(at[k]);
    line[used++] = ' ';
}

void end_line(void) {
    line[used ? used - 1 : 0] = '\n';
    host_write(line, used);
    used = 0;
}
