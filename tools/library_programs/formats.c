/* Numbers that the library formats, and an array that it sorts. */
#include "host.h"
#include <stdio.h>
#include <stdlib.h>
#include <string.h>

static int by_value(const void *a, const void *b) {
    int x = *(const int *)a, y = *(const int *)b;
    return (x > y) - (x < y);
}

int main(void) {
    int values[] = {5, -3, 12, 0, 7, -3, 100, -71};
    const int count = sizeof values / sizeof *values;
    char text[200], copy[200];
    int length = 0;
    qsort(values, count, sizeof *values, by_value);
    for (int k = 0; k < count; k++)
        length += snprintf(text + length, sizeof text - length, "%d%c", values[k], k < count - 1 ? ' ' : '\n');
    length += snprintf(text + length, sizeof text - length, "%08lx|%-6s|%6u|%+d|%c\n", 0xC0FFEEul, "ab", 1234u, 42, 'z');
    memcpy(copy, text, length + 1);
    put(copy);
    int *found = bsearch(&values[5], values, count, sizeof *values, by_value);
    return (int)strlen(copy) + (int)(found - values);
}
