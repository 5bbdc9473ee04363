/* Strings and bytes that the library searches, joins and moves. */
#include "host.h"
#include <string.h>

int main(void) {
    char line[64];
    memset(line, '-', sizeof line);
    strcpy(line, "one two");
    strcat(line, " three");
    memmove(line + 2, line, strlen(line) + 1);
    put(line);
    put("\n");
    put(strstr(line, "two"));
    put("\n");
    put(strrchr(line, 't'));
    put("\n");
    int order = strcmp("abc", "abd") < 0 && memcmp("b", "a", 1) > 0 && strncmp("same", "sane", 2) == 0;
    return (int)strlen(line) + 16 * order + (int)strspn(line, "oen") + (int)strcspn(line, "w") + (memchr(line, 'w', 30) != 0);
}
