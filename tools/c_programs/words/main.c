/* The words of a text, backwards, each with a capital. */
#include "words.h"

static const char text[] = "a linker, in memory: no file is written, and 64 bits suffice";

int main(void) {
    static struct word found[16];
    u64 count = split(text, found, 16), longest = 0;
    for (u64 k = count; k-- > 0;) {
        add(found[k].at, found[k].length);
        if (found[k].length > longest)
            longest = found[k].length;
    }
    end_line();
    return (int)(10 * count + longest);
}
