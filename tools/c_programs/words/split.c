/* The words of a text. */
#include "words.h"

u64 split(const char *text, struct word *words, u64 limit) {
    u64 count = 0;
    while (*text && count < limit) {
        while (*text && !is_letter(*text))
            text++;
        const char *from = text;
        while (is_letter(*text))
            text++;
        if (text > from) {
            words[count].at = from;
            words[count].length = (u64)(text - from);
            count++;
        }
    }
    return count;
}
