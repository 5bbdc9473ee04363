/* Data that holds addresses, and differences of addresses; a switch by a table. */
#include "host.h"

extern const char *const words[];
extern char *const ends[2];
long run(const u8 *code);
int kind_of(int letter);

static const u8 code[] = {0, 1, 1, 2, 0, 3, 1, 4};
static const u8 *const places[] = {code + 2, code, code + 5};

int main(void) {
    for (int k = 0; words[k]; k++)
        put(words[k]);
    put_number((u64)(ends[1] - ends[0]));
    put(" ");
    put_number((u64)run(places[1]));
    put(" ");
    put_number((u64)run(places[0]));
    put(" ");
    int kinds = 0;
    for (int letter = 'a'; letter <= 'j'; letter++)
        kinds = kinds * 3 + kind_of(letter);
    put_number((u64)kinds);
    put("\n");
    return (int)(places[2] - places[1]);
}
