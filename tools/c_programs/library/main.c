/* Calls the members of a small library, each of them an object of its own. Compilers may call some by themselves. */
#include "host.h"

void *memcpy(void *to, const void *from, u64 count);
void *memset(void *to, int byte, u64 count);
u64 strlen(const char *text);
void qsort(void *items, u64 count, u64 size, int (*order)(const void *, const void *));

struct record {
    char name[24];
    long keys[9];
};

static int by_key(const void *one, const void *other) {
    const struct record *a = one, *b = other;
    return (a->keys[0] > b->keys[0]) - (a->keys[0] < b->keys[0]);
}

static struct record records[5];

int main(void) {
    static const char *const names[] = {"delta", "alpha", "echo", "charlie", "bravo"};
    static const long keys[] = {4, 1, 5, 3, 2};
    struct record made;
    for (int k = 0; k < 5; k++) {
        memset(&made, 0, sizeof made);
        memcpy(made.name, names[k], strlen(names[k]));
        made.keys[0] = keys[k];
        made.keys[8] = 10 * keys[k];
        records[k] = made;
    }
    qsort(records, 5, sizeof records[0], by_key);
    long last = 0;
    for (int k = 0; k < 5; k++) {
        put(records[k].name);
        put(k < 4 ? " " : "\n");
        last = 3 * last + records[k].keys[8];
    }
    return (int)(last % 251);
}
