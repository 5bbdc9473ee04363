/* Lists that are put together, and turned round. */
#include "lists.h"

struct node *reversed(struct node *list) {
    struct node *before = 0;
    while (list) {
        struct node *next = list->next;
        list->next = before;
        before = list;
        list = next;
    }
    return before;
}

struct node *merged(struct node *a, struct node *b) {
    if (!a || !b)
        return a ? a : b;
    if (a->value > b->value)
        return merged(b, a);
    a->next = merged(a->next, b);
    return a;
}

int sum(const struct node *list) {
    return list ? list->value + sum(list->next) : 0;
}
