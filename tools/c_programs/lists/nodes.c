/* The nodes of all lists. */
#include "lists.h"

static struct node pool[64];
int nodes_used = 0;

struct node *made(int value, struct node *next) {
    struct node *node = &pool[nodes_used++];
    node->value = value;
    node->next = next;
    return node;
}
