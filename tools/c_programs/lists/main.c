/* Two lists of nodes from a pool in another file, put together in order. */
#include "host.h"
#include "lists.h"

int main(void) {
    struct node *odd = 0, *square = 0;
    for (int k = 6; k >= 0; k--) {
        odd = made(2 * k + 1, odd);
        square = made(k * k, square);
    }
    struct node *all = merged(odd, square);
    for (const struct node *node = all; node; node = node->next) {
        put_number((u64)node->value);
        put(node->next ? " " : "\n");
    }
    all = reversed(all);
    put_number((u64)all->value);
    put("\n");
    return sum(all) - nodes_used;
}
