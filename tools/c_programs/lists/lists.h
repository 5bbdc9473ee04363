#ifndef LISTS_H
#define LISTS_H

struct node {
    int value;
    struct node *next;
};

struct node *made(int value, struct node *next);
struct node *reversed(struct node *list);
struct node *merged(struct node *a, struct node *b);
int sum(const struct node *list);
extern int nodes_used;

#endif
