#ifndef SHAPES_H
#define SHAPES_H
#include "host.h"

struct shape;
struct kind {
    const char *name;
    long (*area)(const struct shape *);
    const struct kind *like;
};
struct shape {
    const struct kind *kind;
    long a, b;
};

extern const struct kind rectangle, square, triangle;
extern const struct shape *const all[];

#endif
