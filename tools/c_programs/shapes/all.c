/* Shapes, and a table of them, all of addresses. */
#include "shapes.h"

static struct shape first = {&rectangle, 6, 7}, second = {&square, 5, 0};
struct shape third = {&triangle, 8, 9};
const struct shape *const all[] = {&first, &second, &third, &first, 0};
