/* Objects with tables of functions, and data that points across files. */
#include "shapes.h"

int main(void) {
    long whole = 0;
    for (const struct shape *const *at = all; *at; at++) {
        const struct kind *kind = (*at)->kind;
        long area = kind->area(*at);
        put(kind->name);
        put(kind->like ? " like " : " alone");
        put(kind->like ? kind->like->name : "");
        put(" ");
        put_number((u64)area);
        put("\n");
        whole += area;
    }
    return (int)whole;
}
