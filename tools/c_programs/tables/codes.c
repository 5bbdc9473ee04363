/* A little machine whose rows are found by the differences of their addresses. */
#include "host.h"

long run(const u8 *code) {
    static const int rows[] = {&&add - &&add, &&twice - &&add, &&less - &&add, &&square - &&add, &&end - &&add};
    long number = 1;
    goto *(&&add + rows[*code]);
add:
    number += 2;
    goto *(&&add + rows[*++code]);
twice:
    number *= 2;
    goto *(&&add + rows[*++code]);
less:
    number -= 1;
    goto *(&&add + rows[*++code]);
square:
    number *= number;
    goto *(&&add + rows[*++code]);
end:
    return number;
}
