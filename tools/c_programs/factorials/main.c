/* 50!, whose digits are made by files that share one type. */
#include "large.h"

int main(void) {
    struct large product;
    become(&product, 1);
    for (u32 k = 2; k <= 50; k++)
        multiply(&product, k);
    u32 rest = 0;
    put_large(&product);
    put("\n");
    become(&product, 1);
    for (u32 k = 2; k <= 30; k++)
        multiply(&product, k);
    rest = divide(&product, 1009);
    return (int)(rest % 250);
}
