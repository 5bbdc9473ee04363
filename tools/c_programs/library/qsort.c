/* qsort, by insertion: few items are sorted here. */
typedef unsigned long u64;

static void swap(char *one, char *other, u64 size) {
    for (u64 k = 0; k < size; k++) {
        char kept = one[k];
        one[k] = other[k];
        other[k] = kept;
    }
}

void qsort(void *items, u64 count, u64 size, int (*order)(const void *, const void *)) {
    char *first = items;
    for (u64 k = 1; k < count; k++)
        for (u64 j = k; j > 0 && order(first + (j - 1) * size, first + j * size) > 0; j--)
            swap(first + (j - 1) * size, first + j * size, size);
}
