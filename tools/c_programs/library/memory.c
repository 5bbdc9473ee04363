/* memcpy and memset; what keeps a compiler from making calls of themselves out of their loops changes nothing. */
typedef unsigned long u64;

void *memcpy(void *to, const void *from, u64 count) {
    for (u64 k = 0; k < count; k++) {
        ((char *)to)[k] = ((const char *)from)[k];
        __asm__ volatile("" ::: "memory");
    }
    return to;
}

void *memset(void *to, int byte, u64 count) {
    for (u64 k = 0; k < count; k++) {
        ((char *)to)[k] = (char)byte;
        __asm__ volatile("" ::: "memory");
    }
    return to;
}
