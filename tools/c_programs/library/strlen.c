/* strlen. */
typedef unsigned long u64;

u64 strlen(const char *text) {
    u64 count = 0;
    while (text[count]) {
        count++;
        __asm__ volatile("" ::: "memory");
    }
    return count;
}
