/* The two calls to the host that a program may make, by the Linux convention: the number in a7, the
   arguments from a0 on, the result in a0. */
#ifndef HOST_H
#define HOST_H

typedef unsigned char u8;
typedef unsigned int u32;
typedef unsigned long u64;

static inline long host_write(const void *bytes, u64 count) {
    register long a0 __asm__("a0") = 1;
    register const void *a1 __asm__("a1") = bytes;
    register u64 a2 __asm__("a2") = count;
    register long a7 __asm__("a7") = 64;
    __asm__ volatile("ecall" : "+r"(a0) : "r"(a1), "r"(a2), "r"(a7) : "memory");
    return a0;
}

static inline void put(const char *text) {
    u64 count = 0;
    while (text[count])
        count++;
    host_write(text, count);
}

static inline void put_number(u64 number) {
    char digits[20];
    int at = 20;
    do {
        digits[--at] = (char)('0' + number % 10);
        number /= 10;
    } while (number);
    host_write(digits + at, (u64)(20 - at));
}

#endif
