/* A small printf over the call that writes: %d %u %x %c %s %%, with a width and a leading zero. */
#include "host.h"
#include <stdarg.h>

static char line[256];
static u64 used;

static void flush(void) {
    host_write(line, used);
    used = 0;
}

static void put_char(char c) {
    if (used == sizeof line)
        flush();
    line[used++] = c;
}

static void put_padded(const char *text, int count, int width, char pad) {
    for (; width > count; width--)
        put_char(pad);
    for (int k = 0; k < count; k++)
        put_char(text[k]);
}

static int length(const char *text) {
    int count = 0;
    while (text[count])
        count++;
    return count;
}

static void put_digits(u64 number, u64 base, int negative, int width, char pad) {
    char digits[24];
    int at = 24;
    do {
        digits[--at] = "0123456789abcdef"[number % base];
        number /= base;
    } while (number);
    if (negative)
        digits[--at] = '-';
    put_padded(digits + at, 24 - at, width, pad);
}

static void print(const char *format, ...) {
    va_list list;
    va_start(list, format);
    for (; *format; format++) {
        if (*format != '%') {
            put_char(*format);
            continue;
        }
        format++;
        char pad = ' ';
        int width = 0;
        if (*format == '0')
            pad = *format++;
        while (*format >= '0' && *format <= '9')
            width = 10 * width + (*format++ - '0');
        switch (*format) {
        case 'd': {
            long number = va_arg(list, long);
            put_digits(number < 0 ? -(u64)number : (u64)number, 10, number < 0, width, pad);
            break;
        }
        case 'u':
            put_digits(va_arg(list, u64), 10, 0, width, pad);
            break;
        case 'x':
            put_digits(va_arg(list, u64), 16, 0, width, pad);
            break;
        case 'c':
            put_char((char)va_arg(list, int));
            break;
        case 's': {
            const char *text = va_arg(list, const char *);
            put_padded(text, length(text), width, pad);
            break;
        }
        default:
            put_char(*format);
        }
    }
    va_end(list);
    flush();
}

static const char *const names[] = {"one", "twelve", "a hundred and two"};

/* Data that no object has in its file, and data that holds addresses. */
static long counts[3];
static long *const places[] = {counts + 2, counts + 1, counts};

int main(void) {
    *places[0] = 102;
    *places[1] = 12;
    *places[2] = 1;
    for (int k = 0; k < 3; k++)
        print("%20s is %5d, %x in hexadecimal\n", names[k], counts[k], counts[k]);
    print("%c%c%c %08x %d %u %%\n", 'o', 'r', 'c', 0xbeefUL, -9223372036854775807L - 1, ~0UL);
    return 42;
}
