/* A function that calls itself deeply, and one that is a copy of it under another name. */
extern unsigned calls;

unsigned ackermann(unsigned m, unsigned n) {
    calls++;
    if (!m)
        return n + 1;
    return ackermann(m - 1, n ? ackermann(m, n - 1) : 1);
}

unsigned peter(unsigned m, unsigned n) __attribute__((alias("ackermann")));
