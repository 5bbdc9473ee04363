/* The other half. */
extern unsigned calls;
unsigned female(unsigned n);

unsigned male(unsigned n) {
    calls++;
    return n ? n - female(male(n - 1)) : 0;
}
