/* The one half of two sequences (Hofstadter's). */
extern unsigned calls;
unsigned male(unsigned n);

unsigned female(unsigned n) {
    calls++;
    return n ? n - male(female(n - 1)) : 1;
}
