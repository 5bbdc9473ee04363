/* Branches, calls, a jump table and string literals. */
int puts(const char *);
static const char *name(int k)
{
    switch (k) {
    case 0: return "zero";
    case 1: return "one";
    case 2: return "two";
    case 3: return "three";
    case 4: return "four";
    case 5: return "five";
    default: return "many";
    }
}
int show(int n)
{
    for (int i = 0; i < n; i++)
        if (puts(name(i)) < 0)
            return i;
    return n;
}
unsigned long gcd(unsigned long a, unsigned long b) { return b ? gcd(b, a % b) : a; }
