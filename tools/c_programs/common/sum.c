/* Reads them. */
int hits;
long table[16];
int defined = 77;

int sum(void) {
    long all = 0;
    hits += 10;
    for (int k = 0; k < 16; k++)
        all += table[k];
    return (int)all;
}
