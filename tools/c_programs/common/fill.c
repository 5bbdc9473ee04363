/* Writes them. */
int hits;
long table[16];
char name[8];

void fill(void) {
    hits++;
    for (int k = 0; k < 16; k++)
        table[k] = k;
    name[0] = 'c';
    name[1] = 'o';
}
