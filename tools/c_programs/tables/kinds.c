/* A switch that compilers make a table of. */
int seen;

int kind_of(int letter) {
    switch (letter) {
    case 'a':
        return 1;
    case 'b':
        seen++;
        return 2;
    case 'c':
        return seen;
    case 'd':
        seen += 2;
        return 0;
    case 'e':
        return 1 + seen;
    case 'f':
        seen = 0;
        return 2;
    case 'g':
        return 1 - seen;
    default:
        return seen ? 1 : 0;
    }
}
