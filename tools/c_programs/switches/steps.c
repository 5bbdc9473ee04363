/* Cases with work of their own, and labels whose addresses are taken. */
int stepped(int kind, int number) {
    switch (kind) {
    case 0: return number + 1;
    case 1: return number * 2;
    case 2: return number - 3;
    case 3: return number ^ 5;
    case 4: return number / 2;
    case 5: return number % 7;
    case 6: return -number;
    case 7: return number << 2;
    default: return stepped(kind % 8, number + kind);
    }
}

int threaded(const unsigned char *code, int number) {
    static const void *const labels[] = {&&end, &&more, &&less, &&twice};
    goto *labels[*code++];
more:
    number += 10;
    goto *labels[*code++];
less:
    number -= 4;
    goto *labels[*code++];
twice:
    number *= 2;
    goto *labels[*code++];
end:
    return number;
}
