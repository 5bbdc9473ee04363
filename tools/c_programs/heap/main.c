/* Numbers and letters, sorted by orders that are constants of another file. */
#include "heap.h"

static long numbers[] = {31, 4, 15, 92, 65, 35, 89, 79, 3, 23, 84};
static char letters[] = "heapsort";

int main(void) {
    sort(numbers, sizeof numbers / sizeof *numbers, &rising);
    sort(letters, sizeof letters - 1, &falling_bytes);
    for (u64 k = 0; k < sizeof numbers / sizeof *numbers; k++) {
        put_number((u64)numbers[k]);
        put(" ");
    }
    put(letters);
    put("\n");
    return (int)numbers[5];
}
