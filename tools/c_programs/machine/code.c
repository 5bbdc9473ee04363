/* The numbers of Fibonacci below 1000, for a machine with a stack. */
#include "machine.h"

const signed char code[] = {
    PUSH, 0, PUSH, 1,
    OVER, PRINT, DROP, SWAP, OVER, ADD,
    DUP, PUSH, 100, PUSH, 10, MUL, LESS, JUMP_IF, -14,
    HALT,
};
