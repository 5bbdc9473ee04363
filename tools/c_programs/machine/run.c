/* The machine: one step of the loop for each number of the code. */
#include "machine.h"

static long stack[16];

long run(const signed char *at, long limit) {
    long *top = stack;
    while (limit-- > 0) {
        long held;
        switch (*at++) {
        case HALT: return top > stack ? top[-1] : 0;
        case PUSH: *top++ = *at++; break;
        case ADD: top--; top[-1] += *top; break;
        case SUB: top--; top[-1] -= *top; break;
        case MUL: top--; top[-1] *= *top; break;
        case DUP: *top = top[-1]; top++; break;
        case SWAP: held = top[-1]; top[-1] = top[-2]; top[-2] = held; break;
        case DROP: top--; break;
        case JUMP_IF: at += *--top ? *at : 1; break;
        case PRINT: print(top[-1]); break;
        case OVER: *top = top[-2]; top++; break;
        case LESS: top--; top[-1] = top[-1] < *top; break;
        default: return -1;
        }
    }
    return -2;
}
