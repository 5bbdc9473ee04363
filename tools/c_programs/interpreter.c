/* A machine with a stack, whose program computes Fibonacci numbers by calling itself. */
#include "host.h"

enum op { PUSH, ADD, SUBTRACT, LESS, LOAD, JUMP_IF_NOT, CALL, RETURN, PRINT, STOP };

struct step {
    enum op op;
    long operand;
};

/* At 6 stands f: where its argument is less than 2 that, else f(n - 1) + f(n - 2). LOAD k pushes the
   word that is k below the frame's return place. */
static const struct step program[] = {
    {PUSH, 20}, {CALL, 6}, {PRINT, 0}, {PUSH, 15}, {CALL, 6}, {STOP, 0},
    {LOAD, 0}, {PUSH, 2}, {LESS, 0}, {JUMP_IF_NOT, 12}, {LOAD, 0}, {RETURN, 0},
    {LOAD, 0}, {PUSH, 1}, {SUBTRACT, 0}, {CALL, 6},
    {LOAD, 0}, {PUSH, 2}, {SUBTRACT, 0}, {CALL, 6},
    {ADD, 0}, {RETURN, 0},
};

static long stack[256];
static long frames[128];

static long run(void) {
    u64 at = 0;
    u64 top = 0;
    u64 depth = 0;
    for (;;) {
        const struct step step = program[at++];
        switch (step.op) {
        case PUSH:
            stack[top++] = step.operand;
            break;
        case ADD:
            top--;
            stack[top - 1] += stack[top];
            break;
        case SUBTRACT:
            top--;
            stack[top - 1] -= stack[top];
            break;
        case LESS:
            top--;
            stack[top - 1] = stack[top - 1] < stack[top];
            break;
        case LOAD:
            stack[top++] = stack[frames[depth - 1] - step.operand];
            break;
        case JUMP_IF_NOT:
            if (!stack[--top])
                at = (u64)step.operand;
            break;
        case CALL:
            frames[depth++] = (long)at;
            frames[depth++] = (long)top - 1;
            at = (u64)step.operand;
            break;
        case RETURN: {
            long result = stack[--top];
            top = (u64)frames[--depth];
            at = (u64)frames[--depth];
            stack[top++] = result;
            break;
        }
        case PRINT:
            put_number((u64)stack[--top]);
            put("\n");
            break;
        case STOP:
            return stack[top - 1];
        }
    }
}

int main(void) {
    long last = run();
    put_number((u64)last);
    put("\n");
    return (int)(last % 256);
}
