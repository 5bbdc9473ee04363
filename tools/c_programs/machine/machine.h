#ifndef MACHINE_H
#define MACHINE_H

enum { HALT, PUSH, ADD, SUB, MUL, DUP, SWAP, DROP, JUMP_IF, PRINT, OVER, LESS };

extern const signed char code[];
long run(const signed char *at, long limit);
void print(long number);

#endif
