.globl main
main: tail f
.globl g
g: addi a0, zero, 7
ret
