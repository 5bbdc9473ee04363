# What calls main where there is a real host: a static link of this and one program.
.text
.globl _start
_start:
    call main
    li a7, 93
    ecall
