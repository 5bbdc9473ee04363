.text
.globl main
main: addi a0, zero, 1
.L1: auipc a1, %pcrel_hi(msg)
addi a1, a1, %pcrel_lo(.L1)
addi a2, zero, 6
addi a7, zero, 64
ecall
addi a0, zero, 0
addi a7, zero, 93
ecall
.section .rodata
msg: .ascii "hello\n"
