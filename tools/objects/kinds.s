# Absolute, common, weak and hidden symbols, zeros, notes and arrays.
.globl limit
.set limit, 0x1234
.comm pool, 64, 16
.weak maybe
.hidden within
.text
.globl main
main: tail maybe
.L1: auipc a0, %pcrel_hi(within)
addi a0, a0, %pcrel_lo(.L1)
ret
.data
within: .dword main + 8, limit
.globl within
.section .bss
.zero 100
.section .init_array, "aw", @init_array
.dword main
.section .note.one, "a", @note
.word 4, 0, 1
.ascii "one\0"
.section .comment.mine
.ascii "passed over"
