#!/usr/bin/env python3
"""Writes a source of so many lines of assembly, with labels, branches, data and relocations.

    tools/large_source.py FILE LINES
"""
import sys

from tool_words import arguments, integer

FUNCTION = """.globl f{n}
f{n}: addi sp, sp, -16
sd ra, 8(sp)
auipc a0, %pcrel_hi(table)
beq a0, zero, .L{n}
lw a1, 4(a0)
add a0, a0, a1
.L{n}: ld ra, 8(sp)
jal zero, .L{n}
jalr zero, 0(ra)
"""
DATA = ".data\n.dword f{n}\n.text\n"


def main():
    path, lines = arguments(__doc__, 2, 2)
    lines = integer(lines)
    with open(path, "w", encoding="utf-8") as file:
        written = n = 0
        while written + 13 <= lines:
            text = FUNCTION + (DATA if n % 8 == 0 else "")
            file.write(text.format(n=n))
            written += text.count("\n")
            n += 1
        file.write("nop\n" * (lines - written))


if __name__ == "__main__":
    main()
