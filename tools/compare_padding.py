#!/usr/bin/env python3
"""Makes random assembler programs whose padding is left to the linker, runs each object with orc, and
compares the exit status with qemu-riscv64 on the same object, linked by GNU ld.

    tools/compare_padding.py ORC [COUNT [SEED]] [--keep FOLDER]

A program adds up whether its aligned places are aligned, distances between labels, and what loops and
calls across padding give. Names the programs that end otherwise; ends with 1 where there are any."""
import pathlib
import random
import subprocess
import sys
import tempfile

from tool_words import Parser, built, installed

TOP = pathlib.Path(__file__).resolve().parent.parent
ASSEMBLE = ["riscv64-linux-gnu-as", "-march=rv64im", "-mabi=lp64"]
BOUNDARIES = [8, 16, 32, 64, 128, 256, 512, 1024, 2048, 4096]


def aligned_place(chance, k, boundary):
    """Padding, and code behind it that adds the label's place modulo the boundary."""
    shift = 64 - (boundary.bit_length() - 1)
    lines = [f"addi a0, a0, {chance.randrange(-9, 10)}" for _ in range(chance.randrange(6))]
    lines += [f".balign {boundary}", f"L{k}:", f"P{k}: auipc t0, %pcrel_hi(L{k})", f"addi t0, t0, %pcrel_lo(P{k})"]
    lines += [f"slli t0, t0, {shift}", f"srli t0, t0, {shift}", "add a0, a0, t0"]
    if chance.random() < 0.5:
        lines += [f"beq zero, zero, M{k}", "addi a0, a0, 77", f".balign {chance.choice(BOUNDARIES)}", f"M{k}:"]
    if chance.random() < 0.3:
        lines += [f"addi t1, zero, {chance.randrange(1, 5)}", f"N{k}: addi a0, a0, 3", f".balign {chance.choice(BOUNDARIES[:4])}"]
        lines += ["addi t1, t1, -1", f"bne t1, zero, N{k}"]
    if chance.random() < 0.5:
        lines += [f"call f{k}"]
    return lines


def distance(k, j):
    """Code that adds a distance between two labels, which stands in the data."""
    return [f"Q{k}: auipc t0, %pcrel_hi(D{k})", f"lw t0, %pcrel_lo(Q{k})(t0)", "srai t0, t0, 2", "add a0, a0, t0"], [
        f"D{k}: .word L{k} - L{j}", f".dword L{k}"]


def program(chance):
    count = chance.randrange(2, 7)
    text, data = [], []
    for k in range(count):
        text += aligned_place(chance, k, chance.choice(BOUNDARIES))
        code, words = distance(k, chance.randrange(k + 1))
        text += code
        data += words
    lines = [".option relax", ".text", ".globl main", "main: addi sp, sp, -16", "sd ra, 8(sp)", "addi a0, zero, 1"]
    lines += text + ["ld ra, 8(sp)", "addi sp, sp, 16", "andi a0, a0, 0x7f", "ret"]
    for k in range(count):
        lines += [f".balign {chance.choice(BOUNDARIES[:5])}", f"f{k}: addi a0, a0, {k + 2}", "ret"]
    return "\n".join([*lines, ".section .rodata", ".balign 8", *data]) + "\n"


def main():
    parser = Parser(__doc__)
    parser.add_argument("orc", metavar="ORC", type=built)
    parser.add_argument("count", nargs="?", type=int, default=100)
    parser.add_argument("seed", nargs="?", type=int, default=1)
    parser.add_argument("--keep", type=pathlib.Path)
    arguments = parser.parse_args()
    installed("riscv64-linux-gnu-as", "qemu-riscv64")
    chance, unlike = random.Random(arguments.seed), 0
    with tempfile.TemporaryDirectory() as made:
        folder = (arguments.keep or pathlib.Path(made)).resolve()
        folder.mkdir(parents=True, exist_ok=True)
        start = folder / "start"
        subprocess.run([*ASSEMBLE, TOP / "tools" / "c_programs" / "start.s", "-o", start], check=True)
        for k in range(arguments.count):
            source, made, linked = (folder / f"padded{k}{end}" for end in (".s", ".o", ""))
            source.write_text(program(chance))
            subprocess.run([*ASSEMBLE, source, "-o", made], check=True)
            subprocess.run(["riscv64-linux-gnu-ld", "-static", "--no-relax", start, made, "-o", linked], check=True)
            wanted = subprocess.run(["qemu-riscv64", linked]).returncode
            ours = subprocess.run([arguments.orc, "run", made], stdout=subprocess.PIPE, stderr=subprocess.PIPE)
            if ours.returncode != wanted or not ours.stderr.decode().splitlines()[-1].startswith("end exited "):
                unlike += 1
                print(f"{source}: {ours.returncode} {ours.stderr.decode().splitlines()[-1]!r}, wanted {wanted}")
    print(f"{arguments.count} programs, {unlike} unlike")
    return 1 if unlike else 0


if __name__ == "__main__":
    sys.exit(main())
