#!/usr/bin/env python3
"""Runs random straight-line programs on the hart and on qemu-riscv64, and compares all registers
and the data.

Each program has 300 instructions of all the rows: values of any registers, loads and stores at any
alignment, branches and jumps over one instruction, fences, and registers that start at edges. Needs
riscv64-linux-gnu-as, -ld and -objcopy, qemu-riscv64, and the laboratory rv_lab, which
tools/lab.py proves and builds. With --by ORC the programs are run by `ORC run` in its place, and each
is done twice, so that a run which keeps the instructions that it decoded does all of them both ways.

    tools/compare_run.py [--by ORC] [SEED [PROGRAMS]]
"""
import random
import struct
import subprocess
import sys
import tempfile
from pathlib import Path

import lab
from tool_words import arguments, installed, integers

ROOT = Path(__file__).resolve().parent.parent
TEXT, DATA, SIZE = 0x1000_0000, 0x1001_0000, 512
WORD = 2**64
R = ("add sub sll slt sltu xor srl sra or and mul mulh mulhsu mulhu div divu rem remu "
     "addw subw sllw srlw sraw mulw divw divuw remw remuw").split()
I = "addi slti sltiu xori ori andi addiw".split()
SHIFTS = {"slli": 64, "srli": 64, "srai": 64, "slliw": 32, "srliw": 32, "sraiw": 32}
LOADS = "lb lh lw ld lbu lhu lwu".split()
STORES = "sb sh sw sd".split()
BRANCHES = "beq bne blt bge bltu bgeu".split()
EDGES = [0, 1, 2, 31, 32, 63, 64, 0x7FFFFFFF, 0x80000000, 0xFFFFFFFF, 2**63 - 1, 2**63, WORD - 1]


def value(rng):
    kind = rng.randrange(4)
    if kind == 0:
        return rng.choice(EDGES)
    if kind == 1:
        return (rng.choice(EDGES) + rng.randrange(-3, 4)) % WORD
    if kind == 2:
        return (rng.getrandbits(32) - 2**31) % WORD
    return rng.getrandbits(64)


def simple(rng):
    """One instruction that goes on to the next. x1 points into the data and is never written."""
    rd, rs, rt = rng.choice([0, *range(2, 32)]), rng.randrange(32), rng.randrange(32)
    kind = rng.randrange(10)
    if kind < 4:
        return f"{rng.choice(R)} x{rd},x{rs},x{rt}"
    if kind == 4:
        return f"{rng.choice(I)} x{rd},x{rs},{rng.randrange(-2048, 2048)}"
    if kind == 5:
        name = rng.choice(list(SHIFTS))
        return f"{name} x{rd},x{rs},{rng.randrange(SHIFTS[name])}"
    if kind == 6:
        return f"{rng.choice(LOADS)} x{rd},{rng.randrange(-256, 249)}(x1)"
    if kind == 7:
        return f"{rng.choice(STORES)} x{rt},{rng.randrange(-256, 249)}(x1)"
    if kind == 8:
        return f"{rng.choice(['lui', 'auipc'])} x{rd},{rng.randrange(2**20)}"
    return rng.choice(["fence", "fence rw,w", ".word 0x8330000f"])


def program(rng):
    lines = []
    while len(lines) < 300:
        kind = rng.randrange(8)
        if kind == 0:
            lines += [f"{rng.choice(BRANCHES)} x{rng.randrange(32)},x{rng.randrange(32)},.+8", simple(rng)]
        elif kind == 1:
            lines += [f"jal x{rng.choice([0, *range(2, 32)])},.+8", simple(rng)]
        elif kind == 2:
            lines += ["auipc x4,0", f"jalr x{rng.choice([0, *range(2, 32)])},{12 + rng.randrange(2)}(x4)",
                      simple(rng)]
        else:
            lines.append(simple(rng))
    return lines


def sections(folder, lines, registers, data):
    """The program between a start that sets the registers and an end that writes them out."""
    end = "\n".join(f" sd x{r},{768 + 8 * r}(x1)" for r in range(32))
    start = "\n".join(f" ld x{r},{8 * r}(x31)" for r in [*range(1, 31), 31])
    text = f""".option norvc
.option norelax
.section .program,"ax"
{chr(10).join(lines)}
 j end
.section .text
.globl _start
_start: la x31,registers
{start}
 j program
end:
{end}
 li a0,1
 addi a1,x1,-256
 li a2,1280
 li a7,64
 ecall
 li a0,0
 li a7,93
 ecall
.set program, {TEXT:#x}
registers: .dword {",".join(map(hex, registers))}
.section .bytes,"aw"
 .byte {",".join(map(str, data))}
 .space 1024
"""
    (folder / "p.s").write_text(text)
    subprocess.run(["riscv64-linux-gnu-as", "-march=rv64im", "-o", folder / "p.o", folder / "p.s"], check=True)
    subprocess.run(["riscv64-linux-gnu-ld", "-o", folder / "p", f"--section-start=.program={TEXT:#x}",
                    f"--section-start=.bytes={DATA:#x}", "-Ttext=0x10080000", folder / "p.o"], check=True)
    subprocess.run(["riscv64-linux-gnu-objcopy", "-O", "binary", "-j", ".program", folder / "p", folder / "words"],
                   check=True)
    raw = (folder / "words").read_bytes()
    return struct.unpack(f"<{len(raw) // 4}I", raw)


def twice(folder, lines, registers, data):
    """One section at the address where orc has it: the program, between a start that sets the
    registers and an end that writes them out with the data, two times."""
    end = "\n".join(f" sd x{r},{768 + 8 * r}(x1)" for r in range(32))
    start = "\n".join(f" ld x{r},{8 * r}(x31)" for r in [*range(1, 31), 31])
    text = f""".option norvc
.option norelax
.section .program,"awx"
program:
{chr(10).join(lines)}
 j end
.globl main
main: la x31,registers
{start}
 j program
end:
{end}
 li a0,1
 addi a1,x1,-256
 li a2,1280
 li a7,64
 ecall
 la t0,rounds
 ld t1,0(t0)
 addi t1,t1,-1
 sd t1,0(t0)
 bnez t1,main
 li a0,0
 li a7,93
 ecall
.balign 8
rounds: .dword 2
registers: .dword 0,bytes+256,{",".join(map(hex, registers[2:]))}
bytes:
 .byte {",".join(map(str, data))}
 .space 1024
"""
    (folder / "p.s").write_text(text)
    subprocess.run(["riscv64-linux-gnu-as", "-march=rv64im", "-o", folder / "p.o", folder / "p.s"], check=True)
    subprocess.run(["riscv64-linux-gnu-ld", "-e", "main", "-o", folder / "p", f"--section-start=.program={TEXT:#x}",
                    folder / "p.o"], check=True, stderr=subprocess.DEVNULL)


def are_same(orc, folder, lines, registers, data):
    """Whether orc and qemu write the same after both rounds."""
    twice(folder, lines, registers, data)
    ours = subprocess.run([orc, "run", folder / "p.o"], stdout=subprocess.PIPE, stderr=subprocess.DEVNULL)
    theirs = subprocess.run(["qemu-riscv64", folder / "p"], stdout=subprocess.PIPE, check=True)
    if ours.returncode or len(theirs.stdout) != 2 * 1280:
        return False
    for at, (a, b) in enumerate(zip(struct.iter_unpack("<Q", ours.stdout), struct.iter_unpack("<Q", theirs.stdout))):
        if a != b:
            print(f"round {at // 160}, word {at % 160}: ours {a[0]:016x}, theirs {b[0]:016x}")
    return ours.stdout == theirs.stdout


def theirs(folder):
    out = subprocess.run(["qemu-riscv64", folder / "p"], capture_output=True, check=True).stdout
    numbers = struct.unpack("<160Q", out)
    return list(numbers[128:160]) + list(numbers[:64])


def ours(words, registers, data):
    lines = [f"x {r:x} {v:x}" for r, v in enumerate(registers)]
    lines += [f"w {TEXT + 4 * k:x} {w:x}" for k, w in enumerate([*words[:-1], 0x73])]
    lines += [f"w {DATA + k:x} {int.from_bytes(bytes(data[k:k + 4]), 'little'):x}" for k in range(0, SIZE, 4)]
    out = subprocess.run([lab.path("rv_lab"), "run"], input="\n".join(lines) + "\n", capture_output=True, text=True, check=True)
    return [int(n, 16) for n in out.stdout.split()]


def main():
    by = sys.argv[2] if sys.argv[1:2] == ["--by"] else None
    if by:
        del sys.argv[1:3]
    seed, programs = integers(arguments(__doc__, 0, 2), 1, 50)
    installed("riscv64-linux-gnu-as", "qemu-riscv64")
    rng = random.Random(seed)
    names = set()
    with tempfile.TemporaryDirectory() as name:
        folder = Path(name)
        for number in range(programs):
            lines = program(rng)
            names |= {line.split()[0] for line in lines} - {".word"}
            registers = [0, DATA + 256] + [value(rng) for _ in range(30)]
            data = [rng.getrandbits(8) for _ in range(SIZE)]
            if by:
                if not are_same(by, folder, lines, registers, data):
                    sys.exit(f"seed {seed}, program {number}: they differ")
                continue
            words = sections(folder, lines, registers, data)
            we, they = ours(words, registers, data), theirs(folder)
            if we != they:
                for place, (a, b) in enumerate(zip(we, they)):
                    if a != b:
                        what = f"x{place}" if place < 32 else f"data {8 * (place - 32)}"
                        print(f"{what}: ours {a:016x}, theirs {b:016x}")
                sys.exit(f"seed {seed}, program {number}: they differ")
    rounds = ", each done twice," if by else ""
    print(f"seed {seed}: {programs} programs{rounds} of {len(names)} instructions, all registers and data the same")


main()
