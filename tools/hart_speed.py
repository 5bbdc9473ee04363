#!/usr/bin/env python3
"""How fast the hart does code of kinds that compilers and runtimes make, beside another build and beside C.

    tools/hart_speed.py [ORC] [--beside OTHER] [--times N] [--only WORD]

Makes the programs of the table below with the assembler and linker of riscv64-linux-gnu, runs them by `ORC run`, and
prints millions of instructions a second: those of a long run less those of a short one, by the difference of their
processor times, the least of N each (5 without a word), in turn with OTHER and with `hart_speed/hart.c`, the same design
in C, which gcc compiles and which knows programs of one object alone. The last column says how long one command takes, with
its links. Exit statuses are compared with what the programs are made to answer. Where a tool isn't installed it says
`skipped`, and ends with 0.
"""
import argparse
import random
import resource
import shutil
import subprocess
import sys
import tempfile
from pathlib import Path

TOP = Path(__file__).resolve().parent.parent
TOOLS = "riscv64-linux-gnu-"
FUNCTIONS, FUEL = 1022, 1 << 40

def loop(body, start=""):
    """A program of one function whose loop is done a1 times; the count is `main`'s to load."""
    return lambda count: [f".globl main\nmain: li a1, {count}\n{start}  li a0, 0\n1:\n{body}  addi a0, a0, 1\n  bne a0, a1, 1b\n  andi a0, a0, 63\n  ret\n.balign 16\ndata: .zero 256\n"]


def pushed(rng, count):
    """Straight code as a compiler for a stack machine makes it: it pushes a number, pops two and pushes what comes of them."""
    lines = []
    for _ in range(count // 8):
        lines += [f"  li t0, {rng.randrange(2048)}", "  addi sp, sp, -8", "  sd t0, 0(sp)"]
        lines += ["  ld t1, 0(sp)", "  addi sp, sp, 8", "  ld t0, 0(sp)", f"  {rng.choice(['add', 'sub', 'xor', 'and', 'or'])} t0, t0, t1", "  sd t0, 0(sp)"]
    return "\n".join(lines) + "\n"


def stack_machine(count):
    """A loop of 32 such steps."""
    body = pushed(random.Random(1), 256)
    return [f".globl main\nmain: addi sp, sp, -32\n  li a1, {count}\n  li a0, 0\n1:\n{body}  addi a0, a0, 1\n  beq a0, a1, 2f\n  j 1b\n2: andi a0, a0, 63\n  addi sp, sp, 32\n  ret\n"]


def functions(count):
    """A loop that calls each of so many functions once; each is straight code of sixteen instructions."""
    rng = random.Random(2)
    calls = "".join(f"  call f{k}\n" for k in range(FUNCTIONS))
    main = f".globl main\nmain: addi sp, sp, -32\n  sd ra, 24(sp)\n  sd s0, 16(sp)\n  li s0, {count}\n1:\n{calls}  addi s0, s0, -1\n  beqz s0, 2f\n  j 1b\n2: ld s0, 16(sp)\n  ld ra, 24(sp)\n  addi sp, sp, 32\n  li a0, {count} & 63\n  ret\n"
    return [main, *(f".globl f{k}\nf{k}:\n{pushed(rng, 16)}  ret\n" for k in range(FUNCTIONS))]


def cold(count):
    """Straight code of so many instructions, each done once."""
    return [f".globl main\nmain: addi sp, sp, -32\n{pushed(random.Random(3), count)}  addi sp, sp, 32\n  li a0, 7\n  ret\n"]


REGISTERS = "  xor a2, a0, a1\n  and a3, a2, a0\n  add a4, a3, a2\n"
STACK = "  ld a2, -64(sp)\n  addi a2, a2, 3\n  sd a2, -64(sp)\n"
RANGE = "  ld a2, 0(t0)\n  addi a2, a2, 3\n  sd a2, 0(t0)\n"
# name, program by its count, the instructions of a count of one, the two counts, the exit status, objects as they are
ROWS = [
    ("a loop on registers", loop(REGISTERS), 5, (100_000, 4_000_000), lambda n: n & 63, False),
    ("a loop that loads and stores on the stack", loop(STACK), 5, (100_000, 4_000_000), lambda n: n & 63, False),
    ("a loop that loads and stores in a range", loop(RANGE, "  la t0, data\n"), 5, (100_000, 4_000_000), lambda n: n & 63, False),
    ("code for a stack machine", stack_machine, 259, (2_000, 80_000), lambda n: n & 63, False),
    ("1,022 functions in turn, as one object", functions, FUNCTIONS * 19 + 3, (20, 800), lambda n: n & 63, False),
    ("1,022 functions in turn, as 1,022 objects", functions, FUNCTIONS * 19 + 3, (20, 800), lambda n: n & 63, True),
    ("straight code, each instruction once", cold, 1, (400_000, 4_000_000), lambda n: 7, False),
]


def objects(folder, sources, apart):
    """The objects of a program: each source's, or one that GNU ld joins from all."""
    named = []
    for k, source in enumerate(sources):
        (folder / f"{k}.s").write_text(source)
    for first in range(0, len(sources), 64):
        running = [(k, subprocess.Popen([f"{TOOLS}as", "-march=rv64im", "-mno-relax", "-o", f"{folder}/{k}.o", f"{folder}/{k}.s"])) for k in range(first, min(first + 64, len(sources)))]
        for k, it in running:
            if it.wait():
                sys.exit(f"{folder}/{k}.s is not assembled")
            named.append(f"{folder}/{k}.o")
    if apart or len(named) == 1:
        return named
    subprocess.run([f"{TOOLS}ld", "-r", "-o", f"{folder}/all.o", *named], check=True)
    return [f"{folder}/all.o"]


def words_of(folder, named):
    """The words of a program at the address that C's hart runs from."""
    subprocess.run([f"{TOOLS}ld", "-o", f"{folder}/linked", "-Ttext=0x10000000", "-e", "main", *named], check=True)
    subprocess.run([f"{TOOLS}objcopy", "-O", "binary", f"{folder}/linked", f"{folder}/words"], check=True)
    return f"{folder}/words"


def seconds(words):
    """The processor time of a command, its exit status and what it printed."""
    before = resource.getrusage(resource.RUSAGE_CHILDREN)
    ran = subprocess.run(words, stdout=subprocess.PIPE, stderr=subprocess.DEVNULL)
    after = resource.getrusage(resource.RUSAGE_CHILDREN)
    return after.ru_utime - before.ru_utime + after.ru_stime - before.ru_stime, ran.returncode, ran.stdout


def measured(row, sides, times, c_hart):
    name, program, each, counts, answer, apart = row
    with tempfile.TemporaryDirectory() as folder:
        places = []
        for k, count in enumerate(counts):
            here = Path(folder) / str(k)
            here.mkdir()
            named = objects(here, program(count), apart)
            places.append((count, named, None if apart else words_of(here, named)))
        least = {}
        for _ in range(times):
            for count, named, flat in places:
                for side in sides:
                    took, status, _ = seconds([side, "run", *named, "--fuel", str(FUEL)])
                    if status != answer(count):
                        sys.exit(f"{name}: {side} ended with {status} and not with {answer(count)}")
                    least[side, count] = min(took, least.get((side, count), took))
                if flat:
                    took, status, _ = seconds([c_hart, flat, "0", str(FUEL)])
                    least["C", count] = min(took, least.get(("C", count), took))
    few, many = counts
    speeds = []
    for side in [*sides, "C"]:
        if (side, many) not in least:
            speeds.append("-")
            continue
        took = max(least[side, many] - least[side, few], 1e-9)
        speeds.append(f"{each * (many - few) / took / 1e6:.0f}")
    whole = [f"{least[side, many]:.2f}" for side in sides]
    print(f"| {name} | {' | '.join(speeds)} | {', '.join(whole)} |", flush=True)


def main():
    parser = argparse.ArgumentParser(description=__doc__, formatter_class=argparse.RawDescriptionHelpFormatter)
    parser.add_argument("orc", nargs="?", default=str(TOP / "orc"))
    parser.add_argument("--beside", action="append", default=[])
    parser.add_argument("--times", type=int, default=5)
    parser.add_argument("--only", default="")
    given = parser.parse_args()
    lacking = [it for it in (f"{TOOLS}as", f"{TOOLS}ld", f"{TOOLS}objcopy", "gcc") if not shutil.which(it)]
    if lacking:
        print(f"skipped: there is no {', '.join(lacking)}")
        return
    sides = [given.orc, *given.beside]
    with tempfile.TemporaryDirectory() as folder:
        c_hart = f"{folder}/hart"
        subprocess.run(["gcc", "-O2", "-o", c_hart, str(TOP / "tools/hart_speed/hart.c")], check=True)
        print(f"| millions of instructions a second | {' | '.join(sides)} | in C | seconds of the command |")
        print("|---|" + "---|" * (len(sides) + 2))
        for row in ROWS:
            if given.only in row[0]:
                measured(row, sides, given.times, c_hart)


if __name__ == "__main__":
    main()
