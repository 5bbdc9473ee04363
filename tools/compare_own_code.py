#!/usr/bin/env python3
"""Runs random programs that write their own code, and compares how they end with qemu-riscv64 and with what they are made
to answer.

    tools/compare_own_code.py [ORC [COUNT [SEED]]]

A program adds up numbers by instructions `addi a0, a0, N`, and gives these instructions other numbers meanwhile: by a
store of one byte, of two, of four or of eight, which may begin inside a word and end inside the one after the next; at the
instruction that is next, at one that was just done, and in functions that are so far apart that they share a place in any
table of decoded instructions of 1 KiB to 256 KiB of code. It writes code on the stack, too, and runs it, again and again
with another number. So its exit status says whether an instruction was done that is no longer there. Another program,
which writes itself and a byte at each round, runs with each fuel from 0 to 400, and has to have written just the bytes of
the instructions that it did. Where code was written, qemu's program has a `fence.i`, which a hart that decodes anew
doesn't need. Needs riscv64-linux-gnu-as and -ld, and qemu-riscv64.
"""
import random
import subprocess
import sys
import tempfile
from pathlib import Path

TOP = Path(__file__).resolve().parent.parent
TOOLS = "riscv64-linux-gnu-"
START = TOP / "tools/c_programs/start.s"
GAPS = [0, 0, 0, 1 << 10, 1 << 12, 1 << 14, 1 << 16, 1 << 18]
SITES = 4


def word(n):
    """`addi a0, a0, n`"""
    return n << 20 | 0x0005_0513


def store(rng, values, k):
    """Instructions that change site k of a row, whose address is in t0, and what the row's sites are from then on."""
    n, m, values = rng.randrange(2048), rng.randrange(2048), list(values)
    way = rng.choice(["sb", "sh", "sw", "sw 1"] if k == SITES - 1 else ["sb", "sh", "sw", "sw 1", "sd", "sd 2"])
    if way == "sd 2" and k == SITES - 2:
        way = "sd"
    if way == "sb":  # bits 11..4 of the number
        values[k] = n & 0xFF0 | values[k] & 15
        return [f"li t1, {n >> 4}", "sb t1, 3(t0)"], values
    if way in ("sd", "sd 2"):
        values[k + 1] = m
    values[k] = n
    if way == "sh":  # the upper half of the word
        return [f"li t1, {word(n) >> 16}", "sh t1, 2(t0)"], values
    if way == "sw":
        return [f"li t1, {word(n)}", "sw t1, 0(t0)"], values
    if way == "sw 1":  # all but the lowest byte, and the lowest of the word behind, which is a site or `ret`
        low = 0x67 if k == SITES - 1 else 0x13
        return [f"li t1, {word(n) >> 8 | low << 24}", "sw t1, 1(t0)"], values
    if way == "sd":
        return [f"li t1, {word(m) << 32 | word(n)}", "sd t1, 0(t0)"], values
    # the upper half of a word, the next word, and the lower half of the one behind
    return [f"li t1, {(word(0) & 0xFFFF) << 48 | word(m) << 16 | word(n) >> 16}", "sd t1, 2(t0)"], values


def program(seed):
    """The text of a program, and its exit status."""
    rng = random.Random(seed)
    rounds, rows = rng.randrange(2, 9), [[rng.randrange(2048) for _ in range(SITES)] for _ in range(rng.randrange(2, 6))]
    lines, steps = [], []
    for at in range(rng.randrange(4, 16)):
        kind = rng.choice(["call", "call", "store", "store", "next", "before", "stack"])
        row, k, n = rng.randrange(len(rows)), rng.randrange(SITES), rng.randrange(1024)
        if kind == "call":
            lines += [f"call row{row}"]
        elif kind == "store":
            # (what a byte leaves of the number is known to whoever follows the run)
            state = rng.getstate()
            lines += [f"la t0, row{row} + {4 * k}", *store(rng, rows[row], k)[0], "SYNC"]
            k = (k, state)
        elif kind == "next":  # the number of the round on top
            lines += [f"la t0, next{at}", f"li t1, {word(n)}", "slli t2, s0, 20", "add t1, t1, t2", "sw t1, 0(t0)", "SYNC", f"next{at}: addi a0, a0, 1"]
        elif kind == "before":
            lines += [f"la t0, before{at}", f"li t1, {word(n)}", f"before{at}: addi a0, a0, 1", "sw t1, 0(t0)", "SYNC"]
        else:
            lines += [f"li t1, {0x0000_8067 << 32 | word(n)}", "slli t2, s0, 20", "add t1, t1, t2", "sd t1, 16(sp)", "SYNC", "addi t3, sp, 16", "jalr ra, 0(t3)"]
        steps.append((kind, row, k, n))
    text = [".globl main", "main:", "  addi sp, sp, -64", "  sd ra, 56(sp)", "  li a0, 0", "  li s0, 0", "again:"]
    text += [it if ": " in it else f"  {it}" for it in lines]
    text += ["  addi s0, s0, 1", f"  li t0, {rounds}", "  beq s0, t0, done", "  j again", "done:", "  andi a0, a0, 127", "  ld ra, 56(sp)", "  addi sp, sp, 64", "  ret"]
    for r, values in enumerate(rows):
        gap = rng.choice(GAPS)
        text += [f"  .skip {gap + 4 * rng.randrange(8)}" if gap else "", f"row{r}:", *(f"  addi a0, a0, {n}" for n in values), "  ret"]
    a0, done = 0, set()
    for turn in range(rounds):
        for at, (kind, row, k, n) in enumerate(steps):
            if kind == "call":
                a0 += sum(rows[row])
            elif kind == "store":
                again = random.Random()
                again.setstate(k[1])
                rows[row] = store(again, rows[row], k[0])[1]
            elif kind == "before":
                a0 += n if at in done else 1
                done.add(at)
            else:
                a0 += n + turn
    return "\n".join(it for it in text if it) + "\n", a0 & 127


def built(folder, text):
    """The object of a program, and a static link of it for qemu, whose code may be written and whose stack may be run."""
    (folder / "own.s").write_text(text.replace("SYNC", "nop"))
    (folder / "qemu.s").write_text(text.replace("SYNC", "fence.i"))
    for name, source in (("own", folder / "own.s"), ("qemu", folder / "qemu.s"), ("start", START)):
        subprocess.run([f"{TOOLS}as", "-march=rv64im_zifencei", "-mno-relax", "-o", folder / f"{name}.o", source], check=True)
    linked = [f"{TOOLS}ld", "-N", "-z", "execstack", "-o", folder / "own", folder / "start.o", folder / "qemu.o"]
    subprocess.run(linked, check=True, stderr=subprocess.DEVNULL)
    return folder / "own.o", folder / "own"


def ended(words):
    ran = subprocess.run([str(it) for it in words], stdout=subprocess.PIPE, stderr=subprocess.DEVNULL)
    return ran.returncode, ran.stdout


def is_same(orc, seed):
    text, answer = program(seed)
    with tempfile.TemporaryDirectory() as folder:
        named, linked = built(Path(folder), text)
        found = ended([orc, "run", named])[0], ended(["qemu-riscv64", linked])[0], answer
        if len(set(found)) > 1:
            kept = Path(tempfile.gettempdir()) / f"own_code_{seed}.s"
            kept.write_text(text)
            print("program %d: orc ends with %d, qemu with %d, and %d is right" % (seed, *found), f"({kept})")
            return False
    return True


# Eight instructions, and then ten in each round, of which the seventh writes the byte that the second has made.
COUNTING = """.globl main
main: addi sp, sp, -16
  li a2, 1
  li a7, 64
  la s1, 2f
  lw s2, 0(s1)
  lui s3, 0x100
  add s2, s2, s3
1: sub t1, s2, s3
  sw t1, 0(s1)
2: addi t0, zero, 48
  sb t0, 0(sp)
  li a0, 1
  mv a1, sp
  ecall
  add s2, s2, s3
  nop
  j 1b
"""


def are_right(orc):
    right = True
    with tempfile.TemporaryDirectory() as folder:
        named, _ = built(Path(folder), COUNTING)
        for fuel in range(401):
            rounds, rest = divmod(max(0, fuel - 8), 10)
            expected = 111, bytes(range(48, 48 + rounds + (rest >= 7)))
            found = ended([orc, "run", named, "--fuel", str(fuel)])
            if found != expected:
                print(f"with fuel {fuel} it ends so: {found}, and not so: {expected}")
                right = False
    return right


def main(words):
    orc = words[0] if words else str(TOP / "orc")
    count, seed = int(words[1]) if len(words) > 1 else 200, int(words[2]) if len(words) > 2 else 1
    wrong = sum(not is_same(orc, it) for it in range(seed, seed + count))
    right = are_right(orc)
    print(f"{count} programs, {wrong} of them wrong; each fuel from 0 to 400 {'is right' if right else 'IS NOT RIGHT'}")
    return 1 if wrong or not right else 0


if __name__ == "__main__":
    sys.exit(main(sys.argv[1:]))
