#!/usr/bin/env python3
"""Compares what rv_lab decodes with what llvm-mc-14 decodes, and what it encodes with the word.

The words are forty of each row of the table in crates/rv_insn/src/table.rt, their other bits drawn
at random, and 100,000 random words. Needs llvm-mc-14, and the laboratory rv_lab, which
tools/lab.py proves and builds.

    tools/compare_decode.py [SEED]
"""
import random
import re
import subprocess
import sys
from pathlib import Path

import lab
from tool_words import arguments, installed, integers

ROOT = Path(__file__).resolve().parent.parent
OPCODES = {
    "op": 0x33, "op_32": 0x3B, "imm": 0x13, "shift": 0x13, "imm_32": 0x1B, "shift_32": 0x1B,
    "load": 0x03, "store": 0x23, "branch": 0x63, "jump_register": 0x67, "fence": 0x0F,
}
# What llvm-mc knows with +m beyond RV64IM: the control registers, fence.i and the privileged words.
BEYOND = re.compile(r"csrr|fence\.i|[msud]ret|wfi|sfence|hfence|sinval|hinval|hlv|hlvx|hsv|unimp")


def table_words(rng):
    """Words of each row: its fixed bits, and the others at random."""
    text = (ROOT / "crates/rv_insn/src/table.rt").read_text()
    for section, body in re.findall(r"(\w+) \{\s*((?:\w+ [^;{}]*;\s*)+)\}", text):
        for row in re.findall(r"\w+ ([^;]*) \"[\w.]+\";", body):
            bits = [int(b.replace("_", ""), 0) for b in row.split()]
            for _ in range(40):
                word = rng.getrandbits(32)
                if section == "system":
                    yield bits[0]
                elif section in ("upper", "jump"):
                    yield word & ~0x7F | bits[0]
                else:
                    word = word & ~0x707F | OPCODES[section] | bits[0] << 12
                    if section in ("op", "op_32", "shift_32"):
                        word = word & ~0xFE000000 | bits[1] << 25
                    elif section == "shift":
                        word = word & ~0xFC000000 | bits[1] << 26
                    yield word


def theirs(words):
    """The instruction of each word by llvm-mc-14: a name and numbers in our order."""
    lines = "".join("[" + " ".join(f"0x{b:02x}" for b in w.to_bytes(4, "little")) + "]\n" for w in words)
    command = ["llvm-mc-14", "--disassemble", "-triple=riscv64", "-mattr=+m", "--show-encoding",
               "-M", "no-aliases", "-M", "numeric"]
    out = subprocess.run(command, input=lines, capture_output=True, text=True).stdout
    found = {}
    for line in out.splitlines():
        match = re.match(r"\s*(\S+)\s*(.*?)\s*# encoding: \[(.*)\]", line)
        if match:
            word = int.from_bytes(bytes(int(b, 16) for b in match[3].split(",")), "little")
            found[word] = (match[1], match[2])
    return {word: normal(word, *found[word]) if word in found else None for word in words}


def normal(word, name, operands):
    if name.startswith("fence") and name != "fence.i":
        return ("fence", [word])
    numbers = [int(n) for n in re.findall(r"-?\d+", operands.replace("x", ""))]
    if name in ("lui", "auipc"):
        numbers[1] = (numbers[1] << 12) - (numbers[1] >> 19 << 32)
    elif name in ("lb", "lh", "lw", "ld", "lbu", "lhu", "lwu", "jalr"):
        numbers = [numbers[0], numbers[2], numbers[1]]
    elif name in ("sb", "sh", "sw", "sd"):
        numbers = [numbers[2], numbers[0], numbers[1]]
    return (name, numbers)


def ours(words):
    text = "".join(f"{w:08x}\n" for w in words)
    out = subprocess.run([lab.path("rv_lab"), "decode"], input=text, capture_output=True, text=True, check=True).stdout
    answers = {}
    for word, line in zip(words, out.splitlines(), strict=True):
        parts = line.split()
        if parts == ["illegal"]:
            answers[word] = None
            continue
        name, numbers, again = parts[0], parts[1:-1], int(parts[-1], 16)
        if again != word:
            sys.exit(f"{word:08x} is decoded as {line} and encoded as {again:08x}")
        answers[word] = (name, [int(n, 16 if name == "fence" else 10) for n in numbers])
    return answers


def main():
    (seed,) = integers(arguments(__doc__, 0, 1), 1)
    installed("llvm-mc-14")
    rng = random.Random(seed)
    rows = list(table_words(rng))
    words = list(dict.fromkeys(rows + [rng.getrandbits(32) for _ in range(100_000)]))
    # Opcodes end in the bits 11: half of the random words get them, since most words have none.
    words = list(dict.fromkeys(w if k % 2 else w | 3 for k, w in enumerate(words)))
    we, they = ours(words), theirs(words)
    bad, counts = 0, {"same": 0, "illegal": 0, "beyond RV64IM": 0, "fence of other bits": 0}
    for word in words:
        if we[word] == they[word]:
            counts["illegal" if we[word] is None else "same"] += 1
        elif we[word] is None and BEYOND.match(they[word][0]):
            counts["beyond RV64IM"] += 1
        elif they[word] is None and word & 0x707F == 0x0F and we[word][0] == "fence":
            counts["fence of other bits"] += 1
        else:
            bad += 1
            if bad <= 20:
                print(f"{word:08x}: ours {we[word]}, theirs {they[word]}")
    names = {answer[0] for answer in we.values() if answer}
    print(f"seed {seed}: {len(words)} words, {len(names)} instructions,",
          ", ".join(f"{n} {what}" for what, n in counts.items()), f"and {bad} that differ")
    sys.exit(1 if bad or len(names) != 65 else 0)


main()
