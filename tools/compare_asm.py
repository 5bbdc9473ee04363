#!/usr/bin/env python3
"""Compares the objects of random lines of assembly with those of `riscv64-linux-gnu-as` and `llvm-mc`.

    tools/compare_asm.py DUMP [COUNT [SEED]]

DUMP is the built program of the crate asm_dump. Each line stands in a text with labels before and after it.
Where both assemblers take the text, sections, symbols and relocations must be alike; what one of them
refuses is counted by its cause. Ends with 1 where something differs without a known cause.
"""
import os
import random
import re
import shutil
import subprocess
import sys
import tempfile
from collections import Counter

from elf_checks import answer
from tool_words import arguments, built, installed, integers

GNU = ["riscv64-linux-gnu-as", "-march=rv64im", "-mabi=lp64", "-mno-relax", "-L"]
LLVM = ["-triple=riscv64", "-mattr=+m,-relax", "-filetype=obj"]
REGISTERS = (
    [f"x{i}" for i in range(32)]
    + "zero ra sp gp tp".split()
    + [f"t{i}" for i in range(7)]
    + [f"s{i}" for i in range(12)]
    + [f"a{i}" for i in range(8)]
)
OPS = (
    "add sub sll slt sltu xor srl sra or and mul mulh mulhsu mulhu div divu rem remu"
    " addw subw sllw srlw sraw mulw divw divuw remw remuw"
).split()
IMMEDIATES = "addi slti sltiu xori ori andi addiw".split()
LOADS = "lb lh lw ld lbu lhu lwu".split()
STORES = "sb sh sw sd".split()
BRANCHES = "beq bne blt bge bltu bgeu".split()
# Nine lines before the one that is tried, and what follows it.
HEAD = ".globl g\n.weak w\nback: nop\n.globl far\nhere: auipc a0, %pcrel_hi(g)\n"
TAIL = "\nahead: .zero 4\nfar: .zero 4\ng: .zero 4\n.data\nd: .dword w\n.comm shared, 24, 8\n"
# The bits of an instruction that the linker overwrites, by the relocation's kind, and where they lie.
FIELDS = {
    16: {0: 0xFE000F80},
    17: {0: 0xFFFFF000},
    18: {0: 0xFFFFF000, 4: 0xFFF00000},
    19: {0: 0xFFFFF000, 4: 0xFFF00000},
    20: {0: 0xFFFFF000},
    23: {0: 0xFFFFF000},
    24: {0: 0xFFF00000},
    25: {0: 0xFE000F80},
    26: {0: 0xFFFFF000},
    27: {0: 0xFFF00000},
    28: {0: 0xFE000F80},
}
BRANCH, JAL, CALL, CALL_PLT, PCREL_HI20 = 16, 17, 18, 19, 23
EXECUTABLE = 4


class Lines:
    """Writes random lines, nearly all of them good."""

    def __init__(self, dice):
        self.dice = dice

    def register(self):
        return self.dice.choice(REGISTERS)

    def blank(self):
        return self.dice.choice(["", " ", "", "\t", "  "])

    def joined(self, *operands):
        return (self.blank() + "," + self.blank()).join(operands)

    def number(self, low, high):
        n = self.dice.choice([low, high, 0, 1, self.dice.randint(low, high)])
        n = min(max(n, low), high)
        if self.dice.random() < 0.04:
            n = self.dice.choice([low - 1, high + 1])
        if n >= 0 and self.dice.random() < 0.3:
            return self.dice.choice([f"0x{n:x}", f"0x{n:X}"])
        return str(n)

    def symbol(self):
        return self.dice.choice("back ahead here far g w d shared other _u$1 .Lx".split())

    def reference(self):
        offset = self.dice.choice(["", "", "+4", "+0x10", "+2047", "-8"])
        return self.symbol() + offset

    def plus(self):
        return self.symbol() + self.dice.choice(["", "", "+4", "+0x10", "+2047"])

    def low(self):
        if self.dice.random() < 0.6:
            return self.number(-2048, 2047)
        part = self.dice.choice(["%lo", "%pcrel_lo"])
        return "%pcrel_lo(here)" if part == "%pcrel_lo" else f"%lo({self.plus()})"

    def based(self):
        return f"{self.low()}{self.blank()}({self.blank()}{self.register()}{self.blank()})"

    def high(self):
        if self.dice.random() < 0.5:
            return self.number(0, 2**20 - 1)
        part = self.dice.choice(["%hi", "%pcrel_hi", "%got_pcrel_hi"])
        return f"{part}({self.symbol() if part == '%got_pcrel_hi' else self.plus()})"

    def fence(self):
        sets = [s for s in ("".join(c for c, b in zip("iorw", f"{k:04b}") if b == "1") for k in range(16)) if s]
        return self.dice.choice(["fence", f"fence {self.joined(self.dice.choice(sets), self.dice.choice(sets))}"])

    def instruction(self):
        r, pick = self.register, self.dice.choice
        kind = self.dice.randrange(16)
        if kind < 3:
            return f"{pick(OPS)} {self.joined(r(), r(), r())}"
        if kind < 5:
            return f"{pick(IMMEDIATES)} {self.joined(r(), r(), self.low())}"
        if kind == 5:
            return f"{pick(['slli', 'srli', 'srai'])} {self.joined(r(), r(), self.number(0, 63))}"
        if kind == 6:
            return f"{pick(['slliw', 'srliw', 'sraiw'])} {self.joined(r(), r(), self.number(0, 31))}"
        if kind < 9:
            return f"{pick(LOADS + STORES)} {self.joined(r(), self.based())}"
        if kind == 9:
            return f"{pick(BRANCHES)} {self.joined(r(), r(), self.symbol())}"
        if kind == 10:
            return f"{pick(['lui', 'auipc'])} {self.joined(r(), self.high())}"
        if kind == 11:
            return f"jal {self.joined(r(), self.symbol())}"
        if kind == 12:
            return pick([f"jalr {self.joined(r(), self.based())}", f"jalr {self.joined(r(), r(), self.low())}"])
        if kind == 13:
            return pick([self.fence(), "ecall", "ebreak", "nop", "ret"])
        if kind == 14:
            return f"mv {self.joined(r(), r())}"
        return f"{pick(['j', 'call', 'tail'])} {self.symbol()}"

    def data(self):
        name, bits = self.dice.choice([("byte", 8), ("half", 16), ("word", 32), ("dword", 64)])
        items = []
        for _ in range(self.dice.randint(1, 3)):
            if bits >= 32 and self.dice.random() < 0.4:
                items.append(self.reference())
            else:
                items.append(self.number(-(2 ** (bits - 1)), 2**bits - 1))
        return f".{name} {self.joined(*items)}"

    def string(self):
        parts = ["a", "hello", " ", "#", ":", ",", "\\n", "\\\\", '\\"', "\\0", "é", "\t", "(", "%"]
        return '.ascii "' + "".join(self.dice.choices(parts, k=self.dice.randint(0, 5))) + '"'

    def section(self):
        name = self.dice.choice([".text", ".data", ".bss", ".rodata", ".eh_frame"])
        rest = self.dice.choice(["", ".a", ".x_1", ".b.c$"])
        return f".section {name}{rest}" if self.dice.random() < 0.7 else self.dice.choice([".text", ".data", ".bss"])

    def directive(self):
        kind = self.dice.randrange(9)
        if kind < 3:
            return self.data()
        if kind == 3:
            return self.string()
        if kind == 4:
            return f".zero {self.number(0, 300)}"
        if kind == 5:
            return f".balign {self.dice.choice([1, 2, 4, 8, 16, 64, 4096])}"
        if kind == 6:
            return f".comm {self.joined('common', self.number(0, 4096), str(self.dice.choice([1, 2, 8, 4096])))}"
        if kind == 7:
            return f"{self.dice.choice(['.globl', '.weak', '.hidden'])} {self.symbol()}"
        return f"{self.section()}\n{self.some_data()}"

    def some_data(self):
        return self.dice.choice([self.data(), self.string(), ".zero 8", "in_it: .balign 8", "nop"])

    def line(self):
        body = self.instruction() if self.dice.random() < 0.7 else self.directive()
        start = self.dice.choice(["", "", " ", "\t", "own: ", "own:"])
        return start + body + self.dice.choice(["", "", " ", " # so", "#so"])


class Object:
    """What an object says, by names and places: what the order of symbols and sections doesn't change."""

    def __init__(self, data):
        self.sections, self.symbols, self.relocs = [], [], []
        for line in answer(data):
            word, *rest = line.split()
            if word == "refused":
                raise ValueError(line)
            if word == "section":
                name = "" if rest[0] == "-" else bytes.fromhex(rest[0]).decode()
                self.sections.append((name, *map(int, rest[1:5]), rest[5]))
            elif word == "reloc":
                self.relocs.append((len(self.sections) - 1, *map(int, rest)))
            elif word == "symbol":
                name = "" if rest[0] == "-" else bytes.fromhex(rest[0]).decode()
                self.symbols.append((name, *map(int, rest[1:4]), rest[4], *map(int, rest[5:])))

    def place(self, where):
        return self.sections[int(where[2:])][0] if where.startswith("in") else where

    def target(self, number, addend):
        name, bind, _, _, where, value, _ = self.symbols[number]
        if bind == 0:
            return (self.place(where), value + addend)
        return (name, addend)

    def account(self):
        sections = sorted(s for s in self.sections if s[4] or s[3] > 4)
        symbols = sorted(
            (name, bind, vis, self.place(where), value, size)
            for name, bind, kind, vis, where, value, size in self.symbols
            if name and kind < 3 and not name.startswith((".L", "$x", "$d"))
        )
        relocs = sorted(
            (self.sections[section][0], at, kind, self.target(symbol, addend))
            for section, at, kind, symbol, addend in self.relocs
        )
        return {"sections": sections, "symbols": symbols, "relocations": relocs}


def masked(section, relocs):
    """The bytes of a section, with zeros for what the linker overwrites."""
    name, data = section[0], section[5]
    words = bytearray(b"" if data == "-" else bytes.fromhex(data))
    for where, at, kind, _ in relocs:
        for step, mask in FIELDS.get(kind, {}).items() if where == name else ():
            place = slice(at + step, at + step + 4)
            word = int.from_bytes(words[place], "little") & ~mask
            words[place] = word.to_bytes(4, "little")
    return bytes(words)


def made_by(command, source, folder):
    path = os.path.join(folder, "other.o")
    run = subprocess.run([*command, "-o", path, source], capture_output=True)
    if run.returncode != 0:
        return None, run.stderr.decode(errors="replace").strip().split("\n")[-1]
    with open(path, "rb") as file:
        return file.read(), ""


def ours(dump, source):
    run = subprocess.run([dump, source], capture_output=True, check=True)
    if run.stdout.startswith(b"\x7fELF"):
        return run.stdout, ""
    return None, run.stdout.decode().strip()


def main():
    dump, *numbers = arguments(__doc__, 1, 3)
    dump, (count, seed) = built(dump), integers(numbers, 2000, 1)
    installed(GNU[0])
    dice = random.Random(seed)
    llvm = shutil.which("llvm-mc-14") or shutil.which("llvm-mc")
    others = {"as": GNU} | ({"llvm-mc": [llvm, *LLVM]} if llvm else {})
    counts, wrong = Counter(), 0
    lines = Lines(dice)
    with tempfile.TemporaryDirectory() as folder:
        source = os.path.join(folder, "line.s")
        for _ in range(count):
            line = lines.line()
            with open(source, "w", encoding="utf-8") as file:
                file.write(HEAD + line + TAIL)
            mine, why = ours(dump, source)
            for name, command in others.items():
                theirs, message = made_by(command, source, folder)
                if mine is None and theirs is None:
                    counts[name, "both refuse", ""] += 1
                    continue
                if mine is None or theirs is None:
                    verdict = "only orc refuses" if mine is None else f"only {name} refuses"
                    causes = [refusal(name, line, why, message)]
                    shown = f"{why}{message}"
                else:
                    left, right = Object(mine).account(), Object(theirs).account()
                    causes = differences(name, line, left, right)
                    verdict = "differ" if causes else "alike"
                    shown = "".join(
                        f"\n  {part} of orc {left[part]}\n  {part} of {name} {right[part]}"
                        for part in left
                        if left[part] != right[part]
                    )
                counts[name, verdict, ", ".join(causes)] += 1
                if "unknown" in causes:
                    wrong += 1
                    print(f"{name}: {verdict}: {line!r}: {shown}")
    for (name, verdict, why), n in sorted(counts.items()):
        print(f"{name}: {verdict} {n}{': ' + why if why else ''}")
    return 1 if wrong else 0


def refusal(name, line, why, message):
    """Why one of two assemblers refuses a line that the other takes."""
    if "Undefined temporary symbol" in message:
        return "a name that begins with .L has to be defined for llvm-mc"
    if name == "llvm-mc" and re.search(r"lui.*%(got_)?pcrel_hi|auipc.*%hi", line):
        return "llvm-mc takes %hi for lui alone and %pcrel_hi for auipc alone"
    if name == "llvm-mc" and re.search(r"\.globl (w|\.Lx)", line):
        return "llvm-mc makes neither weak names nor those that begin with .L global"
    if name == "as" and "can not be both weak and common" in message:
        return "a common symbol is never weak for as"
    if why.endswith("section") and "bss" in line:
        return "no instruction stands in bss here"
    if why.endswith("number") and re.search(r"\.(byte|half|word|dword|comm|zero)", line):
        return "a number that doesn't fit its width is cut there and refused here"
    return "unknown"


def differences(name, line, left, right):
    """Why the objects of a line differ, as a list of causes; an empty one where they are alike."""
    if name == "as" and re.search(rf"\b({'|'.join(BRANCHES)})\b.*\b(far|g|w|d|shared|other|_u\$1)\b", line):
        return ["as makes two instructions of a branch to a symbol that isn't local"] if left != right else []
    if name == "as" and re.search(rf"\b({'|'.join(BRANCHES)})\b.*\.Lx", line):
        return ["as makes two instructions of a branch to a symbol that isn't local"] if left != right else []
    if re.search(r"\.eh_frame\.", line):
        return ["sections named .eh_frame.X are allocated here alone"] if left != right else []
    if name == "as" and re.search(r"\.eh_frame", line):
        return ["as allocates .eh_frame only where flags say so"] if left != right else []
    causes = [
        *section_causes(name, left, right),
        *symbol_causes(name, left, right),
        *reloc_causes(name, left, right),
    ]
    return sorted(set(causes))


def section_causes(name, left, right):
    """Section by section: kind and flags have to be alike, and bytes but for what the linker overwrites."""
    if [s[:3] for s in left["sections"]] != [s[:3] for s in right["sections"]]:
        return ["unknown"]
    causes = []
    for mine, theirs in zip(left["sections"], right["sections"]):
        if mine[3] != theirs[3]:
            begins = mine[0].startswith(".text.") and (mine[3], theirs[3]) == (4, 1)
            causes.append("text sections but .text begin with alignment 4 here alone" if begins else "unknown")
        ours_data, their_data = (masked(s, left["relocations"]) for s in (mine, theirs))
        filled = name == "as" and mine[2] & EXECUTABLE and mine[4] < theirs[4] == -(-mine[4] // mine[3]) * mine[3]
        if filled:
            causes.append("as fills executable sections up to their alignment")
        if mine[4] != theirs[4] and not filled or their_data[: len(ours_data)] != ours_data:
            causes.append("unknown")
        elif theirs[5][: len(mine[5])] != mine[5]:
            causes.append("what the linker overwrites is 0 here alone")
    return causes


def symbol_causes(name, left, right):
    mine, theirs = Counter(left["symbols"]), Counter(right["symbols"])
    wanted = {target[0] for _, _, _, target in left["relocations"]}
    missing, more = mine - theirs, theirs - mine
    if not missing and not more:
        return []
    if name == "as" and not more and all(s[3] == "undef" and s[0] not in wanted for s in missing):
        return ["as leaves out undefined symbols that nothing refers to"]
    return ["unknown"]


def reloc_causes(name, left, right):
    mine, theirs = Counter(left["relocations"]), Counter(right["relocations"])
    causes = []
    if name == "llvm-mc":
        called = Counter({(s, at, CALL_PLT if kind == CALL else kind, t): n for (s, at, kind, t), n in theirs.items()})
        causes += ["llvm-mc has CALL for CALL_PLT"] if called != theirs else []
        theirs = called
    missing, more = mine - theirs, theirs - mine
    if any(not (name == "llvm-mc" and r[2] in (CALL_PLT, PCREL_HI20) and r[3][0] == r[0]) for r in missing):
        return [*causes, "unknown"]
    causes += ["llvm-mc fills in calls and %pcrel_hi of local labels"] if missing else []
    if any(not (name == "as" and r[2] in (BRANCH, JAL) and r[3][0] == r[0]) for r in more):
        return [*causes, "unknown"]
    return causes + (["as keeps the relocations of branches that it fills in"] if more else [])


if __name__ == "__main__":
    sys.exit(main())
