#!/usr/bin/env python3
"""Links and runs programs of many objects by ORC and by ld.lld, and says how long each took.

    tools/many_objects.py ORC [--sizes N,..] [--only SHAPE] [--runs N] [--keep FOLDER]

The objects are written here, without an assembler. Shapes:

    net     objects of 50 functions and 30 KB each; each function calls the next one, the last that of the next
            object, and has calls of three functions of other objects that aren't reached
    chain   one function an object, which calls that of the next
    ring    the same, and the last calls the first: three times round
    star    a first object that calls one function of each other
    wide    two objects of as many functions, each of which has a call of its own object and one of the other

    many    10,000 objects of one function, which are more than a command line may have

Each but the last is made of 100 and of 1,000 objects (a command line has at most 1,024) or functions, and run with 0, 1, 4 and 16
workers, and by a script of 1, 4 and 16 clients, which each look main up and run it, with 4 workers; ld.lld links
the same files, with one thread, and qemu-riscv64 runs what it made. Times are the least of three runs, in
processor and wall seconds, and how often that of the fewest objects goes into that of the most is said at the end of a
row. Output and exit status are compared with what the programs are made to answer; the exit status is 1 where one
differs. What isn't installed is passed over."""
import os
import pathlib
import random
import shutil
import struct
import subprocess
import sys
import tempfile
import time

from tool_words import Parser, built

FUNCTIONS, OBJECT_BYTES, REACHED = 50, 30_000, 3
WORKERS = (0, 1, 4, 16)
CLIENTS = (1, 4, 16)
ROUNDS = 3
TEXT = b"ok\n"
FUEL = 1 << 40
# R_RISCV_CALL_PLT
CALL = 19
ZERO, RA, SP, T0, T1, S0, A0, A1, A2, A7 = 0, 1, 2, 5, 6, 8, 10, 11, 12, 17
ECALL = 0x73


def addi(rd, rs, value):
    return (value & 0xFFF) << 20 | rs << 15 | rd << 7 | 0x13


def lui(rd, value):
    return (value & 0xFFFFF) << 12 | rd << 7 | 0x37


def sw(rs, offset, base):
    return (offset >> 5 & 0x7F) << 25 | rs << 20 | base << 15 | 2 << 12 | (offset & 31) << 7 | 0x23


def sd(rs, offset, base):
    return sw(rs, offset, base) | 1 << 12


def ld(rd, offset, base):
    return (offset & 0xFFF) << 20 | base << 15 | 3 << 12 | rd << 7 | 0x03


def jump(distance):
    """j, forward."""
    return (distance >> 1 & 0x3FF) << 21 | (distance >> 11 & 1) << 20 | (distance >> 12 & 0xFF) << 12 | 0x6F


def branch_if_zero(rs, distance):
    """beq rs, zero, forward."""
    return (distance >> 5 & 0x3F) << 25 | rs << 15 | (distance >> 1 & 15) << 8 | (distance >> 11 & 1) << 7 | 0x63


def call(link, scratch):
    """auipc and jalr, which a relocation fills in."""
    return [scratch << 7 | 0x17, scratch << 15 | link << 7 | 0x67]


RETURN = ZERO << 7 | RA << 15 | 0x67


class Text:
    """The code of an object in the making: words, the symbols that it defines, and its calls by name."""

    def __init__(self):
        self.words, self.symbols, self.calls = [], {}, []

    def begin(self, name):
        self.symbols[name] = 4 * len(self.words)

    def put(self, *words):
        self.words += words

    def call(self, name):
        self.calls.append((4 * len(self.words), name))
        self.put(*call(RA, RA))

    def tail(self, name):
        self.calls.append((4 * len(self.words), name))
        self.put(*call(ZERO, T1))

    def file(self):
        """The relocatable file (System V gABI, RISC-V ELF psABI)."""
        names = list(self.symbols) + sorted({it for _, it in self.calls} - set(self.symbols))
        number = {name: k + 1 for k, name in enumerate(names)}
        strings, symbols = bytearray(b"\0"), bytearray(24)
        for name in names:
            section = 1 if name in self.symbols else 0
            symbols += struct.pack("<IBBHQQ", len(strings), 1 << 4, 0, section, self.symbols.get(name, 0), 0)
            strings += name.encode() + b"\0"
        relocations = b"".join(struct.pack("<QQq", at, number[name] << 32 | CALL, 0) for at, name in self.calls)
        text = struct.pack(f"<{len(self.words)}I", *self.words)
        section_names = b"\0.text\0.rela.text\0.symtab\0.strtab\0"
        parts = [  # name, type, flags, bytes, link, info, alignment, size of an entry
            (1, 1, 6, text, 0, 0, 4, 0), (7, 4, 0x40, relocations, 3, 1, 8, 24), (18, 2, 0, bytes(symbols), 4, 1, 8, 24),
            (26, 3, 0, bytes(strings), 0, 0, 1, 0), (0, 3, 0, section_names, 0, 0, 1, 0),
        ]
        data, rows = bytearray(64), [bytes(64)]
        for name, kind, flags, content, link, info, align, entry in parts:
            data += bytes(-len(data) % 8)
            rows.append(struct.pack("<IIQQQQIIQQ", name, kind, flags, 0, len(data), len(content), link, info, align, entry))
            data += content
        data += bytes(-len(data) % 8)
        data[:64] = struct.pack("<4sBBB9xHHIQQQIHHHHHH", b"\x7fELF", 2, 1, 1, 1, 243, 1, 0, 0, len(data), 0, 64, 0, 0, 64, len(rows), 5)
        return bytes(data + b"".join(rows))


def main_of(text, first, argument=0):
    """`main` calls the first function with a count of 0 and an argument, writes a line, and returns the count."""
    text.begin("main")
    number = int.from_bytes(TEXT, "little")
    text.put(addi(SP, SP, -32), sd(RA, 0, SP), sd(S0, 8, SP))
    text.put(lui(A1, argument + 0x800 >> 12), addi(A1, A1, argument), addi(A0, ZERO, 0))
    text.call(first)
    text.put(addi(S0, A0, 0), lui(T0, number + 0x800 >> 12), addi(T0, T0, number), sw(T0, 16, SP))
    text.put(addi(A0, ZERO, 1), addi(A1, SP, 16), addi(A2, ZERO, len(TEXT)), addi(A7, ZERO, 64), ECALL)
    text.put(addi(A0, S0, 0), ld(RA, 0, SP), ld(S0, 8, SP), addi(SP, SP, 32), RETURN)


def net(count):
    """The objects, and the count that main returns."""
    chance, objects = random.Random(count), []
    for k in range(count):
        text = Text()
        if k == 0:
            main_of(text, "f0_0")
        for j in range(FUNCTIONS):
            begun = len(text.words)
            text.begin(f"f{k}_{j}")
            text.put(addi(A0, A0, 1), jump(4 + 8 * REACHED))
            for _ in range(REACHED):
                text.call(f"f{chance.randrange(count)}_{chance.randrange(FUNCTIONS)}")
            if j + 1 < FUNCTIONS:
                text.tail(f"f{k}_{j + 1}")
            elif k + 1 < count:
                text.tail(f"f{k + 1}_0")
            else:
                text.put(RETURN)
            while len(text.words) - begun < OBJECT_BYTES // FUNCTIONS // 4 - 47:
                text.put(addi(ZERO, ZERO, 0))
        objects.append(text.file())
    return objects, count * FUNCTIONS


def chain(count):
    objects = []
    for k in range(count):
        text = Text()
        if k == 0:
            main_of(text, "f0")
        text.begin(f"f{k}")
        text.put(addi(A0, A0, 1))
        if k + 1 < count:
            text.tail(f"f{k + 1}")
        else:
            text.put(RETURN)
        objects.append(text.file())
    return objects, count


def ring(count):
    objects = []
    for k in range(count):
        text = Text()
        if k == 0:
            main_of(text, "f0", ROUNDS * count)
        text.begin(f"f{k}")
        text.put(branch_if_zero(A1, 20), addi(A1, A1, -1), addi(A0, A0, 1))
        text.tail(f"f{(k + 1) % count}")
        text.put(RETURN)
        objects.append(text.file())
    return objects, ROUNDS * count


def star(count):
    text = Text()
    main_of(text, "centre")
    text.begin("centre")
    text.put(addi(SP, SP, -16), sd(RA, 0, SP))
    for k in range(1, count):
        text.call(f"f{k}")
    text.put(ld(RA, 0, SP), addi(SP, SP, 16), RETURN)
    objects = [text.file()]
    for k in range(1, count):
        text = Text()
        text.begin(f"f{k}")
        text.put(addi(A0, A0, 1), RETURN)
        objects.append(text.file())
    return objects, count - 1


def wide(count):
    objects = []
    for k in range(2):
        text = Text()
        if k == 0:
            main_of(text, "f0_0")
        for j in range(count):
            text.begin(f"f{k}_{j}")
            text.put(addi(A0, A0, 1), jump(20))
            text.call(f"f{k}_{(j + 1) % count}")
            text.call(f"f{1 - k}_{j}")
            if k == 0:
                text.tail(f"f1_{j}")
            elif j + 1 < count:
                text.tail(f"f0_{j + 1}")
            else:
                text.put(RETURN)
        objects.append(text.file())
    return objects, 2 * count


SHAPES = {"net": net, "chain": chain, "ring": ring, "star": star, "wide": wide}


def start():
    """What calls main where there is a real host."""
    text = Text()
    text.begin("_start")
    text.call("main")
    text.put(addi(A7, ZERO, 93), ECALL)
    return text.file()


def measured(command, folder, runs, source=os.devnull):
    """What a command wrote that reads a file, its exit status, and the least of its processor and wall times."""
    processor = wall = float("inf")
    for _ in range(runs):
        with open(folder / source, "rb") as text, open(folder / "out", "wb") as out, open(folder / "log", "wb") as log:
            began = time.monotonic()
            child = subprocess.Popen([str(it) for it in command], cwd=folder, stdin=text, stdout=out, stderr=log)
            _, status, used = os.wait4(child.pid, 0)
            wall = min(wall, time.monotonic() - began)
            child.returncode = os.waitstatus_to_exitcode(status)
        processor = min(processor, used.ru_utime + used.ru_stime)
    return (folder / "out").read_bytes(), child.returncode, processor, wall


class Table:
    """The times of each tool at each size, by shape."""

    def __init__(self):
        self.unlike, self.times = 0, {}

    def add(self, shape, tool, count, processor, wall):
        self.times.setdefault((shape, tool), []).append((count, processor))
        first_count, first = self.times[shape, tool][0]
        growth = f", {processor / max(first, 1e-3):.1f} times that of {first_count}" if count != first_count else ""
        print(f"{shape:6} {count:5}  {tool:18} {processor:8.3f} s processor {wall:8.3f} s wall{growth}", flush=True)

    def compare(self, what, wanted, found):
        if wanted != found:
            self.unlike += 1
            print(f"{what}: status {found[1]}, output {found[0][:60]!r}; wanted {wanted[1]} and {wanted[0]!r}")


def script(clients, names):
    """Each client looks main up and runs it."""
    files = "".join(f"object main all {name}\n" for name in names)
    return "dylib main\ntracker main all\n" + files + f"client\nlookup ready main:all main\nrun main {1 << 30}\n" * clients


def try_session(table, orc, folder, shape, count, runs, clients, names, answer):
    (folder / "script").write_text(script(clients, names))
    out, status, processor, wall = measured([orc, "session", "--workers", 4], folder, runs, "script")
    ends = [line for line in out.splitlines() if line.startswith(b"c") and b" exited " in line]
    wanted = [f"c{client} l2 exited {answer} {TEXT.hex()}".encode() for client in range(1, clients + 1)]
    table.compare(f"{shape}, {count}, {clients} clients", (wanted, 0), (ends, status))
    table.add(shape, f"orc, {clients} clients", count, processor, wall)


def try_shape(table, orc, folder, shape, count, runs):
    objects, answer = SHAPES[shape](count)
    names = [f"{k}.o" for k in range(len(objects))]
    for name, content in zip(names, objects):
        (folder / name).write_bytes(content)
    (folder / "start.o").write_bytes(start())
    print(f"{shape:6} {count:5}  {len(objects)} objects, {sum(map(len, objects)) / 1e6:.1f} MB")
    wanted = TEXT, answer % 256
    for workers in WORKERS:
        words = [orc, "run", *names, "--fuel", FUEL, "--workers", workers]
        out, status, processor, wall = measured(words, folder, runs)
        table.compare(f"{shape}, {count}, {workers} workers", wanted, (out, status))
        end = (folder / "log").read_bytes().splitlines()[-1:]
        table.compare(f"{shape}, {count}, {workers} workers, end line", ([f"end exited {answer}".encode()], 0), (end, 0))
        table.add(shape, f"orc, {workers} workers", count, processor, wall)
    for clients in CLIENTS:
        try_session(table, orc, folder, shape, count, runs, clients, names, answer)
    if not shutil.which("ld.lld"):
        print("skipped: ld.lld, which isn't installed")
        return
    _, status, processor, wall = measured(["ld.lld", "--threads=1", "-static", "start.o", *names, "-o", "linked"], folder, runs)
    table.compare(f"{shape}, {count}, ld.lld", (b"", 0), (b"", status))
    table.add(shape, "ld.lld", count, processor, wall)
    if not shutil.which("qemu-riscv64"):
        print("skipped: qemu-riscv64, which isn't installed")
        return
    out, status, processor, wall = measured(["qemu-riscv64", "linked"], folder, runs)
    table.compare(f"{shape}, {count}, qemu", wanted, (out, status))
    table.add(shape, "(run by qemu)", count, processor, wall)


# more than a command line may have, and what is answered then
MANY, TOO_MANY = 10_000, (100, b"end usage bad words\n")


def try_many(table, orc, folder, runs):
    """How long a command takes to be refused that names too many files."""
    names = [f"many{k}.o" for k in range(MANY)]
    for name, content in zip(names, chain(MANY)[0]):
        (folder / name).write_bytes(content)
    _, status, processor, wall = measured([orc, "run", *names], folder, runs)
    table.compare("many", (TOO_MANY[1], TOO_MANY[0]), ((folder / "log").read_bytes(), status))
    table.add("many", "orc, refused", MANY, processor, wall)


def main():
    parser = Parser(__doc__)
    parser.add_argument("orc", metavar="ORC", type=lambda it: pathlib.Path(built(it)))
    parser.add_argument("--sizes", default="100,1000", metavar="N,..")
    parser.add_argument("--only", choices=[*SHAPES, "many"])
    parser.add_argument("--runs", default=3, type=int, metavar="N")
    parser.add_argument("--keep", type=pathlib.Path, metavar="FOLDER")
    arguments = parser.parse_args()
    table, sizes = Table(), [int(size) for size in arguments.sizes.split(",")]
    tries = [(shape, count) for shape in SHAPES for count in sizes] + [("many", MANY)]
    for shape, count in tries:
        if arguments.only not in (None, shape):
            continue
        with tempfile.TemporaryDirectory(prefix="orc-many-") as made:
            folder = (arguments.keep / f"{shape}-{count}" if arguments.keep else pathlib.Path(made)).resolve()
            folder.mkdir(parents=True, exist_ok=True)
            if shape == "many":
                try_many(table, arguments.orc.resolve(), folder, arguments.runs)
            else:
                try_shape(table, arguments.orc.resolve(), folder, shape, count, arguments.runs)
    print(f"{table.unlike} unlike" if table.unlike else "all alike")
    return 1 if table.unlike else 0


if __name__ == "__main__":
    sys.exit(main())
