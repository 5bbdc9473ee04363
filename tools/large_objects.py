#!/usr/bin/env python3
"""Writes large objects and measures how long the reader takes for each.

    tools/large_objects.py DUMP [ORC]

Each has 16 MiB or less: many symbols and relocations, many sections, names and ranges that are made to cost
much, and long names that many sections or symbols share, these beside GNU readelf where it is installed. With ORC,
the program, it is also measured how long objects with as many symbols and relocations as an object may have take to
be linked and to do one instruction, and how long one takes whose symbols nearly all lie in another object, which it
refers to by their addresses, or calls; and as long of half as many. DUMP may be - then. Beside each is ld.lld with
one thread on the same files, where it is installed. Times are the least of three runs, in processor and in wall
seconds, and memory is the most that a run had.
"""
import random
import shutil
import struct
import subprocess
import sys
import tempfile
from pathlib import Path

from tool_words import arguments, built

MIB = 1 << 20


def build(sections):
    """An object of these sections: (type, flags, data, link, info, align, entsize, name, size)."""
    data = bytearray(64)
    rows = [bytes(64)]
    for kind, flags, content, link, info, align, entsize, name, size in sections:
        data += bytes(-len(data) % 8)
        rows.append(struct.pack("<IIQQQQIIQQ", name, kind, flags, 0, len(data), size, link, info, align, entsize))
        data += content
    data += bytes(-len(data) % 8)
    header = struct.pack(
        "<4sBBB9xHHIQQQIHHHHHH", b"\x7fELF", 2, 1, 1, 1, 243, 1, 0, 0, len(data), 0, 64, 0, 0, 64, len(rows), 1
    )
    data[:64] = header
    return bytes(data + b"".join(rows))


def section(kind, content, flags=0, link=0, info=0, align=1, entsize=0, name=0, size=None):
    return (kind, flags, content, link, info, align, entsize, name, len(content) if size is None else size)


def symbol(name, bind, shndx, value=0):
    return struct.pack("<IBBHQQ", name, bind << 4, 0, shndx, value, 0)


def many_relocations(symbols=65536, relocations=262144):
    """As many symbols and relocations as an object may have, the last relocation of a symbol that isn't there."""
    names = b"\0" + b"".join(b"s%d\0" % j for j in range(symbols))
    places, at = [], 1
    for j in range(symbols):
        places.append(at)
        at += len(b"s%d\0" % j)
    table = bytes(24) + b"".join(symbol(places[j], 1, 2, 4 * j) for j in range(1, symbols))
    relocs = b"".join(struct.pack("<QQq", 4 * k, (k % symbols) << 32 | 1, 0) for k in range(relocations))
    text = bytes(max(0, 16 * MIB - len(names) - len(table) - len(relocs) - 64 * 8))
    fine = [
        section(3, b"\0.text\0"), section(1, text, flags=6, name=1), section(4, relocs, link=4, info=2, entsize=24),
        section(2, table, link=5, info=1, entsize=24), section(3, names),
    ]
    bad = relocs[:-12] + struct.pack("<Iq", symbols, 0)
    return build(fine), build([*fine[:2], section(4, bad, link=4, info=2, entsize=24), *fine[3:]])


def many_pairs(symbols=65536):
    """As many symbols and relocations as an object may have, the relocations in pairs of an upper and a lower part."""
    names = b"\0" + b"".join(b"s%d\0" % j for j in range(1, symbols))
    places, at = [0], 1
    for j in range(1, symbols):
        places.append(at)
        at += len(b"s%d\0" % j)
    table = bytes(24) + b"".join(symbol(places[j], 1, 2, 8 * j) for j in range(1, symbols))
    relocs = b"".join(
        struct.pack("<QQqQQq", 8 * k, j << 32 | 23, 0, 8 * k + 4, j << 32 | 24, 0)
        for k, j in [(j + half, j) for half in (0, symbols) for j in range(1, symbols)]
    )
    text = bytes(16 * MIB - len(names) - len(table) - len(relocs) - 64 * 8)
    return build([
        section(3, b"\0.text\0"), section(1, text, flags=6, align=4, name=1),
        section(4, relocs, link=4, info=2, entsize=24), section(2, table, link=5, info=1, entsize=24), section(3, names),
    ])


def name_table(names):
    """A string table of these names, and the place of each."""
    places, at = [], 1
    for name in names:
        places.append(at)
        at += len(name) + 1
    return b"\0" + b"".join(name + b"\0" for name in names), places


def many_externals(count, kind, width):
    """An object that refers by so many relocations of a kind to as many symbols of another object, and that one."""
    others = [b"x%d" % j for j in range(count)]
    names, places = name_table([b"s1", *others])
    table = bytes(24) + symbol(places[0], 1, 2) + b"".join(symbol(at, 1, 0) for at in places[1:])
    relocs = b"".join(struct.pack("<QQq", width * (j + 1), (j + 2) << 32 | kind, 0) for j in range(count))
    text = struct.pack("<II", 0x00000513, 0x00008067) + bytes(width * (count + 1) - 8)
    refers = build([
        section(3, b"\0.text\0"), section(1, text, flags=6, align=8, name=1),
        section(4, relocs, link=4, info=2, entsize=24), section(2, table, link=5, info=1, entsize=24), section(3, names),
    ])
    names, places = name_table(others)
    table = bytes(24) + b"".join(symbol(at, 1, 2, 4 * j) for j, at in enumerate(places))
    return [refers, build([
        section(3, b"\0.text\0"), section(1, bytes(4 * count), flags=6, align=8, name=1),
        section(2, table, link=4, info=1, entsize=24), section(3, names),
    ])]


def many_sections():
    """65,534 kept sections, each with the same long name, the last of which overlaps the first."""
    count = 65500
    names = b"\0" + b"n" * (8 * MIB) + b"\0"
    rows = [section(3, names)] + [section(1, bytes(8), flags=2, name=8 * MIB - 8) for _ in range(count)]
    data = bytearray(build(rows))
    shoff = struct.unpack_from("<Q", data, 40)[0]
    last = shoff + 64 * (count + 1)
    data[last + 24 : last + 32] = data[shoff + 64 * 2 + 24 : shoff + 64 * 2 + 32]
    return bytes(data)


def long_names():
    """65,535 non-local symbols with different names of up to 4,096 bytes that lie over each other."""
    chance = random.Random(1)
    body = b"".join(bytes(chance.randrange(0x21, 0x7F) for _ in range(4096)) + b"\0" for _ in range(17))
    places = [4097 * (k // 4096) + k % 4096 for k in range(65535)]
    table = bytes(24) + b"".join(symbol(at, 1, 2) for at in places) + symbol(0, 3, 2)
    return build([
        section(3, b"\0"), section(1, bytes(8), flags=6), section(2, table, link=4, entsize=24), section(3, body),
    ])


def shared_section_name(count=40):
    """Sections that share one name of 14 MiB."""
    names = b"\0" + b"n" * (14 * MIB) + b"\0"
    return build([section(3, names)] + [section(1, bytes(8), flags=2, name=1) for _ in range(count)])


def shared_symbol_name(count=140000):
    """Local symbols that share one name of 4,096 bytes; they are more than an object may have that is linked."""
    table = bytes(24) + symbol(1, 0, 2) * count
    return build([
        section(3, b"\0"), section(1, bytes(8), flags=6), section(2, table, link=4, info=count + 1, entsize=24),
        section(3, b"\0" + b"n" * 4096 + b"\0"),
    ])


def no_zero_byte():
    """65,535 local symbols whose names have no end."""
    table = bytes(24) + b"".join(symbol(0, 0, 2) for _ in range(65535))
    return build([
        section(3, b"\0"), section(1, bytes(8), flags=6), section(2, table, link=4, entsize=24),
        section(3, b"n" * (14 * MIB)),
    ])


# A small process that runs a command, and writes its processor time, its time on the clock and its memory into the file
# of its first word: a process that is begun by a large one counts the memory of that as its own.
MEASURED = """
import os, subprocess, sys, time
began = time.monotonic()
child = subprocess.Popen(sys.argv[2:])
_, _, used = os.wait4(child.pid, 0)
wall = time.monotonic() - began
with open(sys.argv[1], "w") as report:
    print(used.ru_utime + used.ru_stime, wall, used.ru_maxrss >> 10, file=report)
"""


def begun(command, report, **how):
    """The command, begun so that its times and memory will stand in the report."""
    words = [sys.executable, "-I", "-S", "-c", MEASURED, report, *command]
    return subprocess.Popen([str(word) for word in words], **how)


def told(report):
    """The processor time, the time on the clock and the most memory of a command that has ended."""
    spent, wall, memory = Path(report).read_text().split()
    return float(spent), float(wall), int(memory)


def reading(command):
    """The processor time and the most memory of a command that reads an object, and the second line that it prints."""
    with tempfile.TemporaryDirectory() as place:
        report = Path(place, "report")
        child = begun(command, report, stdout=subprocess.PIPE, stderr=subprocess.DEVNULL)
        line = b""
        for _ in range(2):
            line = child.stdout.readline(64)
            rest = line
            while rest and not rest.endswith(b"\n"):
                rest = child.stdout.readline(MIB)
        while child.stdout.read(MIB):
            pass
        child.wait()
        child.stdout.close()
        spent, _, memory = told(report)
        return spent, memory, line[:40].decode().rstrip()


def measure(dump, name, data):
    with tempfile.TemporaryDirectory() as place:
        path = Path(place, "large.o")
        path.write_bytes(data)
        spent, memory, line = min(reading([dump, path]) for _ in range(3))
        print(f"{name:34} {len(data) / MIB:5.1f} MiB  {spent:6.3f} s  {memory:5} MiB  {line}")


def measure_shared(dump, name, data):
    """The same beside GNU readelf, where it is installed; most of both times is that of printing the names."""
    measure(dump, name, data)
    if shutil.which("readelf"):
        with tempfile.TemporaryDirectory() as place:
            path = Path(place, "large.o")
            path.write_bytes(data)
            spent, memory, _ = reading(["readelf", "--wide", "--section-headers", "--symbols", path])
            print(f"{'  by readelf':34} {'':9}  {spent:6.3f} s  {memory:5} MiB")


def least(command, place):
    """The least processor and wall times of three runs of a command, its memory in MiB, and the last line of its log."""
    least_spent = least_wall = least_memory = float("inf")
    report = Path(place, "report")
    for _ in range(3):
        with open(Path(place, "log"), "wb") as log:
            begun(command, report, cwd=place, stdout=subprocess.DEVNULL, stderr=log).wait()
        spent, wall, memory = told(report)
        least_spent, least_wall, least_memory = min(least_spent, spent), min(least_wall, wall), min(least_memory, memory)
    return least_spent, least_wall, least_memory, (Path(place, "log").read_bytes().splitlines() or [b""])[-1].decode()


def measure_run(orc, name, files):
    """The times of a run of these files, and of their static link; the processor time of the run."""
    with tempfile.TemporaryDirectory() as place:
        words = [f"{k}.o" for k in range(len(files))]
        for word, data in zip(words, files):
            Path(place, word).write_bytes(data)
        size = sum(map(len, files)) / MIB
        spent, wall, memory, line = least([orc, "run", *words, "--entry", "s1", "--fuel", "1"], place)
        print(f"{name:34} {size:5.1f} MiB  {spent:6.3f} s processor, {wall:6.3f} s wall  {memory:5} MiB  {line}")
        if shutil.which("ld.lld"):
            linked, wall, memory, line = least(["ld.lld", "--threads=1", "-static", "-e", "s1", *words, "-o", "linked"], place)
            print(f"{'  by ld.lld':34} {'':9}  {linked:6.3f} s processor, {wall:6.3f} s wall  {memory:5} MiB  {line}")
        return spent


def measure_externals(orc, name, kind, width):
    """Nearly as many externals as an object may have, and half as many."""
    most = 65534
    half = measure_run(orc, f"{most // 2} {name}", many_externals(most // 2, kind, width))
    whole = measure_run(orc, f"{most} {name}", many_externals(most, kind, width))
    print(f"  twice as many in {whole / max(half, 1e-3):.2f} times the time")


def measure_runs(orc, fine):
    measure_run(orc, "symbols, relocations, run", [fine])
    measure_run(orc, "symbols, pairs, run", [many_pairs()])
    # objects, though none that can be run: no symbol is s1, and of symbols one has too many (g6)
    measure_run(orc, "sections that share a name", [shared_section_name()])
    measure_run(orc, "symbols that share a name", [shared_symbol_name()])
    # R_RISCV_64, R_RISCV_CALL_PLT
    measure_externals(orc, "addresses of another object", 2, 8)
    measure_externals(orc, "calls of another object", 19, 8)


def main():
    dump, *orc = arguments(__doc__, 1, 2)
    dump, orc = dump if dump == "-" else built(dump), [built(it) for it in orc]
    fine, bad = many_relocations()
    if dump != "-":
        measure(dump, "an empty file", b"")
        measure(dump, "bytes that are no object", bytes(16 * MIB))
        measure(dump, "symbols, relocations, last is bad", bad)
        measure(dump, "symbols, relocations, printed", fine)
        measure(dump, "sections, the last overlaps", many_sections())
        measure(dump, "long names, the last symbol is bad", long_names())
        measure(dump, "names without end", no_zero_byte())
        measure_shared(dump, "sections that share a name", shared_section_name())
        measure_shared(dump, "symbols that share a name", shared_symbol_name())
    for it in orc:
        measure_runs(Path(it), fine)


if __name__ == "__main__":
    main()
