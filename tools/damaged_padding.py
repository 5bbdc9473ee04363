#!/usr/bin/env python3
"""Damages the relocations and symbols of objects whose padding is left to the linker, and compares the
graphs with those of `graph_checks`.

    tools/damaged_padding.py DUMP FOLDER [COUNT [SEED]]

DUMP is the built program of the crate graph_dump, FOLDER has objects with ALIGNs. Each copy has one to
three changes: a relocation's place, type or addend, a symbol's value, a section's alignment, or two
relocations exchanged. The first copies are the objects as they are. Names the copies that are answered
otherwise; ends with 1 where there are any.
"""
import random
import struct
import sys
import tempfile
from collections import Counter
from pathlib import Path

from compare_objects import answers
from elf_checks import number
from graph_checks import ALIGN, answer
from tool_words import arguments, built, integers

ADDENDS = [-1, -(1 << 63), 0, 1, 2, 3, 4, 6, 7, 8, 12, 14, 15, 16, 28, 60, 252, 4092, 4095, 4096, 1 << 40, (1 << 63) - 1]
KINDS = [0, 1, 2, 16, 17, 18, 19, 23, 24, 26, 33, 36, ALIGN, ALIGN, ALIGN, 51, 53, 60]


def tables(data, kind):
    """Where the entries of all tables of a type stand."""
    shoff, count = number(data, 40, 8), number(data, 60, 2)
    places = []
    for k in range(1, count):
        at = shoff + 64 * k
        if number(data, at + 4, 4) == kind:
            start = number(data, at + 24, 8)
            places += range(start, start + number(data, at + 32, 8), 24)
    return places


def damage(data, chance):
    entries = tables(data, 4)
    aligns = [at for at in entries if number(data, at + 8, 4) == ALIGN] or entries
    kind = chance.randrange(7)
    if kind == 0:
        struct.pack_into("<q", data, chance.choice(aligns) + 16, chance.choice(ADDENDS))
    elif kind == 1:
        at = chance.choice(aligns)
        struct.pack_into("<Q", data, at, (number(data, at, 8) + chance.choice([-8, -4, -2, -1, 1, 2, 4, 8])) % (1 << 64))
    elif kind == 2:
        near = number(data, chance.choice(aligns), 8)
        struct.pack_into("<Q", data, chance.choice(entries), (near + chance.randrange(-12, 20)) % (1 << 64))
    elif kind == 3:
        struct.pack_into("<I", data, chance.choice(entries) + 8, chance.choice(KINDS))
    elif kind == 4:
        near = number(data, chance.choice(aligns), 8)
        struct.pack_into("<Q", data, chance.choice(tables(data, 2)) + 8, (near + chance.randrange(-8, 24)) % (1 << 64))
    elif kind == 5:
        shoff, count = number(data, 40, 8), number(data, 60, 2)
        struct.pack_into("<Q", data, shoff + 64 * chance.randrange(1, count) + 48, 1 << chance.randrange(13))
    else:
        one, other = chance.choice(aligns), chance.choice(entries)
        data[one : one + 24], data[other : other + 24] = data[other : other + 24], data[one : one + 24]


def main():
    dump, folder, *numbers = arguments(__doc__, 2, 4)
    dump, (count, seed) = built(dump), integers(numbers, 10000, 1)
    chance = random.Random(seed)
    sources = [data for data in (path.read_bytes() for path in sorted(Path(folder).glob("*.o"))) if tables(data, 4)]
    kinds, bad = Counter(), 0
    with tempfile.TemporaryDirectory() as place:
        copies = {}
        for k in range(count):
            data = bytearray(sources[k] if k < len(sources) else chance.choice(sources))
            for _ in range(chance.choice([1, 1, 1, 2, 3]) if k >= len(sources) else 0):
                damage(data, chance)
            path = Path(place, str(k))
            path.write_bytes(data)
            copies[str(path)] = bytes(data)
        got = answers(dump, copies)
        for path, data in copies.items():
            want = answer(data)
            kinds[" ".join(want[0].split()[:2]) if want[0].startswith("refused") else "graph"] += 1
            if got[path] != want:
                bad += 1
                kept = Path(tempfile.gettempdir(), f"differs-{seed}-{Path(path).name}.o")
                kept.write_bytes(data)
                print(f"{kept}: ours {got[path][0][:100]}, theirs {want[0][:100]}")
    for kind, found in sorted(kinds.items()):
        print(f"{found:6} {kind}")
    print(f"{count} copies, {bad} answered otherwise")
    return 1 if bad else 0


if __name__ == "__main__":
    sys.exit(main())
