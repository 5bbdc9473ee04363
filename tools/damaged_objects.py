#!/usr/bin/env python3
"""Damages copies of objects, and compares the reader's answers with those of `elf_checks`.

    tools/damaged_objects.py DUMP FOLDER [--count COUNT] [--seed SEED] [--jobs JOBS]

DUMP is the built program of the crate elf_dump. Each copy has one to three changes: a byte, a bit, a field set to
an extreme, a cut, or two sections' headers exchanged. Names the copies that are answered otherwise, at which the
program doesn't end as it should, or for which it has more memory than 64 MiB and four times the file; ends with 1
where there are any.
"""
import multiprocessing
import os
import random
import subprocess
import sys
import tempfile
import time
from collections import Counter
from pathlib import Path

from compare_objects import lines_of
from elf_checks import answer, number
from tool_words import Parser, built

# how many copies one run of the program reads, and the memory that it may have beside four times the file
BATCH = 250
ROOM = 64 << 20

EXTREMES = [0, 1, 2, 3, 4, 7, 8, 9, 16, 17, 23, 24, 25, 64, 4095, 4096, 4097, 0xFFF1, 0xFFF2, 0xFFFF]
WIDE = [1 << 31, (1 << 32) - 1, 1 << 62, (1 << 63) - 1, 1 << 63, (1 << 64) - 1, (1 << 64) - 64]
HEADER = [(0, 4), (4, 1), (5, 1), (16, 2), (18, 2), (40, 8), (48, 4), (58, 2), (60, 2), (62, 2)]
SECTION = [(0, 4), (4, 4), (8, 8), (24, 8), (32, 8), (40, 4), (44, 4), (48, 8), (56, 8)]
SYMBOL = [(0, 4), (4, 1), (5, 1), (6, 2), (8, 8), (16, 8)]
RELOCATION = [(0, 8), (8, 4), (12, 4), (16, 8)]


def put(data, at, width, value):
    if at + width <= len(data):
        data[at : at + width] = (value % (1 << 8 * width)).to_bytes(width, "little")


def set_field(data, chance, at, fields):
    place, width = chance.choice(fields)
    near = number(data, at + place, width) + chance.choice([-1, 1, 24, 64])
    value = chance.choice([chance.choice(EXTREMES), chance.choice(WIDE), len(data), near])
    put(data, at + place, width, value)


def damage(data, chance):
    shoff, count = number(data, 40, 8), number(data, 60, 2)
    kind = chance.randrange(8)
    if kind == 0:
        put(data, chance.randrange(len(data)), 1, chance.randrange(256))
    elif kind == 1:
        at = chance.randrange(len(data))
        data[at] ^= 1 << chance.randrange(8)
    elif kind == 2:
        del data[chance.randrange(len(data)) :]
    elif kind == 3:
        set_field(data, chance, 0, HEADER)
    elif kind == 4 and count > 2:
        one, other = (shoff + 64 * chance.randrange(1, count) for _ in range(2))
        if max(one, other) + 64 <= len(data):
            data[one : one + 64], data[other : other + 64] = data[other : other + 64], data[one : one + 64]
    elif kind in (5, 6) and count:
        set_field(data, chance, shoff + 64 * chance.randrange(count), SECTION)
    else:
        for k in range(count):
            at = shoff + 64 * k
            size = number(data, at + 32, 8)
            fields = {2: SYMBOL, 4: RELOCATION}.get(number(data, at + 4, 4))
            if fields and size >= 24 and chance.random() < 0.5:
                set_field(data, chance, number(data, at + 24, 8) + 24 * chance.randrange(size // 24), fields)


def copies(sources, chance, count):
    """Damaged copies, each with one to three changes."""
    made = []
    for _ in range(count):
        data = bytearray(chance.choice(sources))
        for _ in range(chance.choice([1, 1, 1, 2, 3])):
            if len(data) > 64:
                damage(data, chance)
        made.append(bytes(data))
    return made


def run(dump, paths):
    """What the program prints for each file, its status, and the most memory that it had."""
    with tempfile.TemporaryFile() as out:
        child = subprocess.Popen([dump, *paths], stdout=out, stderr=subprocess.DEVNULL)
        _, status, used = os.wait4(child.pid, 0)
        child.returncode = os.waitstatus_to_exitcode(status)
        out.seek(0)
        return lines_of(out.read().decode()), child.returncode, used.ru_maxrss << 10


def check(task):
    """One batch of copies: how often each kind of answer came, and what is wrong, as a list of texts."""
    dump, sources, seed, batch, count = task
    kinds, wrong, most = Counter(), [], 0
    made = copies(sources, random.Random(f"{seed} {batch}"), count)
    with tempfile.TemporaryDirectory() as place:
        paths = [str(Path(place, str(k))) for k in range(count)]
        for path, data in zip(paths, made):
            Path(path).write_bytes(data)
        got, status, most = run(dump, paths)
        limit = ROOM + 4 * max(map(len, made))
        if status or most > limit:
            for path, data in zip(paths, made):
                lines, status, used = run(dump, [path])
                got.update(lines)
                if status or used > ROOM + 4 * len(data):
                    wrong.append(keep(seed, batch, path, data) + f": ends with {status}, {used >> 10} KiB of memory")
        for path, data in zip(paths, made):
            want = answer(data)
            kinds[" ".join(want[0].split()[:2]) if want[0].startswith("refused") else "read"] += 1
            if got.get(path) != want:
                ours = (got.get(path) or ["nothing"])[0]
                wrong.append(keep(seed, batch, path, data) + f": ours {ours[:100]}, theirs {want[0][:100]}")
    return kinds, wrong, most


def keep(seed, batch, path, data):
    kept = Path(tempfile.gettempdir(), f"differs-{seed}-{batch}-{Path(path).name}.o")
    kept.write_bytes(data)
    return str(kept)


def main():
    words = Parser(__doc__)
    words.add_argument("dump", metavar="DUMP", type=built)
    words.add_argument("folder", metavar="FOLDER")
    words.add_argument("--count", type=int, default=10000)
    words.add_argument("--seed", type=int, default=1)
    words.add_argument("--jobs", type=int, default=os.cpu_count())
    asked = words.parse_args()
    sources = [path.read_bytes() for path in sorted(Path(asked.folder).glob("*.o"))]
    tasks = [
        (asked.dump, sources, asked.seed, batch, min(BATCH, asked.count - first))
        for batch, first in enumerate(range(0, asked.count, BATCH))
    ]
    kinds, bad, most = Counter(), 0, 0
    began = time.monotonic()
    with multiprocessing.Pool(asked.jobs) as pool:
        for found, wrong, used in pool.imap_unordered(check, tasks):
            kinds += found
            bad += len(wrong)
            most = max(most, used)
            for text in wrong:
                print(text, flush=True)
    took = time.monotonic() - began
    for kind, found in sorted(kinds.items()):
        print(f"{found:6} {kind}")
    print(f"the largest object has {max(map(len, sources)) >> 10} KiB; the reader had {most >> 10} KiB of memory at most")
    print(f"{asked.count} copies in {took:.1f} s, {bad} answered otherwise, not at all, or with too much memory")
    return 1 if bad or sum(kinds.values()) != asked.count else 0


if __name__ == "__main__":
    sys.exit(main())
