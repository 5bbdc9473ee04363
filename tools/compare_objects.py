#!/usr/bin/env python3
"""Compares what the reader says of each object of a folder with the account of `readelf`.

    tools/compare_objects.py DUMP FOLDER

DUMP is the built program of the crate elf_dump. Names what differs; ends with 1 where something does.
"""
import re
import subprocess
import sys
from pathlib import Path

from tool_words import arguments, built, installed

KINDS = {
    "PROGBITS": 1,
    "NOTE": 7,
    "NOBITS": 8,
    "INIT_ARRAY": 14,
    "FINI_ARRAY": 15,
    "PREINIT_ARRAY": 16,
}
BINDS = {"LOCAL": 0, "GLOBAL": 1, "WEAK": 2}
TYPES = {"NOTYPE": 0, "OBJECT": 1, "FUNC": 2, "SECTION": 3, "FILE": 4, "COMMON": 5, "TLS": 6}
VISIBILITIES = {"DEFAULT": 0, "INTERNAL": 1, "HIDDEN": 2, "PROTECTED": 3}
FLAGS = {
    "W": 1, "A": 2, "X": 4, "M": 0x10, "S": 0x20, "I": 0x40, "L": 0x80, "O": 0x100, "G": 0x200,
    "T": 0x400, "C": 0x800, "E": 1 << 31,
}
RELOCATION = re.compile(r"^R_RISCV_(\w+)$")


def readelf(flag, path):
    command = ["riscv64-linux-gnu-readelf", "--wide", flag, str(path)]
    return subprocess.run(command, check=True, capture_output=True, text=True).stdout.splitlines()


def sections(path):
    """The kept sections by number, with name, type, flags, alignment, size, and the place in the file."""
    rows = {}
    for line in readelf("--section-headers", path):
        match = re.match(r"^\s*\[\s*(\d+)\] (.*)$", line)
        if not match or int(match[1]) == 0:
            continue
        fields = match[2]
        name = fields.split(" ")[0]
        rest = fields[len(name) :].split()
        kind, _addr, offset, size, _entsize = rest[:5]
        flags, _link, _info, align = rest[5:] if len(rest) == 9 else ["", *rest[5:]]
        bits = sum(FLAGS[letter] for letter in flags)
        if bits & 2 and kind in KINDS:
            rows[int(match[1])] = (
                name, KINDS[kind], bits, max(1, int(align)), int(size, 16), int(offset, 16),
            )
    return rows


def relocations(path, kept):
    """The relocations of each kept section, by its name: place, info, addend."""
    rows, current = {}, None
    for line in readelf("--relocs", path):
        head = re.match(r"^Relocation section '\.rela(.*)' at offset", line)
        if head:
            current = rows.setdefault(head[1], [])
            continue
        fields = line.split()
        if current is not None and len(fields) >= 3 and re.fullmatch(r"[0-9a-f]{16}", fields[0]):
            addend = 0
            tail = re.search(r" ([+-]) ([0-9a-f]+)$", line)
            if tail:
                addend = int(tail[1] + tail[2], 16)
            elif len(fields) == 4:
                addend = int(fields[3], 16)
            addend -= 1 << 64 if addend >= 1 << 63 else 0
            info = int(fields[1], 16)
            current.append((int(fields[0], 16), info & 0xFFFFFFFF, info >> 32, addend))
    names = {row[0] for row in kept.values()}
    return {name: found for name, found in rows.items() if name in names}


def symbols(path, kept):
    order = {number: k for k, number in enumerate(sorted(kept))}
    rows = []
    for line in readelf("--symbols", path):
        match = re.match(r"^\s*(\d+): ([0-9a-f]{16})\s+(\w+) (\w+)\s+(\w+)\s+(\w+)\s+(\w+)\s?(.*)$", line)
        if not match:
            continue
        _number, value, size, kind, bind, visibility, index, name = match.groups()
        place = {"UND": "undef", "ABS": "abs", "COM": "common"}.get(index)
        if place is None:
            place = f"in{order[int(index)]}" if int(index) in order else "passed"
        if not rows:
            place = "abs"
        if TYPES[kind] == 3:
            name = ""
        rows.append((
            name, BINDS[bind], TYPES[kind], VISIBILITIES[visibility], place, int(value, 16), int(size, 0),
        ))
    return rows or [("", 0, 0, 0, "abs", 0, 0)]


def expected(path):
    kept = sections(path)
    relocs = relocations(path, kept)
    data = path.read_bytes()
    lines = []
    for name, kind, flags, align, size, offset in (kept[number] for number in sorted(kept)):
        content = b"" if kind == 8 else data[offset : offset + size]
        lines.append(f"section {name.encode().hex() or '-'} {kind} {flags} {align} {size} {content.hex() or '-'}")
        lines += ["reloc %d %d %d %d" % row for row in relocs.get(name, [])]
    for name, *fields in symbols(path, kept):
        lines.append(" ".join(["symbol", name.encode().hex() or "-", *map(str, fields)]))
    return lines


def lines_of(out):
    """The lines of the program's output for each file."""
    found = {}
    for line in out.splitlines():
        if line.startswith("file "):
            current = found.setdefault(line[5:], [])
        else:
            current.append(line)
    return found


def answers(dump, paths):
    """The lines of the program for each file."""
    command = [dump, *map(str, paths)]
    return lines_of(subprocess.run(command, check=True, capture_output=True, text=True).stdout)


def main():
    dump, folder = arguments(__doc__, 2, 2)
    dump = built(dump)
    installed("riscv64-linux-gnu-readelf")
    paths = sorted(Path(folder).glob("*.o"))
    got = answers(dump, paths)
    bad = 0
    for path in paths:
        want, lines = expected(path), got[str(path)]
        if lines != want:
            bad += 1
            print(f"{path}: {len(lines)} lines, readelf has {len(want)}")
            for ours, theirs in zip(lines + [""] * len(want), want + [""] * len(lines)):
                if ours != theirs:
                    print(f"    ours   {ours[:150]}\n    theirs {theirs[:150]}")
                    break
    print(f"{len(paths)} objects, {bad} read otherwise than by readelf")
    return 1 if bad or not paths else 0


if __name__ == "__main__":
    sys.exit(main())
