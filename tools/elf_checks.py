"""The checks of a relocatable object, written again from the tables of the System V gABI, the RISC-V
ELF psABI and this project's profile, and independent of the reader's code.

`answer(data)` gives the lines that `elf_dump` prints for a file: a refusal, or the object.
"""
from collections import namedtuple

U64 = 1 << 64
PLACED = {1, 7, 8, 14, 15, 16}
POWERS = {1 << k for k in range(13)}
Header = namedtuple("Header", "name type flags addr offset size link info align entsize")
Entry = namedtuple("Entry", "name info other shndx value size")


class Refused(Exception):
    pass


def refuse(number, *args):
    raise Refused(" ".join(["refused", f"e{number}", *map(str, args)]))


def number(data, at, width):
    return int.from_bytes(data[at : at + width], "little")


def in_file(data, start, size):
    if start + size > len(data):
        refuse(1, max(start, len(data)))


def section_header(data, at):
    widths = [4, 4, 8, 8, 8, 8, 4, 4, 8, 8]
    fields = []
    for width in widths:
        fields.append(number(data, at, width))
        at += width
    return Header(*fields)


def symbol_entry(data, at):
    return Entry(
        number(data, at, 4),
        data[at + 4],
        data[at + 5],
        number(data, at + 6, 2),
        number(data, at + 8, 8),
        number(data, at + 16, 8),
    )


def text(table, at, limit=None):
    """The bytes from a place up to a zero byte that is in the table."""
    end = table.find(b"\0", at) if at <= len(table) else -1
    if end < 0 or (limit is not None and end - at > limit):
        return None
    return table[at:end]


class File:
    def __init__(self, data):
        self.data = data
        self.header()
        self.sections()
        self.names()
        self.overlaps()
        self.symbols()
        self.relocations()

    def header(self):
        data = self.data
        in_file(data, 0, 64)
        if data[:4] != b"\x7fELF":
            refuse(2)
        if data[4] != 2:
            refuse(3)
        if data[5] != 1:
            refuse(4)
        if number(data, 16, 2) != 1:
            refuse(5)
        if number(data, 18, 2) != 243:
            refuse(6)
        if number(data, 48, 4):
            refuse(7, number(data, 48, 4))
        self.shoff = number(data, 40, 8)
        self.count = number(data, 60, 2)
        self.shstrndx = number(data, 62, 2)
        if number(data, 58, 2) != 64 or self.count == 0:
            refuse(8, 0)
        if self.shstrndx == 0xFFFF:
            refuse(12, "xindex")
        if self.shstrndx >= self.count:
            refuse(10, 0)
        in_file(data, self.shoff, 64 * self.count)
        none = Header(*[0] * 10)
        self.table = [none] + [
            section_header(data, self.shoff + 64 * i) for i in range(1, self.count)
        ]
        if self.table[self.shstrndx].type != 3:
            refuse(10, 0)

    def kept(self, i):
        if not 0 < i < self.count:
            return False
        s = self.table[i]
        return bool(s.flags & 2) and s.type in PLACED

    def is_strtab(self, i):
        return 0 < i < self.count and self.table[i].type == 3

    def sections(self):
        table = self.table
        symtabs = [i for i, s in enumerate(table) if s.type == 2]
        self.symtab = symtabs[0] if symtabs else None
        strings = table[self.symtab].link if symtabs else None
        self.rela = {}
        for i, s in enumerate(table):
            if s.type == 4:
                self.rela.setdefault(s.info, i)
        self.used = set()
        for i, s in enumerate(table):
            if i == 0:
                continue
            if s.type == 17:
                refuse(12, "group")
            if s.type == 9:
                refuse(12, "rel")
            if s.flags & 2:
                if s.flags & 0x400:
                    refuse(12, "tls")
                if s.flags & 0x800:
                    refuse(12, "compressed")
                if s.type not in PLACED:
                    refuse(12, "sectionkind")
            if self.kept(i) and s.align and s.align not in POWERS:
                refuse(8, i)
            if s.type == 2:
                if i != self.symtab or s.entsize != 24 or s.size == 0 or s.size % 24:
                    refuse(8, i)
                if not self.is_strtab(s.link):
                    refuse(10, i)
            if s.type == 4:
                if s.info >= self.count:
                    refuse(10, i)
                if self.kept(s.info):
                    if self.rela[s.info] != i or s.link != self.symtab or self.symtab is None:
                        refuse(10, i)
                    if s.entsize != 24 or s.size % 24:
                        refuse(8, i)
            if (
                (self.kept(i) and s.type != 8)
                or i == self.symtab
                or (i == strings and s.type == 3)
                or i == self.shstrndx
                or (s.type == 4 and self.kept(s.info))
            ):
                in_file(self.data, s.offset, s.size)
                self.used.add(i)

    def contents(self, i):
        s = self.table[i]
        return self.data[s.offset : s.offset + s.size]

    def names(self):
        table = self.contents(self.shstrndx)
        self.section_names = {}
        for i in range(1, self.count):
            if self.kept(i):
                name = text(table, self.table[i].name)
                if name is None:
                    refuse(8, i)
                self.section_names[i] = name

    def overlaps(self):
        ranges = [(0, 64), (self.shoff, self.shoff + 64 * self.count)]
        for i in sorted(self.used):
            s = self.table[i]
            if not s.size:
                continue
            start, end = s.offset, s.offset + s.size
            if any(start < e and b < end for b, e in ranges):
                refuse(11, i)
            ranges.append((start, end))

    def symbols(self):
        self.entries = [None]
        if self.symtab is None:
            return
        header = self.table[self.symtab]
        strings = self.contents(header.link)
        seen = set()
        for j in range(1, header.size // 24):
            e = symbol_entry(self.data, header.offset + 24 * j)
            bind = e.info >> 4
            name = text(strings, e.name, 4096)
            if name is None:
                refuse(9, j)
            if bind > 2:
                refuse(12, "bind")
            if e.shndx == 0xFFFF:
                refuse(12, "xindex")
            if e.shndx not in (0xFFF1, 0xFFF2):
                if e.shndx >= self.count:
                    refuse(9, j)
                if self.kept(e.shndx) and e.value > self.table[e.shndx].size:
                    refuse(9, j)
            if e.shndx == 0xFFF2 and (e.value not in POWERS or e.size > 1 << 24):
                refuse(9, j)
            if bind == 0 and e.shndx in (0, 0xFFF2):
                refuse(9, j)
            if bind:
                if not name or any(b < 0x21 or b == 0x7F for b in name) or name in seen:
                    refuse(9, j)
                seen.add(name)
            self.entries.append((e, name))

    def relocations(self):
        self.relocs = {}
        for i in range(1, self.count):
            if not self.kept(i) or i not in self.rela:
                continue
            r = self.rela[i]
            s = self.table[r]
            rows = []
            for at in range(s.offset, s.offset + s.size, 24):
                info = number(self.data, at + 8, 8)
                symbol = info >> 32
                if symbol >= len(self.entries) or symbol == 0xFFFFFFFF:
                    refuse(10, r)
                addend = number(self.data, at + 16, 8)
                addend -= U64 if addend >> 63 else 0
                rows.append((number(self.data, at, 8), info & 0xFFFFFFFF, symbol, addend))
            self.relocs[i] = rows

    def place(self, shndx):
        if shndx == 0:
            return "undef"
        if shndx == 0xFFF1:
            return "abs"
        if shndx == 0xFFF2:
            return "common"
        if self.kept(shndx):
            return f"in{sum(self.kept(i) for i in range(shndx))}"
        return "passed"

    def lines(self):
        out = []
        for i in range(1, self.count):
            if not self.kept(i):
                continue
            s = self.table[i]
            data = b"" if s.type == 8 else self.contents(i)
            name = self.section_names[i].hex() or "-"
            out.append(
                f"section {name} {s.type} {s.flags} {s.align or 1} {s.size} {data.hex() or '-'}"
            )
            out += ["reloc %d %d %d %d" % row for row in self.relocs.get(i, [])]
        out.append("symbol - 0 0 0 abs 0 0")
        for e, name in self.entries[1:]:
            out.append(
                f"symbol {name.hex() or '-'} {e.info >> 4} {e.info & 15} {e.other & 3} "
                f"{self.place(e.shndx)} {e.value} {e.size}"
            )
        return out


def answer(data):
    try:
        return File(data).lines()
    except Refused as refusal:
        return [str(refusal)]
