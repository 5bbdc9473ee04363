"""What the numbers of a log mean in an object: its sections, symbols and relocations by their names.

An `ObjectFile` is made of any file, also of one that is missing or damaged: what can't be read is called by its
number. It stands on `elf_checks` and `graph_checks`, and nothing of it is the linker's code.
"""
import functools
import os
import re
import stat
from collections import namedtuple

import elf_checks
import graph_checks
from journal import Offer, Session, text_of

TYPES = {
    0: "NONE", 1: "32", 2: "64", 3: "RELATIVE", 4: "COPY", 5: "JUMP_SLOT", 6: "TLS_DTPMOD32", 7: "TLS_DTPMOD64", 8: "TLS_DTPREL32",
    9: "TLS_DTPREL64", 10: "TLS_TPREL32", 11: "TLS_TPREL64", 12: "TLSDESC", 16: "BRANCH", 17: "JAL", 18: "CALL", 19: "CALL_PLT",
    20: "GOT_HI20", 21: "TLS_GOT_HI20", 22: "TLS_GD_HI20", 23: "PCREL_HI20", 24: "PCREL_LO12_I", 25: "PCREL_LO12_S", 26: "HI20",
    27: "LO12_I", 28: "LO12_S", 29: "TPREL_HI20", 30: "TPREL_LO12_I", 31: "TPREL_LO12_S", 32: "TPREL_ADD", 33: "ADD8", 34: "ADD16",
    35: "ADD32", 36: "ADD64", 37: "SUB8", 38: "SUB16", 39: "SUB32", 40: "SUB64", 41: "GOT32_PCREL", 43: "ALIGN", 44: "RVC_BRANCH",
    45: "RVC_JUMP", 51: "RELAX", 52: "SUB6", 53: "SET6", 54: "SET8", 55: "SET16", 56: "SET32", 57: "32_PCREL", 58: "IRELATIVE",
    59: "PLT32", 60: "SET_ULEB128", 61: "SUB_ULEB128",
}
COMMON = 0xFFF2
UNDEFINED = 0
NONE, RELAX = 0, 51
CALLS, GOT = (18, 19, 59), 20
ATTRIBUTES = 0x70000003
# what is read of a file: one byte more than an object may have
MOST_BYTES = (16 << 20) + 1
# the extensions that code may have been compiled for and be run
RUN = {"i", "m", "zmmul"}
FILE_ATTRIBUTES, ARCHITECTURE = 1, 5

Wanted = namedtuple("Wanted", "name is_weak")


def type_name(number):
    return f"R_RISCV_{TYPES[number]}" if number in TYPES else f"a relocation of type {number}"


def named(what, number, name):
    return f"{what} {number} ({name})" if name else f"{what} {number}"


class ObjectFile:
    def __init__(self, name):
        self.name = name
        self.data, self.length = b"", 0
        try:
            # (what isn't a plain file may have no end)
            if stat.S_ISREG(os.stat(name).st_mode):
                with open(name, "rb") as it:
                    self.data, self.length = it.read(MOST_BYTES), os.fstat(it.fileno()).st_size
        except (OSError, ValueError):
            pass

    # -- tables, as far as they lie in the file

    def number(self, at, width):
        return elf_checks.number(self.data, at, width)

    @functools.cached_property
    def headers(self):
        """The section table, or what of it is there."""
        start, count = self.number(40, 8), self.number(60, 2)
        there = range(min(count, max(0, (len(self.data) - start) // 64)))
        return [elf_checks.section_header(self.data, start + 64 * i) for i in there]

    @functools.cached_property
    def symbols(self):
        """The entries of the first symbol table."""
        table = next((it for it in self.headers if it.type == 2), None)
        if table is None:
            return []
        end = min(table.offset + table.size, len(self.data))
        return [elf_checks.symbol_entry(self.data, at) for at in range(table.offset, end - 23, 24)]

    @functools.cached_property
    def strings(self):
        """The section with the names of symbols."""
        return next((it.link for it in self.headers if it.type == 2), len(self.headers))

    def string(self, section, offset):
        """A name in a string table; empty where it isn't there."""
        if section >= len(self.headers):
            return ""
        table = self.headers[section]
        name = elf_checks.text(self.data, table.offset + offset)
        return text_of(name) if name else ""

    @functools.cached_property
    def file(self):
        """The object, where it passes all checks of the reader."""
        try:
            return elf_checks.File(self.data)
        except elf_checks.Refused:
            return None

    # -- names

    def section_name(self, i):
        return self.string(self.number(62, 2), self.headers[i].name) if i < len(self.headers) else ""

    def section(self, i):
        return named("section", i, self.section_name(i)) if i else "the section table"

    def symbol_name(self, j):
        """A symbol's own name; that of its section, where it stands for one."""
        if j >= len(self.symbols):
            return ""
        entry = self.symbols[j]
        return self.string(self.strings, entry.name) or (self.section_name(entry.shndx) if entry.info & 15 == 3 else "")

    def symbol(self, j):
        return named("symbol", j, self.symbol_name(j))

    @functools.cached_property
    def placed(self):
        """The numbers of the sections that are placed: blocks 0 and up."""
        return [i for i, it in enumerate(self.headers) if i and it.flags & 2 and it.type in elf_checks.PLACED]

    @functools.cached_property
    def commons(self):
        """The numbers of the common symbols, which are the blocks after these."""
        return [j for j, it in enumerate(self.symbols) if it.shndx == COMMON]

    def block(self, b):
        if not self.headers:
            return f"placed section {b}"
        if b < len(self.placed):
            return self.section(self.placed[b])
        common = b - len(self.placed)
        return f"the common {self.symbol(self.commons[common])}" if common < len(self.commons) else f"block {b}"

    def target(self, kind, symbol):
        return f"{type_name(kind)} against {self.symbol(symbol) if symbol else 'no symbol'}"

    def relocation(self, block, offset):
        """The relocations at an offset of a block, as the file has them; empty where there is none."""
        if self.file is None or block >= len(self.placed):
            return ""
        rows = self.file.relocs.get(self.placed[block], [])
        return " or ".join(self.target(kind, symbol) for at, kind, symbol, _ in rows if at == offset and kind not in (NONE, RELAX))

    @functools.cached_property
    def sections(self):
        """The sections of the graph, with what is deleted of each."""
        return [graph_checks.Section(self.file, i) for i in self.placed] if self.file else []

    def edge(self, block, offset, kind):
        """The relocation of a graph's edge, and where it stands in the file: its offset counts deleted padding out."""
        if block < len(self.sections):
            section = self.sections[block]
            for at, its_kind, symbol, _ in section.relocs:
                if its_kind == kind and section.moved(at) == offset:
                    return self.target(kind, symbol), at
        return type_name(kind), offset

    @functools.cached_property
    def local_names(self):
        return {self.symbol_name(j) for j, it in enumerate(self.symbols) if it.info >> 4 == 0 and it.shndx != UNDEFINED}

    def is_local(self, name):
        """Whether a local symbol of the object has this name."""
        return name in self.local_names

    # -- the unit of the object

    @functools.cached_property
    def graph(self):
        """The lines of its graph, by their first words."""
        lines = {"block": [], "symbol": []}
        for line in graph_checks.graph(self.file) if self.file else []:
            word, *rest = line.split(" ")
            lines.setdefault(word, []).append(rest)
        return lines

    @functools.cached_property
    def offsets(self):
        """Where each block of the unit begins, and its size."""
        found, end = [], 0
        for size, align, _ in self.graph["block"]:
            begin = -(-end // int(align)) * int(align)
            end = begin + int(size)
            found.append((begin, int(size)))
        return found

    @functools.cached_property
    def offered(self):
        """The numbers of the symbols that its unit offers, in their order."""
        passed = {UNDEFINED, *range(len(self.headers))} - set(self.placed)
        return [j for j, it in enumerate(self.symbols) if j and it.info >> 4 and it.shndx not in passed]

    @functools.cached_property
    def offers(self):
        """The names that its unit offers, in the order of symbols."""
        return [self.offer(j) for j in self.offered]

    def offer(self, j):
        it = self.symbols[j]
        is_common = it.shndx == COMMON
        return Offer(self.symbol_name(j), it.info >> 4 == 1 and not is_common, it.other & 3 in (0, 3), is_common, it.size, it.value if is_common else 1)

    @functools.cached_property
    def edges(self):
        """The kind and the symbol of each edge."""
        return [(int(it[2]), int(it[3])) for it in self.graph.get("edge", ())]

    def wanted(self):
        """What is undefined in it and referred to, in the order of symbols."""
        referred = {symbol for _, symbol in self.edges}
        return [Wanted(self.symbol_name(j), it.info >> 4 == 2) for j, it in enumerate(self.symbols) if j in referred and j and it.shndx == UNDEFINED]

    def behind(self, replaced):
        """What stands behind the blocks: each cell and stub with its offset and size. `replaced` are the names that it offers
        and that are other units'."""
        externals = {j for j, it in enumerate(self.symbols) if it.shndx == UNDEFINED} | {j for j in self.offered if self.symbol_name(j) in replaced}
        stubs = sorted({j for kind, j in self.edges if kind in CALLS and j in externals})
        cells = sorted({j for kind, j in self.edges if kind == GOT} | set(stubs))
        at, found = -(-sum(self.offsets[-1] if self.offsets else (0, 0)) // 8) * 8, []
        for j in cells:
            found.append((at, 8, f"the cell of {self.symbol_name(j)}"))
            at += 8
        at = -(-at // 16) * 16
        for j in stubs:
            found.append((at, 16, f"the stub of {self.symbol_name(j)}"))
            at += 16
        return found

    def symbol_in(self, block, offset):
        """The symbol that a place of a block lies in, and how far behind it; an assembler's own labels aside."""
        best = None
        for j, place in enumerate(self.graph["symbol"]):
            if not j or place[0] != "in" or int(place[1]) != block or int(place[2]) > offset:
                continue
            entry, name = self.file.entries[j]
            is_label = entry.info & 15 not in (3, 4) and name and not name.startswith((b".L", b"$"))
            if is_label and (best is None or int(place[2]) >= best[0]):
                best = int(place[2]), text_of(name)
        return f"{best[1]}+{offset - best[0]}" if best else None

    def place(self, offset, replaced=()):
        """What lies at an offset of the unit: a symbol, a section, a cell, a stub, or padding between these."""
        if not self.offsets:
            return None
        for block, (begin, size) in enumerate(self.offsets):
            if begin <= offset < begin + size:
                return self.symbol_in(block, offset - begin) or self.block(block)
        return next((it for begin, size, it in self.behind(replaced) if begin <= offset < begin + size), "padding")

    # -- what it was compiled for

    @functools.cached_property
    def architecture(self):
        """The extensions that its attributes say it was compiled for, as they say it; empty where they say nothing."""
        table = next((it for it in self.headers if it.type == ATTRIBUTES), None)
        return architecture_of(self.data[table.offset : table.offset + table.size]) if table else ""


def leb(data, at):
    """A number of seven bits a byte, the lowest first, and where it ends."""
    value = shift = 0
    while at < len(data):
        value, shift, at = value | (data[at] & 127) << shift, shift + 7, at + 1
        if data[at - 1] < 128:
            break
    return value, at


def architecture_of(data):
    """The architecture in the attributes of a file, by the RISC-V ELF psABI."""
    at = 1 if data[:1] == b"A" else len(data)
    while at + 4 < len(data):
        end = at + max(4, elf_checks.number(data, at, 4))
        vendor = elf_checks.text(data, at + 4) or b""
        inner = at + 5 + len(vendor)
        while vendor == b"riscv" and inner < min(end, len(data)):
            tag, rest = leb(data, inner)
            inner_end = inner + max(1, elf_checks.number(data, rest, 4))
            rest += 4
            while tag == FILE_ATTRIBUTES and rest < min(inner_end, len(data)):
                key, rest = leb(data, rest)
                if key % 2 == 0:
                    _, rest = leb(data, rest)
                    continue
                words = elf_checks.text(data, rest) or b""
                if key == ARCHITECTURE:
                    return text_of(words)
                rest += len(words) + 1
            inner = inner_end
        at = end
    return ""


def extensions(architecture):
    """The names of the extensions in it, without their versions."""
    first, *others = re.sub("^rv(32|64|128)", "", architecture).split("_")
    return {*re.findall(r"([a-z])(?:\d+p\d+)?", re.split("[zsx]", first)[0]), *(re.sub(r"\d+p\d+$", "", it) for it in others if it)}


def without_versions(architecture):
    """An architecture as it is written for a compiler: rv64i2p1_m2p0_zicsr2p0 is rv64im_zicsr."""
    parts = [re.sub(r"(?<=[a-z])\d+p\d+", "", it) for it in architecture.split("_")]
    single = [it for it in parts[1:] if len(it) == 1]
    return "_".join([parts[0] + "".join(single), *(it for it in parts[1:] if len(it) > 1)])


# the extensions of the opcodes that RV64IM hasn't, by the manual
EXTENSIONS = {
    "a": "A (atomic)", "c": "C (compressed)", "d": "D (floating point)", "f": "F (floating point)", "v": "V (vectors)",
    "zicsr": "Zicsr (control registers)", "zifencei": "Zifencei (`fence.i`)", "b": "B (bits) or another one",
}


def extension_of(word):
    """The extension that an instruction word would be of, and none where none is known."""
    opcode, kind = word & 0x7F, word >> 12 & 7
    if word & 3 != 3:
        return "c" if word & 0xFFFF else None
    if opcode == 0x2F:
        return "a"
    if opcode in (0x07, 0x27):
        return {2: "f", 3: "d"}.get(kind, "v")
    if opcode in (0x43, 0x47, 0x4B, 0x4F, 0x53):
        return "d" if word >> 25 & 3 == 1 else "f"
    if opcode == 0x57:
        return "v"
    if opcode == 0x73 and kind not in (0, 4):
        return "zicsr"
    if opcode == 0x0F and kind == 1:
        return "zifencei"
    return "b" if opcode in (0x13, 0x1B, 0x33, 0x3B) else None


def objects_of(names):
    """The files of a command, as they are numbered: one that is named twice is one file."""
    return [ObjectFile(it) for it in dict.fromkeys(names)]


def object_of(objects, unit):
    """The object that a unit was made of, where it is one of a file that is given."""
    number = int(unit.name[1:]) if unit.name.startswith("o") else len(objects)
    return objects[number] if number < len(objects) else None


def session_of(log, objects, script=None):
    """What a log tells, with its instances named by the symbols that the files offer, and by the script's lines.

    Where a definition took other names than the files have, they aren't those of the log, and nothing is called by them: its
    `is_known` is false."""

    def offers(unit):
        kind, number = unit[0], int(unit[1:])
        if kind != "o":
            return script.offers(kind, number) if script else None
        it = objects[number] if number < len(objects) else None
        return it.offers if it and it.file else None

    session = Session(log, offers)
    if not session.is_known:
        session = Session(log)
        session.is_known = False
    return session
