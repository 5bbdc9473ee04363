"""The graph of an object that is read, written again from the tables of the RISC-V ELF psABI and this
project's profile, and independent of the linker's code.

`answer(data)` gives the lines that `graph_dump` prints for a file: a refusal, or blocks, symbols and
edges. What is deleted of a section is a set of places here, and each place is counted anew.
"""
from elf_checks import File, Refused

WIDTHS = {
    0: 0, 1: 4, 2: 8, 16: 4, 17: 4, 18: 8, 19: 8, 20: 4, 23: 4, 24: 4, 25: 4, 26: 4, 27: 4, 28: 4,
    33: 1, 34: 2, 35: 4, 36: 8, 37: 1, 38: 2, 39: 4, 40: 8, 43: 0, 51: 0, 52: 1, 53: 1, 54: 1, 55: 2,
    56: 4, 57: 4, 59: 4,
}
NONE, RELAX, ALIGN = 0, 51, 43
UPPER, LOWER = {20, 23}, {24, 25}
MIB = 1 << 20


def boundary_over(addend):
    return next(1 << k for k in range(65) if 1 << k > addend)


class Section:
    """A kept section: what is deleted of it, and why its ALIGNs are refused."""

    def __init__(self, file, i):
        header = file.table[i]
        self.nobits = header.type == 8
        self.size = header.size
        self.align = header.align or 1
        self.data = b"" if self.nobits else file.contents(i)
        self.relocs = file.relocs.get(i, [])
        self.cut = set()
        self.kept = {}
        self.bad = None
        self.find_cuts()

    def find_cuts(self):
        end = 0
        for k, (at, kind, _symbol, addend) in enumerate(self.relocs):
            if kind != ALIGN:
                continue
            if addend < 0 or at + addend > self.size or at < end or boundary_over(addend) > 4096:
                self.bad = k
                return
            boundary = boundary_over(addend)
            needed = next(n for n in range(boundary) if (self.moved(at) + n) % boundary == 0)
            if needed > addend:
                self.bad = k
                return
            self.cut |= set(range(at + needed, at + addend))
            self.kept[k] = needed
            self.align = max(self.align, boundary)
            end = at + addend

    def moved(self, place):
        return place - sum(1 for p in self.cut if p < place)

    def refused(self, k, passed):
        """The refusal of relocation k, without its place."""
        at, kind, symbol, _addend = self.relocs[k]
        if kind not in WIDTHS:
            return f"g1 {kind}"
        if kind in (NONE, RELAX):
            return None
        if self.nobits or passed(symbol):
            return "g2"
        if kind == ALIGN:
            return "g5" if k == self.bad else None
        places = range(at, at + WIDTHS[kind])
        if places.stop > self.size or any(p in self.cut for p in places):
            return "g2"
        return None


def graph(file):
    kept = [i for i in range(1, file.count) if file.kept(i)]
    sections = [Section(file, i) for i in kept]
    commons = [e for e, _ in file.entries[1:] if e.shndx == 0xFFF2]
    edges = sum(kind not in (NONE, RELAX) for s in sections for _, kind, _, _ in s.relocs)
    size = sum(s.size for s in sections) + sum(e.size for e in commons)
    if len(kept) + len(commons) > 16384 or len(file.entries) > 65536 or edges > 262144 or size > 16 * MIB:
        return ["refused g6"]
    for j, row in enumerate(file.entries):
        if row and row[0].info & 15 in (6, 10):
            return [f"refused g3 {j}"]

    def passed(symbol):
        return symbol > 0 and file.place(file.entries[symbol][0].shndx) == "passed"

    for b, s in enumerate(sections):
        for k, (at, *_) in enumerate(s.relocs):
            why = s.refused(k, passed)
            if why:
                return [f"refused {why} {b} {at}"]
    symbols, common = [], len(kept)
    for row in file.entries:
        place = file.place(row[0].shndx) if row else "abs"
        if not row or place == "passed":
            symbols.append(("abs", 0))
        elif place == "undef":
            symbols.append(("external", int(row[0].info >> 4 == 2)))
        elif place == "abs":
            symbols.append(("abs", row[0].value))
        elif place == "common":
            symbols.append(("in", common, 0))
            common += 1
        else:
            b = int(place[2:])
            symbols.append(("in", b, sections[b].moved(row[0].value)))
    rows = []
    for b, s in enumerate(sections):
        for k, (at, kind, symbol, addend) in enumerate(s.relocs):
            if kind not in (NONE, RELAX):
                rows.append((at, (b, s.moved(at), kind, symbol, s.kept.get(k, addend))))
    uppers = {(b, at) for _, (b, at, kind, _, _) in rows if kind in UPPER}
    for at, (b, _, kind, symbol, addend) in rows:
        if kind in LOWER and (addend or symbols[symbol][0] != "in" or symbols[symbol][1:] not in uppers):
            return [f"refused g4 {b} {at}"]
    lines = []
    for s in sections:
        data = bytes(byte for p, byte in enumerate(s.data) if p not in s.cut)
        lines.append(f"block {s.moved(s.size)} {s.align} {data.hex() or '-'}")
    lines += [f"block {e.size} {e.value} -" for e in commons]
    lines += ["symbol " + " ".join(map(str, place)) for place in symbols]
    lines += ["edge " + " ".join(map(str, row)) for _, row in rows]
    return lines


def answer(data):
    try:
        file = File(data)
    except Refused:
        return ["refused"]
    return graph(file)
