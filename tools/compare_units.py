#!/usr/bin/env python3
"""Compares the images of the objects of one program with what ld.lld and GNU ld make of them, byte for byte.

For each seed it writes two to five assembly files. They refer to each other's symbols by every kind of relocation that
reaches, through GOT cells, and by calls, which need stubs; weak definitions of one file are replaced by those of
another or stay, common symbols are replaced or stay, and some weak references have no definition. GNU as or clang makes
objects of them. `read_object`, `graph_of`, `synthesise` and `fix` make an image of each, at a base of its own and with
the names bound to their definitions, in a copy of the crates whose tests this writes. `rt try` runs them, so nothing is
proved here. The linkers are given the same files with cells and stubs written out, and a script that puts each section at
its place.

    tools/compare_units.py [SEED ..]        (seeds 1 to 6 by default)
"""
import pathlib
import random
import shutil
import subprocess
import sys
import tempfile

from compare_links import CALLS, DATA_KINDS, DIRECTIVES, GOT_HI20, NO_EDGE, PREFIX, ROOT, Object, aligned, assembled
from tool_words import arguments, installed, integer

BASE = 0x1000_0000
ABSOLUTE = 0x1234_5800
TEXTS, DATAS, WEAKS, COMMONS = 6, 2, 3, 2
UNBOUND = ["nowhere0", "nowhere1"]
COMMON, GLOBAL, WEAK = 0xFFF2, 1, 2


class Names:
    """Which unit of a program defines which name, and how."""

    def __init__(self, chance, count):
        self.count = count
        self.strong = {f"{part}{k}_{u}": u for u in range(count) for part, most in (("t", TEXTS), ("d", DATAS)) for k in range(most)}
        # each weak and each common name in one unit or in two, and some with a strong definition elsewhere
        self.weak = {f"weak{k}": chance.sample(range(count), chance.choice([1, 2])) for k in range(WEAKS)}
        # linkers lay out more than one of a unit otherwise
        self.common = {f"common{k}": [u] for k, u in enumerate(chance.sample(range(count), COMMONS))}
        self.replaced = {}
        for name, units in [*self.weak.items(), *self.common.items()]:
            others = [u for u in range(count) if u not in units]
            if others and chance.random() < 0.5:
                self.replaced[name] = chance.choice(others)

    def data(self, u):
        """The names of data that a unit's may be added to and taken away."""
        return [f"d{k}_{u}" for k in range(DATAS)]


def referring(chance, names, u, called, cell):
    """Lines of code that refer to symbols."""
    everything = [*names.strong, *names.weak, *names.common, "absolute", *UNBOUND]
    reached = [*names.strong, *names.weak, *names.common, *UNBOUND]
    near = [f"t{k}_{v}" for k in range(TEXTS) for v in range(names.count)]
    register = chance.choice(["a0", "a1", "t0", "s1", "x31"])
    addend = chance.randrange(-3000, 3000)
    label = f".L{u}_{chance.getrandbits(60):x}"
    what = chance.randrange(12)
    if what == 0:
        return [f"{label}: .word {0x63 | chance.randrange(8) << 12 | chance.getrandbits(10) << 15}", f".reloc {label}, R_RISCV_BRANCH, t{chance.randrange(TEXTS)}_{u}"]
    if what == 1:
        return [f"{label}: .word {0x6f | chance.getrandbits(5) << 7}", f".reloc {label}, R_RISCV_JAL, {chance.choice(near)}+{chance.randrange(-5000, 5000) * 2}"]
    if what == 2:
        return [f"{label}: auipc {register}, %pcrel_hi({chance.choice(reached)}+{addend})", f"addi {register}, {register}, %pcrel_lo({label})", f"sd s0, %pcrel_lo({label})({register})"]
    if what == 3:
        return [f"lui {register}, %hi({chance.choice(everything)}+{addend})"]
    if what == 4:
        return [f"addi {register}, {register}, %lo({chance.choice(everything)}+{addend})"]
    if what == 5:
        return [f"sw a5, %lo({chance.choice(everything)}+{addend})({register})"]
    if what in (6, 7):
        return [f"{'call' if what == 6 else 'tail'} {called(chance.choice(reached))}"]
    if what in (8, 9):
        return [f"{label}: auipc {register}, {cell(chance.choice(reached))}", f"ld {register}, %pcrel_lo({label})({register})"]
    if what == 10:
        return [f"{label}: auipc {register}, 0", f"jalr ra, 0({register})", f".reloc {label}, R_RISCV_CALL, {called(chance.choice(reached))}"]
    return [f"{label}: .word {chance.getrandbits(32)}", f".reloc {label}, R_RISCV_NONE, {chance.choice(near)}"]


def data_lines(chance, names, u, k):
    """Data of every kind."""
    kinds, lines = list(DATA_KINDS), []
    chance.shuffle(kinds)
    for place, kind in enumerate(kinds):
        width, label, own = DATA_KINDS[kind], f".D{u}_{k}_{place}", names.data(u)
        # GNU ld adds the addend of a SUB, where the psABI takes it away: none is given
        subtracts, far = kind.startswith("SUB"), kind == "32_PCREL"
        symbol = chance.choice([*names.strong, *names.weak, *names.common] + ([] if subtracts or far else ["absolute", *UNBOUND]))
        addend = 0 if subtracts or symbol in UNBOUND else chance.randrange(-100000, 100000)
        lines += [f"{label}: {DIRECTIVES[width]} {chance.getrandbits(8 * width)}", f".reloc {label}, R_RISCV_{kind}, {symbol}+{addend}"]
        if kind.startswith("ADD"):
            lines.append(f".reloc {label}, R_RISCV_SUB{kind[3:]}, {chance.choice(own)}")
        if kind == "SET6":
            lines.append(f".reloc {label}, R_RISCV_SUB6, {chance.choice(own)}")
    return lines


def assembly(seed, names, u, cells=(), stubs=()):
    """One unit of a program: for `fix`, or, with the symbols that have cells and stubs, for a linker."""
    chance = random.Random(seed * 100 + u)

    def called(symbol):
        return f"stub_{symbol}" if symbol in stubs else symbol

    def cell(symbol):
        return f"%pcrel_hi(cell_{symbol})" if symbol in cells else f"%got_pcrel_hi({symbol})"

    lines = [".option norelax", *([".globl absolute", f"absolute = {ABSOLUTE}"] if u == 0 else []), *[f".weak {it}" for it in UNBOUND], ".text"]
    # clang knows no symbol that a .reloc alone names
    lines += [f".globl {it}" for it in names.strong]
    for k in range(TEXTS):
        lines += [f".globl t{k}_{u}", f"t{k}_{u}:"]
        for _ in range(10):
            lines += referring(chance, names, u, called, cell)
    lines += [".data", ".balign 8"]
    for k in range(DATAS):
        lines += [f".globl d{k}_{u}", f"d{k}_{u}:", *data_lines(chance, names, u, k)]
    for name, units in names.weak.items():
        if u in units:
            lines += [f".weak {name}", f"{name}: .8byte {u + 1}, t0_{u}"]
    for name, unit in names.replaced.items():
        if u == unit:
            lines += [f".globl {name}", f"{name}: .4byte {u + 77}, {u}"]
    for name, units in names.common.items():
        if u in units:
            lines.append(f".comm {name}, {8 * (u + 1)}, 8")
    if cells or stubs:
        lines += ['.section .cells, "aw"', *[f"cell_{it}: .8byte {it}" for it in cells], '.section .stubs, "ax"']
        for it in stubs:
            lines += [f"stub_{it}: auipc t3, %pcrel_hi(cell_{it})", f"ld t3, %pcrel_lo(stub_{it})(t3)", "jalr t1, t3", "nop"]
    return "\n".join(lines) + "\n"


def definitions(objects):
    """The unit and the symbol of each name: the first strong definition, or else the first weak or common one."""
    strong, other = {}, {}
    for u, obj in enumerate(objects):
        for s, (_, info, _, section, _, _) in enumerate(obj.symbols):
            if section and info >> 4 in (GLOBAL, WEAK):
                group = strong if info >> 4 == GLOBAL and section != COMMON else other
                group.setdefault(obj.texts[s], (u, s))
    return {**other, **strong}


class Unit:
    """Where the parts of a unit lie that keeps the names which it defines: its blocks, then the cells, then the stubs."""

    def __init__(self, obj, number, defined):
        self.obj = obj
        self.sections = [i for i, head in enumerate(obj.heads) if head[2] & 2]
        self.commons = [s for s, it in enumerate(obj.symbols) if it[3] == COMMON]
        self.offsets, end = [], 0
        shapes = [(obj.heads[i][8], obj.heads[i][5]) for i in self.sections] + [(obj.symbols[s][4], obj.symbols[s][5]) for s in self.commons]
        for align, size in shapes:
            self.offsets.append(aligned(end, max(align, 1)))
            end = self.offsets[-1] + size
        offered = [s for s, it in enumerate(obj.symbols) if s and it[3] and it[1] >> 4 in (GLOBAL, WEAK)]
        self.live = [defined[obj.texts[s]] == (number, s) for s in offered]
        own = {s for s, live in zip(offered, self.live) if live}
        foreign = {s for s, it in enumerate(obj.symbols) if s and it[1] >> 4 in (GLOBAL, WEAK) and s not in own}
        edges = [(kind, s) for i in self.sections for _, kind, s, _ in obj.relocations(i) if kind not in NO_EDGE]
        self.kinds = {kind for kind, _ in edges}
        self.stubs = sorted({s for kind, s in edges if kind in CALLS and s in foreign})
        self.cells = sorted({*self.stubs, *(s for kind, s in edges if kind == GOT_HI20)})
        self.externals = sorted({s for _, s in edges} & foreign)
        self.cells_start = aligned(end, 8)
        self.stubs_start = aligned(self.cells_start + 8 * len(self.cells), 16)
        self.need = max(16, aligned(self.stubs_start + 16 * len(self.stubs), 16))

    def offset(self, s):
        """Where a symbol lies in the unit."""
        _, _, _, section, value, _ = self.obj.symbols[s]
        if section == COMMON:
            return self.offsets[len(self.sections) + self.commons.index(s)]
        return self.offsets[self.sections.index(section)] + value

    def address(self, s, base):
        return self.obj.symbols[s][4] if self.obj.symbols[s][3] == 0xFFF1 else base + self.offset(s)


def bound(unit, units, bases, defined):
    """The address of the definition of each external, or nothing."""
    names = [unit.obj.texts[s] for s in unit.externals]
    return [units[defined[it][0]].address(defined[it][1], bases[defined[it][0]]) if it in defined else None for it in names]


def linked(linker, paths, units, bases, out):
    """The image of each unit that a linker makes, with each section at its place."""
    script, parts = out.with_suffix(".ld"), []
    for u, (path, unit) in enumerate(zip(paths, units)):
        places = {unit.obj.names[i]: o for i, o in zip(unit.sections, unit.offsets)}
        places |= {".cells": unit.cells_start, ".stubs": unit.stubs_start}
        if unit.commons:
            places["COMMON"] = unit.offsets[len(unit.sections)]
        parts += [(f"u{u}{name}", u, bases[u] + o, f"*{path.name}({name})") for name, o in places.items()]
    body = "\n".join(f"  {name} {at:#x} : {{ {what} }}" for name, _, at, what in sorted(parts, key=lambda it: it[2]))
    script.write_text("SECTIONS {\n" + body + "\n  /DISCARD/ : { *(.riscv.attributes) *(.comment) }\n}\n")
    done = subprocess.run([linker, "--no-relax", "-e", "0", "-T", script, "-o", out, *paths], stderr=subprocess.PIPE)
    if done.returncode:
        sys.exit(done.stderr.decode(errors="replace"))
    product, images = Object(out), [bytearray(unit.need) for unit in units]
    for name, u, at, _ in parts:
        if name in product.names:
            part = product.bytes[product.section(name)]
            images[u][at - bases[u]:at - bases[u] + len(part)] = part
    return [bytes(image) for image in images]


def numbers(items):
    return ", ".join(map(str, items))


def unit_test(name, path, unit, base, addresses, image):
    """A test that makes the image of a unit of its file."""
    told = ", ".join("None" if at is None else f"Some({at})" for at in addresses)
    return f"""
#[test]
fn {name}(rt: HostRuntime) -> Result<(), Fail> {{
    let alloc = rt.alloc();
    let image = image_of(alloc, &[{numbers(path.read_bytes())}], &[{", ".join(str(it).lower() for it in unit.live)}], {base}, &[{told}])?;
    let wanted: [u8; {unit.need}] = [{numbers(image)}];
    assert_eq!(rt; image.len(), {unit.need});
    for k in 0..{unit.need} {{
        assert_eq!(rt; image.as_slice()[k], wanted[k], "at {{k}}");
    }}
    Ok(())
}}
"""


HEAD = """use elf_read::read_object;
use got_stubs::synthesise;
use link_graph::graph_of;
use orc_ids::Bytes;
use orc_names::Names;
use std::alloc::Global;
use std::test::Fail;
use unit_fixups::fix;

fn image_of(alloc: Global, bytes: &[u8], live: &[bool], base: u64, bound: &[Option<u64>]) -> Result<Bytes, Fail> {
    let object = read_object(alloc, bytes)?;
    let mut names = Names::new(alloc);
    let graph = graph_of(alloc, &object, &mut names)?;
    let layout = synthesise(alloc, &graph, live)?;
    if layout.externals.len() != bound.len() {
        return Err(Fail::from("other externals"));
    }
    match fix(alloc, &graph, &layout, base, bound) {
        Ok(image) => Ok(image),
        Err(_) => Err(Fail::from("refused")),
    }
}
"""


def program(seed, work):
    """The tests of one program, and the kinds of its edges; nothing where the two linkers differ."""
    chance = random.Random(seed)
    count, assembler = 2 + seed % 4, ("gnu", "clang")[seed // 4 % 2]
    names = Names(chance, count)
    made = [assembled(assembler, work, f"s{seed}_u{u}", assembly(seed, names, u)) for u in range(count)]
    defined = definitions([obj for _, obj in made])
    units = [Unit(obj, u, defined) for u, (_, obj) in enumerate(made)]
    bases, end = [], BASE
    for unit in units:
        bases.append(aligned(end, 16) + 16 * chance.randrange(8))
        end = bases[-1] + unit.need
    whole = []
    for u, unit in enumerate(units):
        written = assembly(seed, names, u, [unit.obj.texts[s] for s in unit.cells], [unit.obj.texts[s] for s in unit.stubs])
        whole.append(assembled(assembler, work, f"s{seed}_u{u}_whole", written)[0])
    images = linked("ld.lld", whole, units, bases, work / f"s{seed}.lld")
    if linked(PREFIX + "ld", whole, units, bases, work / f"s{seed}.bfd") != images:
        print(f"seed {seed}: GNU ld and ld.lld differ")
        return None
    tests = [
        unit_test(f"seed_{seed}_unit_{u}", made[u][0], unit, bases[u], bound(unit, units, bases, defined), images[u])
        for u, unit in enumerate(units)
    ]
    dead = sum(unit.live.count(False) for unit in units)
    print(f"seed {seed}: {count} objects by {assembler}, {sum(len(it.cells) for it in units)} cells, {sum(len(it.stubs) for it in units)} stubs, {sum(len(it.externals) for it in units)} externals, {dead} names replaced")
    return tests, set().union(*(unit.kinds for unit in units))


def main(seeds):
    installed("rt", "clang", "ld.lld", PREFIX + "as")
    work = pathlib.Path(tempfile.mkdtemp(prefix="compare_units_"))
    shutil.copytree(ROOT / "crates", work / "crates", ignore=shutil.ignore_patterns("out"))
    shutil.copy(ROOT / "crates.txt", work)
    texts, kinds, differ = [HEAD], set(), 0
    for seed in seeds:
        made = program(seed, work)
        if made is None:
            differ += 1
            continue
        texts += made[0]
        kinds |= made[1]
    crate = work / "crates" / "unit_fixups_tests"
    (crate / "src" / "compared.rt").write_text("".join(texts))
    root = crate / "src" / "lib.rt"
    root.write_text(root.read_text().replace("mod tests;", "mod compared;\n#[cfg(test)]\nmod tests;"))
    ran = subprocess.run(["rt", "try", "--test"], cwd=crate, capture_output=True, text=True)
    print(ran.stdout[-3000:], ran.stderr[-3000:])
    print("kinds compared:", sorted(kinds))
    shutil.rmtree(work)
    return ran.returncode or differ


if __name__ == "__main__":
    sys.exit(main([integer(word) for word in arguments(__doc__, 0)] or [1, 2, 3, 4, 5, 6]))
