#!/usr/bin/env python3
"""Compares `unit_fixups::fix` with ld.lld and GNU ld, byte for byte.

For each seed it writes an assembly file with every relocation kind, own symbols, symbols of other units (some bound,
some weak and bound to nothing), GOT cells and calls through stubs, assembles it by GNU as and by clang, and runs
`synthesise` and `fix` on its graph, in a copy of the crates whose tests it writes. `rt try` runs them, so nothing is
proved here. The linkers are given the same file with cells and stubs written out in two sections at their places,
since a linker lays its own out otherwise and needs no stubs in a static link.

    tools/compare_links.py [SEED ..]        (seeds 1 to 4 by default)
"""

import pathlib
import random
import shutil
import struct
import subprocess
import sys
import tempfile

from tool_words import arguments, installed, integer

BASE = 0x1000_0000
ROOT = pathlib.Path(__file__).resolve().parent.parent
PREFIX = "riscv64-linux-gnu-"
ABSOLUTE = 0x1234_5800
# What the externals are bound to: near enough for a branch, for a jump, far, and low.
BOUND = {"e0": BASE + 0xE00, "e1": BASE + 0x8000, "e2": BASE + 0x1234_5678, "e3": 0x7F4}
UNBOUND = ["w0", "w1"]
GOT_HI20, CALLS, NO_EDGE = 20, (18, 19, 59), (0, 51)

# kinds by name, with the bytes that stand there before
DATA_KINDS = {
    "32": 4, "64": 8, "ADD8": 1, "ADD16": 2, "ADD32": 4, "ADD64": 8, "SUB8": 1, "SUB16": 2,
    "SUB32": 4, "SUB64": 8, "SUB6": 1, "SET6": 1, "SET8": 1, "SET16": 2, "SET32": 4, "32_PCREL": 4,
}

DIRECTIVES = {1: ".byte", 2: ".2byte", 4: ".4byte", 8: ".8byte"}


def assembly(seed, cells=None, stubs=None):
    """A file with two sections and some relocations of each kind: for `fix`, or, with the symbols that have cells
    and stubs, for a linker."""
    rng = random.Random(seed)
    text, data = [], []

    def upper_of_cell(symbol):
        return f"%got_pcrel_hi({symbol})" if cells is None else f"%pcrel_hi(cell_{symbol})"

    def called(symbol):
        return symbol if stubs is None else f"stub_{symbol}"

    for i in range(12):
        text.append(f".globl t{i}\nt{i}:")
        choice = rng.sample(range(12), 12)
        for what in choice:
            register = rng.choice(["a0", "a1", "t0", "s1", "x31"])
            symbol = rng.choice(["d0", "d1", "d2", "absolute", *BOUND, *UNBOUND])
            near = rng.choice(["d0", "d1", "d2", f"t{rng.randrange(12)}"])
            reached = rng.choice([near, near, *BOUND, *UNBOUND])
            addend = rng.randrange(-3000, 3000)
            label = f".L{seed}_{i}_{what}"
            if what == 0:
                text.append(f"{label}: .word {0x63 | rng.randrange(8) << 12 | rng.getrandbits(10) << 15}")
                text.append(f".reloc {label}, R_RISCV_BRANCH, {rng.choice([f't{rng.randrange(12)}', 'e0'])}+{rng.randrange(-200, 200) * 2}")
            elif what == 1:
                text.append(f"{label}: .word {0x6f | rng.getrandbits(5) << 7}")
                text.append(f".reloc {label}, R_RISCV_JAL, {rng.choice([near, 'e0', 'e1'])}+{rng.randrange(-50000, 50000) * 2}")
            elif what == 2:
                text.append(f"{label}: auipc {register}, %pcrel_hi({reached}+{addend})")
                text.append(f"addi {register}, {register}, %pcrel_lo({label})")
                text.append(f"sd s0, %pcrel_lo({label})({register})")
            elif what == 3:
                text.append(f"call t{rng.randrange(12)}")
            elif what == 4:
                text.append(f"tail t{rng.randrange(12)}")
            elif what == 5:
                text.append(f"lui {register}, %hi({symbol}+{addend})")
            elif what == 6:
                text.append(f"addi {register}, {register}, %lo({symbol}+{addend})")
            elif what == 7:
                text.append(f"sw a5, %lo({symbol}+{addend})({register})")
            elif what == 8:
                text.append(f"call {called(rng.choice([*BOUND, *UNBOUND]))}")
            elif what == 9:
                text.append(f"tail {called(rng.choice([*BOUND, *UNBOUND]))}")
            elif what == 10:
                text.append(f"{label}: auipc {register}, {upper_of_cell(rng.choice(['d1', 't2', *BOUND, *UNBOUND]))}")
                text.append(f"ld {register}, %pcrel_lo({label})({register})")
            else:
                text.append(f"{label}: .word {rng.getrandbits(32)}\n.reloc {label}, R_RISCV_NONE, {near}")
    for i in range(3):
        data.append(f".globl d{i}\nd{i}:")
        kinds = list(DATA_KINDS) * 4
        rng.shuffle(kinds)
        for k, kind in enumerate(kinds):
            width = DATA_KINDS[kind]
            label = f".D{seed}_{i}_{k}"
            # GNU ld adds the addend of a SUB, where the psABI takes it away: none is given (an
            # assembler makes an addend of an absolute symbol)
            subtracts = kind.startswith("SUB")
            far = kind == "32_PCREL"
            symbol = rng.choice(["d0", "d1", "d2", "t3", "t7", *BOUND] + ([] if subtracts or far else ["absolute", *UNBOUND]))
            # an unsigned sum that is below 0 is out of the range of 32
            addend = 0 if subtracts or symbol in ("e3", *UNBOUND) else rng.randrange(-100000, 100000)
            data.append(f"{label}: {DIRECTIVES[width]} {rng.getrandbits(8 * width)}")
            data.append(f".reloc {label}, R_RISCV_{kind}, {symbol}+{addend}")
            if kind.startswith("ADD"):
                data.append(f".reloc {label}, R_RISCV_SUB{kind[3:]}, d{rng.randrange(3)}")
            if kind == "SET6":
                data.append(f".reloc {label}, R_RISCV_SUB6, d{rng.randrange(3)}")
    lines = [".option norelax", ".globl absolute", f"absolute = {ABSOLUTE}", *[f".weak {it}" for it in UNBOUND], ".text"]
    made = []
    if cells is not None:
        made = ['.section .cells, "aw"', *[f"cell_{it}: .8byte {it}" for it in cells], '.section .stubs, "ax"']
        for it in stubs:
            made.append(f"stub_{it}: auipc t3, %pcrel_hi(cell_{it})\nld t3, %pcrel_lo(stub_{it})(t3)\njalr t1, t3\nnop")
    return "\n".join(lines + text + [".data", ".balign 8"] + data + made) + "\n"


class Object:
    """The sections, symbols and relocations of an object (System V gABI)."""

    def __init__(self, path):
        raw = path.read_bytes()
        table, = struct.unpack_from("<Q", raw, 40)
        count, names = struct.unpack_from("<HH", raw, 60)
        heads = [struct.unpack_from("<IIQQQQIIQQ", raw, table + 64 * i) for i in range(count)]
        at = heads[names][4]
        self.heads = heads
        self.names = [raw[at + h[0]:raw.index(b"\0", at + h[0])].decode() for h in heads]
        self.bytes = [b"" if h[1] == 8 else raw[h[4]:h[4] + h[5]] for h in heads]
        table = next((i for i, h in enumerate(heads) if h[1] == 2), None)
        self.symbols = list(struct.iter_unpack("<IBBHQQ", self.bytes[table])) if table else []
        texts = self.bytes[heads[table][6]] if table else b""
        self.texts = [texts[it[0]:texts.index(b"\0", it[0])].decode() for it in self.symbols]

    def section(self, name):
        return self.names.index(name)

    def kept(self):
        """The allocated sections that have bytes, in order."""
        return [i for i, h in enumerate(self.heads) if h[2] & 2 and h[5] > 0]

    def relocations(self, section):
        for i, h in enumerate(self.heads):
            if h[1] == 4 and h[7] == section:
                for at, info, addend in struct.iter_unpack("<QQq", self.bytes[i]):
                    yield at, info & 0xffffffff, info >> 32, addend


def aligned(at, align):
    return -(-at // align) * align


class Layout:
    """Where the parts of a unit lie: its blocks, then the cells, then the stubs; and what it needs."""

    def __init__(self, obj):
        self.offsets, end = [], 0
        for i in obj.kept():
            self.offsets.append(aligned(end, max(obj.heads[i][8], 1)))
            end = self.offsets[-1] + obj.heads[i][5]
        edges = [(kind, symbol) for i in obj.kept() for _, kind, symbol, _ in obj.relocations(i) if kind not in NO_EDGE]
        undefined = {k for k, it in enumerate(obj.symbols) if k and it[3] == 0}
        stubs = {symbol for kind, symbol in edges if kind in CALLS and symbol in undefined}
        cells = stubs | {symbol for kind, symbol in edges if kind == GOT_HI20}
        self.stubs, self.cells = sorted(stubs), sorted(cells)
        self.externals = sorted({symbol for _, symbol in edges} & undefined)
        self.cells_start = aligned(end, 8)
        self.stubs_start = aligned(self.cells_start + 8 * len(cells), 16)
        self.need = max(16, aligned(self.stubs_start + 16 * len(stubs), 16))


def linked(linker, obj, path, places, need, out):
    """The image that a linker makes with each section at its offset."""
    script = out.with_suffix(".ld")
    parts = "\n".join(f"  {name} {BASE + o:#x} : {{ *({name}) }}" for name, o in places.items())
    script.write_text("SECTIONS {\n" + parts + "\n  /DISCARD/ : { *(.riscv.attributes) *(.comment) }\n}\n")
    bound = [f"--defsym={name}={at:#x}" for name, at in BOUND.items()]
    done = subprocess.run([linker, "--no-relax", "-e", "0", *bound, "-T", script, "-o", out, path], stderr=subprocess.PIPE)
    if done.returncode:
        sys.exit(done.stderr.decode(errors="replace"))
    product = Object(out)
    image = bytearray(need)
    for name, o in places.items():
        part = product.bytes[product.section(name)]
        image[o:o + len(part)] = part
    return bytes(image)


def graph_test(name, obj, layout, image):
    """A test that runs `synthesise` and `fix` on the object's graph."""
    kept = obj.kept()
    blocks, symbols, edges, offered = [], [], [], 0
    for i in kept:
        data = ", ".join(str(b) for b in obj.bytes[i])
        blocks.append(f"    blocks.push(block(alloc, &[{data}], {max(obj.heads[i][8], 1)})?)?;")
    for number, (_, info, _, section, value, _) in enumerate(obj.symbols):
        is_global = info >> 4 != 0
        offered += is_global and section != 0
        if section in kept:
            place = f"GPlace::In({kept.index(section)}, {value})"
        elif section == 0 and is_global:
            place = f"GPlace::External({'true' if info >> 4 == 2 else 'false'})"
        else:
            place = f"GPlace::Abs({value if section == 0xfff1 else 0})"
        symbols.append(f"({place}, {'true' if is_global else 'false'})")
    for block, i in enumerate(kept):
        for at, kind, symbol, addend in obj.relocations(i):
            if kind not in NO_EDGE:
                edges.append(f"({block}, {at}, {kind}, {symbol}, {addend})")
    bound = [f"Some({BOUND[it]})" if it in BOUND else "None" for it in (obj.texts[k] for k in layout.externals)]
    return f"""
#[test]
fn {name}(rt: HostRuntime) -> Result<(), Failed> {{
    let alloc = rt.alloc();
    let mut blocks = Vec::new(alloc);
{chr(10).join(blocks)}
    let graph = graph(alloc, blocks, &[{", ".join(symbols)}], &[{", ".join(edges)}])?;
    let layout = synthesise(alloc, &graph, &[{", ".join(["true"] * offered)}])?;
    assert_eq!(rt; layout.shape.need, {layout.need});
    assert_eq!(rt; layout.externals.len(), {len(bound)});
    let image = fix(alloc, &graph, &layout, {BASE}, &[{", ".join(bound)}]).map_err(|_| Failed)?;
    let wanted: [u8; {layout.need}] = [{", ".join(str(b) for b in image)}];
    for k in 0..{layout.need} {{
        assert_eq!(rt; image.as_slice()[k], wanted[k], "at {{k}}");
    }}
    Ok(())
}}
"""


HEAD = """use got_stubs::synthesise;
use link_model::{Block, Edge, GPlace, GSym, LinkGraph};
use orc_ids::{Items, NameId, SymFlags};
use shared_bytes::SharedBytes;
use std::alloc::{AllocError, AllocFailed, Global};
use unit_fixups::fix;

#[derive(Debug, Drop)]
struct Failed;

impl From<AllocError> for Failed {
    fn from(_e: AllocError) -> Failed {
        Failed
    }
}

impl<T: Drop> From<AllocFailed<T>> for Failed {
    fn from(_e: AllocFailed<T>) -> Failed {
        Failed
    }
}

fn block(alloc: Global, bytes: &[u8], align: u64) -> Result<Block, Failed> {
    Ok(Block { bytes: SharedBytes::copy_of(alloc, bytes)?, size: bytes.len() as u64, align })
}

fn graph(alloc: Global, blocks: Vec<Block>, places: &[(GPlace, bool)], edges: &[(u32, u64, u32, u32, i64)]) -> Result<LinkGraph, Failed> {
    let mut symbols = Vec::new(alloc);
    for (k, (place, global)) in places.iter().enumerate() {
        let flags = SymFlags { weak: false, common: false, exported: *global, callable: false };
        let name = if *global { Some(NameId(k as u32)) } else { None };
        symbols.push(GSym { name, place: *place, flags, global: *global })?;
    }
    let mut all = Vec::new(alloc);
    for (block, offset, kind, target, addend) in edges {
        all.push(Edge { block: *block, offset: *offset, kind: *kind, target: *target, addend: *addend })?;
    }
    Ok(LinkGraph { blocks: Items::from_vec(blocks), symbols: Items::from_vec(symbols), edges: Items::from_vec(all) })
}
"""


def assembled(assembler, work, name, text):
    source, path = work / f"{name}.s", work / f"{name}.o"
    source.write_text(text)
    command = [PREFIX + "as"] if assembler == "gnu" else ["clang", "--target=riscv64", "-c"]
    subprocess.run(command + ["-march=rv64im", "-mabi=lp64", "-o", path, source], check=True)
    return path, Object(path)


def main(seeds):
    installed("rt", "clang", "ld.lld", PREFIX + "as")
    work = pathlib.Path(tempfile.mkdtemp(prefix="compare_links_"))
    shutil.copytree(ROOT / "crates", work / "crates", ignore=shutil.ignore_patterns("out"))
    lines = (ROOT / "crates.txt").read_text()
    (work / "crates.txt").write_text(lines.replace("unit_fixups_tests:", "unit_fixups_tests: shared_bytes"))
    kinds, tests, cells, stubs = set(), [HEAD], 0, 0
    for seed in seeds:
        for assembler in ("gnu", "clang"):
            name = f"seed_{seed}_{assembler}"
            _, obj = assembled(assembler, work, name, assembly(seed))
            layout = Layout(obj)
            cells, stubs = cells + len(layout.cells), stubs + len(layout.stubs)
            written = assembly(seed, [obj.texts[k] for k in layout.cells], [obj.texts[k] for k in layout.stubs])
            path, whole = assembled(assembler, work, f"{name}_whole", written)
            places = dict(zip([obj.names[i] for i in obj.kept()], layout.offsets))
            places |= {".cells": layout.cells_start, ".stubs": layout.stubs_start}
            image = linked("ld.lld", whole, path, places, layout.need, work / f"{name}.lld")
            if linked(PREFIX + "ld", whole, path, places, layout.need, work / f"{name}.bfd") != image:
                print(f"{name}: GNU ld and ld.lld differ")
                return 1
            kinds |= {k for i in obj.kept() for _, k, _, _ in obj.relocations(i)}
            tests.append(graph_test(name, obj, layout, image))
    crate = work / "crates" / "unit_fixups_tests"
    (crate / "src" / "compared.rt").write_text("".join(tests))
    root = crate / "src" / "lib.rt"
    root.write_text(root.read_text().replace("mod tests;", "mod compared;\n#[cfg(test)]\nmod tests;"))
    ran = subprocess.run(["rt", "try", "--test"], cwd=crate, capture_output=True, text=True)
    print(ran.stdout[-3000:], ran.stderr[-3000:])
    print(f"{cells} cells and {stubs} stubs; kinds compared:", sorted(kinds))
    shutil.rmtree(work)
    return ran.returncode


if __name__ == "__main__":
    sys.exit(main([integer(word) for word in arguments(__doc__, 0)] or [1, 2, 3, 4]))
