#!/usr/bin/env python3
"""Compiles the C programs of examples/ and tools/c_programs/ by two compilers, at five levels and in four forms
of code, links and runs the objects with orc, alone and with 4 workers, and compares output and exit status with
qemu-riscv64 on the same objects, linked statically with a start that calls main. Says how long each run took.

    tools/compare_c.py [ORC] [--only WORD] [--levels O0,O2,..] [--keep FOLDER] [--fuel N]

A C file there is a program, and so is a folder: its C files are the objects of one program. A file of
tools/library_programs/ is a program of its object and of those members of picolibc's and libgcc's archives that the
static link takes; it is passed over where these aren't installed. ORC is the program, by default the one at the top of
the repository. --only takes the programs alone whose names have WORD in them, and --keep keeps the objects. The exit
status is 1 where something differs, and 2 where nothing can be compared."""
import pathlib
import re
import shutil
import subprocess
import sys
import tempfile
import time

import tool_words

TOP = pathlib.Path(__file__).resolve().parent.parent
FOLDERS = [TOP / "examples", TOP / "tools" / "c_programs"]
LIBRARY_PROGRAMS = TOP / "tools" / "library_programs"
# A C library for RV64IM, and what its members need of the compiler's.
PICOLIBC = pathlib.Path("/usr/lib/picolibc/riscv64-unknown-elf")
ARCHIVES = [*PICOLIBC.glob("lib/rv64im/lp64/libc.a"), *pathlib.Path("/usr/lib/gcc/riscv64-unknown-elf").glob("*/rv64im/lp64/libgcc.a")]
# Code has addresses below 2^31 in the static link too, so that absolute addresses (medlow) reach.
TARGET = "-march=rv64im -mabi=lp64 -ffreestanding -fcommon".split()
COMPILERS = {
    "gcc": ["riscv64-linux-gnu-gcc"],
    "clang": ["clang", "--target=riscv64"],
}
LEVELS = ["-O0", "-O1", "-O2", "-O3", "-Os"]
FORMS = {
    "padded": "-mcmodel=medany -fno-pic -mrelax -falign-functions=32 -falign-loops=16".split(),
    "norelax": "-mcmodel=medany -fno-pic -mno-relax".split(),
    "pic": "-mcmodel=medany -fPIC".split(),
    "medlow": "-mcmodel=medlow -fno-pic".split(),
}
WORKERS = ["0", "4"]


def programs():
    """The name of each program, and its files."""
    found = {}
    for folder in FOLDERS:
        for path in sorted(folder.iterdir()):
            if path.suffix == ".c":
                found[path.stem] = [path]
            elif path.is_dir() and list(path.glob("*.c")):
                found[path.name] = sorted(path.glob("*.c"))
    return found


def library_programs():
    """The same of the programs that use the library."""
    return {path.stem: [path] for path in sorted(LIBRARY_PROGRAMS.glob("*.c"))}


def is_installed(compiler, *_):
    """A compiler that isn't there is passed over, and that is said."""
    if not shutil.which(compiler):
        print(f"skipped: what {compiler} makes, which isn't installed: it is in {tool_words.where(compiler)}")
    return shutil.which(compiler) is not None


def run(command):
    """What compilers and linkers say is shown where they fail."""
    done = subprocess.run([str(word) for word in command], stderr=subprocess.PIPE)
    if done.returncode:
        sys.exit(done.stderr.decode(errors="replace"))


def outcome(command, folder):
    began = time.monotonic()
    done = subprocess.run([str(word) for word in command], cwd=folder, stdout=subprocess.PIPE, stderr=subprocess.PIPE)
    return done.stdout, done.returncode, done.stderr, time.monotonic() - began


def compiled(folder, sources, stem, command):
    """The objects of a program, in the order of its files."""
    objects = []
    for source in sources:
        made = folder / f"{stem}.{source.stem}.o"
        run([*command, *TARGET, "-I", TOP / "examples", "-I", PICOLIBC / "include", "-c", source, "-o", made])
        objects.append(made.name)
    return objects


def members(folder, objects, stem):
    """The members of the archives that a static link of the objects takes, each as a file."""
    chart = folder / f"{stem}.map"
    run(["riscv64-linux-gnu-ld", "-static", "--no-relax", f"-Map={chart}", folder / "start.o", *[folder / it for it in objects], *ARCHIVES, "-o", folder / stem])
    taken = []
    for archive in ARCHIVES:
        names = sorted(set(re.findall(rf"^{re.escape(str(archive))}\((.*?)\)$", chart.read_text(), re.MULTILINE)))
        if names:
            run(["riscv64-linux-gnu-ar", "x", "--output", folder, archive, *names])
        taken += names
    return taken


def compare(orc, folder, sources, stem, command, fuel):
    """How many runs of one build of a program differ from that of the static link."""
    objects = compiled(folder, sources, stem, command)
    if sources[0].parent == LIBRARY_PROGRAMS:
        objects += members(folder, objects, stem)
    run(["riscv64-linux-gnu-ld", "-static", "--no-relax", folder / "start.o", *[folder / it for it in objects], "-o", folder / stem])
    wanted, status, _, there = outcome(["qemu-riscv64", folder / stem], folder)
    unlike, told = 0, []
    for workers in WORKERS:
        written, answered, log, here = outcome([orc, "run", *objects, "--workers", workers, "--fuel", fuel], folder)
        end = log.decode(errors="replace").splitlines()[-1:] or [""]
        if (wanted, status) != (written, answered) or not end[0].startswith("end exited "):
            unlike += 1
            print(f"{stem} with {workers} workers: {end[0]!r}, status {answered}, output {written!r}; wanted {status} and {wanted!r}")
        told.append(f"{here:.3f}")
    verdict = "UNLIKE" if unlike else "alike"
    print(f"{stem:34} {verdict} status {status} orc {', '.join(told)} s, qemu {there:.3f} s", flush=True)
    return unlike


def main():
    parser = tool_words.Parser(__doc__)
    parser.add_argument("orc", nargs="?", metavar="ORC")
    parser.add_argument("--only", default="", metavar="WORD")
    parser.add_argument("--levels", default=",".join(it[1:] for it in LEVELS), metavar="O0,O2,..")
    parser.add_argument("--keep", type=pathlib.Path, metavar="FOLDER")
    parser.add_argument("--fuel", default=1 << 40, type=int, metavar="N")
    arguments = parser.parse_args()
    unlike, count = 0, 0
    chosen = {name: sources for name, sources in {**programs(), **library_programs()}.items() if arguments.only in name}
    if len(ARCHIVES) < 2 and chosen.keys() & library_programs().keys():
        print("skipped: the programs of tools/library_programs, since picolibc isn't installed: it is in Debian's package picolibc-riscv64-unknown-elf")
        chosen = {name: sources for name, sources in chosen.items() if name not in library_programs()}
    if not chosen:
        tool_words.end(f"--only {arguments.only}: no program has this in its name")
    orc = tool_words.orc(arguments.orc)
    tool_words.installed("riscv64-linux-gnu-as", "riscv64-linux-gnu-ld", "qemu-riscv64")
    compilers = {name: command for name, command in COMPILERS.items() if is_installed(*command)}
    if not compilers:
        return 2
    with tempfile.TemporaryDirectory() as made:
        folder = (arguments.keep or pathlib.Path(made)).resolve()
        folder.mkdir(parents=True, exist_ok=True)
        start = TOP / "tools" / "c_programs" / "start.s"
        run(["riscv64-linux-gnu-as", "-march=rv64im", "-mabi=lp64", start, "-o", folder / "start.o"])
        for program, sources in chosen.items():
            for name, compiler in compilers.items():
                for level in arguments.levels.split(","):
                    for form, flags in FORMS.items():
                        stem = f"{program}.{name}-{level}-{form}"
                        unlike += compare(orc, folder, sources, stem, [*compiler, f"-{level}", *flags], arguments.fuel)
                        count += len(WORKERS)
    print(f"{count} runs, {unlike} unlike" if unlike else f"{count} runs, all alike")
    return 1 if unlike else 0


if __name__ == "__main__":
    sys.exit(main())
