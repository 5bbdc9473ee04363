#!/usr/bin/env python3
"""The program as it stands in `release/`, for who has no hour to prove it, and the sum of the sources it is made of.

    tools/release.py             makes release/ anew from the program that the gate has just built here
    tools/release.py --compare   compares it with that program, where it is of these sources

`release/SOURCES` has the kit's name, the program's sum, and a sum for each crate that the program is made of: its line of
`crates.txt` and its files below `src`, `specs` and `proofs`; and one for HANDLES. The build is reproducible, so the
gate's program has the same bytes wherever it is built. `--compare` ends with 1 where the sources agree and the bytes
don't, and says in one line where the sources are others.
"""
import functools
import hashlib
import os
import platform
import shutil
import subprocess
import sys
from pathlib import Path

from prover import TOP, Crates

PROGRAM = "orc"
BUILT = TOP / "crates" / PROGRAM / "out" / PROGRAM
RELEASE, SOURCES = TOP / "release" / "orc-x86_64-linux", TOP / "release" / "SOURCES"


@functools.lru_cache(maxsize=None)
def kit_name():
    """The name of the toolchain's kit, or None where there is none."""
    command = shutil.which("rt")
    beside = Path(command).resolve().parent.parent / "KIT-ID" if command else None
    if beside and beside.is_file():
        # (what `rt version` prints, which takes as long as all else here)
        return beside.read_text().split()[0]
    try:
        return subprocess.run(["rt", "version"], stdout=subprocess.PIPE, stderr=subprocess.DEVNULL, text=True, check=True).stdout.split()[0]
    except (OSError, subprocess.CalledProcessError, IndexError):
        return None


def sum_of(data):
    return hashlib.sha256(data).hexdigest()


@functools.lru_cache(maxsize=None)
def sources():
    """A sum for each part that the program is made of, by its name."""
    crates = Crates()
    sums = {"HANDLES": sum_of((TOP / "HANDLES").read_bytes())}
    for name in [*crates.below(PROGRAM), PROGRAM]:
        it = hashlib.sha256(repr(crates.uses[name]).encode())
        for file in crates.files(name):
            it.update(repr((str(file.relative_to(crates.folder(name))), file.read_bytes())).encode())
        sums[name] = it.hexdigest()
    return sums


def sum_of_all(sums):
    return sum_of(repr(sorted(sums.items())).encode())


def released():
    """What release/SOURCES says: the kit, the program's sum, and the sums of the sources. None where there is no release."""
    if not (SOURCES.is_file() and RELEASE.is_file()):
        return None
    rows = dict(line.split() for line in SOURCES.read_text().splitlines())
    return rows.pop("kit", None), rows.pop("program", None), rows


def why_not():
    """Why release/ isn't the program of this checkout, for this machine; None where it is."""
    found = released()
    if not found:
        return "there is no release/"
    kit, program, sums = found
    here, own = kit_name(), sources()
    if (platform.system(), platform.machine()) != ("Linux", "x86_64"):
        return f"release/ is for Linux on x86-64, and this is {platform.system()} on {platform.machine()}"
    if here and here != kit:
        return f"release/ is of {kit}, and this kit is {here}"
    if sums != own:
        others = sorted(name for name in {*sums, *own} if sums.get(name) != own.get(name))
        return f"release/ is of other sources: {', '.join(others[:3])}{' ..' if len(others) > 3 else ''}"
    if sum_of(RELEASE.read_bytes()) != program:
        return "the program in release/ isn't the one that release/SOURCES names"
    return None


def state(crates):
    """What the file system tells of each source, in the words of `./orc`, which compares it at each call."""
    found = ["find", "crates.txt", "HANDLES", *(f"crates/{it}" for it in crates), "(", "-name", "out", "-o", "-name", "must-fail", ")", "-prune", "-o", "-type", "f", "-printf", "%p %s %C@\n"]
    return subprocess.run(found, cwd=TOP, stdout=subprocess.PIPE, text=True, check=True).stdout


def note(origin):
    """Notes beside the program that it is of the sources as they stand, and where it came from."""
    crates = Crates()
    names = [*crates.below(PROGRAM), PROGRAM]
    BUILT.with_name(f"{PROGRAM}.origin").write_text(f"{sum_of_all(sources())} {origin}\n")
    BUILT.with_name(f"{PROGRAM}.crates").write_text("\n".join(f"crates/{it}" for it in names) + "\n")
    BUILT.with_name(f"{PROGRAM}.sources").write_text(state(names))


def take():
    """Puts the program of release/ where `./orc` runs it."""
    BUILT.parent.mkdir(parents=True, exist_ok=True)
    fresh = BUILT.with_name(f"{PROGRAM}.{os.getpid()}")
    shutil.copyfile(RELEASE, fresh)
    fresh.chmod(0o755)
    fresh.replace(BUILT)
    note("release")


def is_older():
    """Whether a source of the built program is newer than it."""
    crates = Crates()
    files = [it for name in [*crates.below(PROGRAM), PROGRAM] for it in crates.files(name)]
    return any(it.stat().st_mtime_ns > BUILT.stat().st_mtime_ns for it in [*files, TOP / "crates.txt", TOP / "HANDLES"])


def make():
    """Makes release/ of the program that the gate built."""
    if not BUILT.is_file():
        return "there is no program: the gate, `rt ci`, builds it"
    if is_older():
        return "a source is newer than the program: run the gate, `rt ci`, first"
    kit = kit_name()
    if not kit:
        return "rt, the command of the toolchain, is not on the path"
    RELEASE.parent.mkdir(exist_ok=True)
    shutil.copyfile(BUILT, RELEASE)
    RELEASE.chmod(0o755)
    rows = {"kit": kit, "program": sum_of(RELEASE.read_bytes()), **sources()}
    SOURCES.write_text("".join(f"{name} {it}\n" for name, it in rows.items()))
    return None


def compare():
    """Compares release/ with the program that the gate has just built here, and gives the status."""
    other = why_not()
    if other:
        # (a program that isn't the one of its own SOURCES is a fault, all else is said and passes)
        print(f"release: not compared: {other}")
        return int("isn't the one" in other)
    if not BUILT.is_file():
        print("release: not compared: the gate left no program")
        return 0
    is_same = RELEASE.read_bytes() == BUILT.read_bytes()
    print(f"release: {'the same bytes as' if is_same else 'OTHER BYTES than'} the program that the gate built of the same sources")
    return int(not is_same)


def main(words):
    if words == ["--compare"]:
        return compare()
    if words:
        print(__doc__)
        return 2
    why = make()
    print(f"release: {why}" if why else f"release: {RELEASE.stat().st_size} bytes, of the sources {sum_of_all(sources())[:16]}")
    return int(bool(why))


if __name__ == "__main__":
    sys.exit(main(sys.argv[1:]))
