#!/usr/bin/env python3
"""Laboratories: programs that measure and print, and promise nothing, so that the gate needn't prove them.

    tools/lab.py NAME [WORDS ..]      proves, builds and runs one, with these words and the caller's streams
    tools/lab.py --path NAME          proves and builds it, and prints where the program is
    tools/lab.py --gate [NAME ..]     proves them, runs their tests and programs, and tries their wrong bodies
    tools/lab.py --list               their names

They stand in `tools/labs/`, as crates do in `crates/`, but that their files end in `.txt`, since `rt` takes no
source that `crates.txt` doesn't list; `tools/labs/crates.txt.txt` has their lines. Each call brings a repository
of their own up to date, which has them and the crates that they stand on, in the user's cache folder.
"""
import hashlib
import os
import shutil
import subprocess
import sys
from pathlib import Path

from prover import PARTS, TOP, Crates

LABS = TOP / "tools" / "labs"
LINES = LABS / "crates.txt.txt"
# What a laboratory is run on, beside its sources.
BESIDE = ("args", "stdin", "stdout", "status", "data", "must-fail")


def names():
    return [line.split(":")[0].split()[0] for line in LINES.read_text().splitlines() if ":" in line and not line.startswith("#")]


def home():
    """The laboratories' own repository, for this checkout."""
    cache = Path(os.environ.get("XDG_CACHE_HOME") or Path.home() / ".cache")
    return cache / "orc-labs" / hashlib.sha256(str(TOP).encode()).hexdigest()[:12]


def plain(path):
    """The path that a file of a laboratory has in a crate."""
    return path.with_suffix("") if path.name.endswith((".rt.txt", ".antt.txt")) else path


def put(source, to):
    """Writes a file where it isn't as it should be."""
    data = source.read_bytes()
    if not to.is_file() or to.read_bytes() != data:
        to.parent.mkdir(parents=True, exist_ok=True)
        to.write_bytes(data)


def renew(wanted):
    """Brings the laboratories' repository up to date for some of them, and gives its folder."""
    top, lines = home(), LINES.read_text()
    top.mkdir(parents=True, exist_ok=True)
    text = (TOP / "crates.txt").read_text() + lines
    crates = Crates(TOP)
    for line in lines.splitlines():
        head, colon, uses = line.partition("#")[0].partition(":")
        if colon:
            crates.uses[head.split()[0]] = uses.split()
    needed = dict.fromkeys(it for name in wanted for it in [*crates.below(name), name])
    for name in needed:
        source, to = (LABS if (LABS / name).is_dir() else TOP / "crates") / name, top / "crates" / name
        parts = [*PARTS, *BESIDE] if source.parent == LABS else PARTS
        files = [it for part in parts for it in [source / part, *(source / part).rglob("*")] if it.is_file()]
        placed = {to / plain(it.relative_to(source)): it for it in files}
        for there, it in placed.items():
            put(it, there)
        for part in [*PARTS, *BESIDE]:
            for old in (to / part).rglob("*"):
                if old.is_file() and old not in placed:
                    old.unlink()
    (top / "HANDLES").write_bytes((TOP / "HANDLES").read_bytes())
    for it in (top / "crates").iterdir():
        if it.name not in needed:
            shutil.rmtree(it)
    kept = [it for it in text.splitlines() if it.partition(":")[0].split()[:1] and it.partition(":")[0].split()[0] in needed]
    (top / "crates.txt").write_text("\n".join(kept) + "\n")
    subprocess.run(["git", "init", "--quiet"], cwd=top, check=True)
    return top


def path(name):
    """Proves and builds a laboratory, and gives where its program is."""
    if name not in names():
        raise SystemExit(f"{name} is no laboratory: {', '.join(names())}")
    folder = renew([name]) / "crates" / name
    program, text = folder / "out" / name, lambda it: (folder / it).read_text() if (folder / it).is_file() else ""
    # (`rt run` has no form that only builds: it runs as the gate would)
    stdin = (folder / "stdin").open("rb") if (folder / "stdin").is_file() else subprocess.DEVNULL
    ran = subprocess.run(["rt", "run", "--", *text("args").splitlines()], cwd=folder, stdin=stdin, stdout=subprocess.PIPE, stderr=subprocess.STDOUT, text=True, errors="replace", check=False)
    if not program.is_file():
        raise SystemExit(f"{ran.stdout}{name} was not proved and built")
    return program


def main(words):
    if words == ["--list"]:
        print("\n".join(names()))
        return 0
    if words[:1] == ["--gate"]:
        wanted = words[1:] or names()
        return subprocess.run(["rt", "ci", *wanted], cwd=renew(wanted), check=False).returncode
    if words[:1] == ["--path"] and len(words) == 2:
        print(path(words[1]))
        return 0
    if not words or words[0].startswith("-"):
        print(__doc__)
        return 2
    return subprocess.run([str(path(words[0])), *words[1:]], check=False).returncode


if __name__ == "__main__":
    sys.exit(main(sys.argv[1:]))
