"""The crates of this repository, and calls of the prover on one of them over libraries that are built once.

The gate builds each library with its statements alone, and so does this module: where the gate has run in this
checkout, or in another one that holds the same texts, its libraries are taken; what lacks is built, lowest first.
"""
import fcntl
import hashlib
import os
import subprocess
import time
from pathlib import Path

from tool_words import NO_KIT

TOP = Path(__file__).resolve().parent.parent
# What a check reads of a crate.
PARTS = ("src", "specs", "proofs")


def kit():
    """The folder of the toolchain."""
    try:
        page = subprocess.run(["rt", "doc"], stdout=subprocess.PIPE, text=True, check=True).stdout
    except (OSError, subprocess.CalledProcessError):
        raise SystemExit(NO_KIT) from None
    return Path(page.strip()).parent


class Crates:
    """The crates of a checkout, as its crates.txt has them."""

    def __init__(self, top=TOP):
        self.top, self.uses, self.sums = Path(top), {}, {}
        for line in (self.top / "crates.txt").read_text().splitlines():
            head, colon, names = line.partition("#")[0].partition(":")
            if colon:
                self.uses[head.split()[0]] = names.split()

    def own(self, name):
        """The crates of this repository that a crate names."""
        return [it for it in self.uses[name] if it in self.uses]

    def below(self, name):
        """All crates of this repository below a crate, each after those that it names."""
        found = {}
        for near in self.own(name):
            found |= dict.fromkeys([*self.below(near), near])
        return list(found)

    def folder(self, name):
        return self.top / "crates" / name

    def files(self, name, parts=PARTS):
        """The files of a crate, by their path in it."""
        for part in parts:
            yield from sorted(it for it in (self.folder(name) / part).rglob("*") if it.is_file())

    def sum_of(self, name):
        """A sum of all texts that a crate is made of, with those below it."""
        if name not in self.sums:
            it = hashlib.sha256(repr(self.uses[name]).encode())
            for file in self.files(name):
                it.update(repr((str(file.relative_to(self.folder(name))), file.read_bytes())).encode())
            for near in self.own(name):
                it.update(self.sum_of(near).encode())
            self.sums[name] = it.hexdigest()
        return self.sums[name]


class Prover:
    """Calls of the prover on crates of one checkout. `beside` is another checkout, whose gate's libraries may be taken."""

    def __init__(self, crates, beside=None, is_after_gate=False):
        self.crates, self.kit, self.is_after_gate, self.chosen = crates, kit(), is_after_gate, {}
        self.beside = Crates(beside) if beside else None
        # the moment after which calls end with subprocess.TimeoutExpired
        self.until = None

    def library(self, name):
        """The folder of a crate's library, which is built where there is none of its text."""
        # (a second thread that asks for the same waits in `built`)
        if name not in self.chosen:
            self.chosen[name] = self.of_gate(name) or self.of_beside(name) or self.built(name)
        return self.chosen[name]

    def of_gate(self, name):
        """Where the gate has just run here: what it built."""
        at = self.crates.folder(name) / "out" / "rlib"
        return at if self.is_after_gate and (at / f"{name}.rlib" / "format").is_file() else None

    def of_beside(self, name):
        """What another checkout's gate built of the same texts, over libraries that are taken from there too."""
        if not self.beside or name not in self.beside.uses or self.beside.sum_of(name) != self.crates.sum_of(name):
            return None
        at = self.beside.folder(name) / "out" / "rlib"
        is_there = (at / f"{name}.rlib" / "format").is_file() and (at / f"{name}.rlib" / "toolchain").is_dir()
        others = (self.library(it).parent.parent.parent.parent for it in self.crates.below(name))
        return at if is_there and all(it == self.beside.top for it in others) else None

    def made_over(self, name):
        """A sum of a crate's texts and of the very libraries that stand below it."""
        below = [(it, os.stat(self.library(it) / f"{it}.rlib" / "format").st_ino) for it in self.crates.below(name)]
        return hashlib.sha256(repr((self.crates.sum_of(name), str(self.kit), below)).encode()).hexdigest()

    def built(self, name):
        """Builds a library with its statements, or finds it built of the same."""
        at = self.crates.folder(name) / "out" / "statements"
        at.mkdir(parents=True, exist_ok=True)
        with open(at / "lock", "w", encoding="utf-8") as held:
            fcntl.flock(held, fcntl.LOCK_EX)
            sum, made = self.made_over(name), at / "sum"
            if not made.is_file() or made.read_text() != sum:
                made.unlink(missing_ok=True)
                print(f"{name}: proved and built, once", flush=True)
                words = ["build", *self.words(name), "--jobs", "1", "--statements", "-o", str(at / f"{name}.rlib"), "--empty-contracts"]
                said = self.call(words, self.crates.folder(name))
                if said.returncode:
                    raise SystemExit(f"{said.stdout}{name} was not proved")
                made.write_text(sum)
        return at

    def words(self, name):
        """What the prover is told of a crate: its root, and the libraries below it."""
        root = "src/main.rt" if (self.crates.folder(name) / "src" / "main.rt").is_file() else "src/lib.rt"
        words = ["--crate-name", name, root]
        for it in ["std", *(it for it in self.crates.uses[name] if it not in self.crates.uses)]:
            words += ["--extern", f"{it}={self.kit}/rlibs/{it}.rlib"]
        words += ["-L", f"dependency={self.kit}/rlibs"]
        for it in self.crates.own(name):
            words += ["--extern", f"{it}={self.library(it) / it}.rlib"]
        for it in self.crates.below(name):
            words += ["-L", f"dependency={self.library(it)}"]
        logic = ["--antt-project", f"{self.kit}/rattle/logic/antt-project.json", "--logic-built", f"{self.kit}/logic_built"]
        return [*words, *logic, "--links", f"{name}="]

    def call(self, words, folder):
        how = {"cwd": folder, "stdin": subprocess.DEVNULL, "stdout": subprocess.PIPE, "stderr": subprocess.STDOUT, "text": True, "errors": "replace"}
        left = max(0.1, self.until - time.monotonic()) if self.until else None
        return subprocess.run([str(self.kit / "bin" / "rattle"), *words], check=False, timeout=left, **how)

    def check(self, name, folder, kept, flags=()):
        """Checks a crate as it stands in a folder, over what earlier checks of it kept."""
        jobs = [] if "--jobs" in flags else ["--jobs", "1"]
        return self.call(["check", *self.words(name), *jobs, *flags, "--incremental", str(kept)], folder)
