#!/usr/bin/env python3
"""Proves and builds the program `orc`: crates that don't need each other at the same time.

    tools/build_orc.py [--anew] [JOBS]

`./orc` calls it where there is no program yet, or a source isn't as it was. Where `release/` has the program of
these very sources, and this is the machine that it is for, that is taken, and nothing proved; with --anew it is
proved and built all the same. JOBS is how many crates are proved at once: as many as there are processors and
memory for, where it is left out.

Standard error has one line that renews itself on a terminal, and a line for each crate elsewhere. What
the prover says is kept, and printed whole for a crate that fails. What was proved stays in the crates'
folders `out`, so a build that was interrupted goes on where it was.

Each crate is proved in a copy of the repository among the temporary files, since `rt` holds the folders
of a crate and of all below it while it works there; what it made is then linked into this repository.
"""
import fcntl
import os
import shutil
import signal
import subprocess
import sys
import tempfile
import time
from concurrent.futures import FIRST_COMPLETED, ThreadPoolExecutor, wait

import release
from tool_words import NO_KIT, arguments, integers

ROOT = os.path.dirname(os.path.dirname(os.path.realpath(__file__)))
PROGRAM = "orc"
# Seconds of one processor that a line of code takes to prove, as measured over the whole repository.
PACE = 0.12
# What a prover takes of the memory, which fits all that were measured: so much, and for each line of code.
BYTES, BYTES_OF_A_LINE = 1_000_000_000, 700_000
# What a check reads and makes.
SOURCES, MADE = ("src", "specs", "proofs"), ("rlib", "incremental")


def crates_below(program):
    """The crates that the program is built from, lowest first, each with those it names."""
    named = {}
    with open(f"{ROOT}/crates.txt", encoding="utf-8") as lines:
        for line in lines:
            head, colon, names = line.partition(":")
            if colon and not line.startswith("#"):
                named[head.split()[0]] = names.split()
    found = {}

    def visit(name):
        if name in named and name not in found:
            for below in named[name]:
                visit(below)
            found[name] = [it for it in named[name] if it in named]

    visit(program)
    return found


def lines_of(name):
    """How many lines of code a crate has."""
    files = (f"{at}/{it}" for at, _, its in os.walk(f"{ROOT}/crates/{name}/src") for it in its)
    return sum(open(it, "rb").read().count(b"\n") for it in files)


def free_bytes():
    with open("/proc/meminfo", encoding="utf-8") as lines:
        return next(1024 * int(it.split()[1]) for it in lines if it.startswith("MemAvailable"))


def link(one, other):
    """A second name for a file that `rt` replaces and never changes, and a copy of any other."""
    try:
        os.link(one, other)
    except OSError:
        shutil.copy2(one, other)


def link_proof(one, other):
    (link if one.endswith(".oantt") else shutil.copy2)(one, other)


def give(source, to):
    """Puts what a check made in one copy's folder of a crate into that of another, in place of what is there."""
    for made, how in zip(MADE, (link, link_proof)):
        if os.path.isdir(f"{source}/out/{made}"):
            os.makedirs(f"{to}/out", exist_ok=True)
            shutil.rmtree(f"{to}/out/{made}", ignore_errors=True)
            shutil.copytree(f"{source}/out/{made}", f"{to}/out/{made}", copy_function=how)


class Copies:
    """Copies of the crates among the temporary files, one for each crate that is being proved."""

    def __init__(self, crates):
        self.crates = crates
        self.room = tempfile.mkdtemp(prefix=f"orc-build-{os.getpid()}-")
        self.idle, self.made = [], 0

    def take(self, name, below):
        """A copy that has what was made of the crates below, and what an earlier check of this one left."""
        if self.idle:
            copy = self.idle.pop()
        else:
            copy, self.made = f"{self.room}/{self.made}", self.made + 1
            os.makedirs(copy)
            for file in ("crates.txt", "HANDLES"):
                shutil.copy2(f"{ROOT}/{file}", copy)
            for crate in self.crates:
                for part in SOURCES:
                    if os.path.isdir(f"{ROOT}/crates/{crate}/{part}"):
                        shutil.copytree(f"{ROOT}/crates/{crate}/{part}", f"{copy}/crates/{crate}/{part}")
            # (rt reads no line of a crate that isn't there)
            with open(f"{copy}/crates.txt", "w", encoding="utf-8") as to, open(f"{ROOT}/crates.txt", encoding="utf-8") as lines:
                to.writelines(it for it in lines if it.partition(":")[0].split()[:1] and it.partition(":")[0].split()[0] in self.crates)
        for crate in [*below, name]:
            if crate == name or not os.path.isdir(f"{copy}/crates/{crate}/out/rlib"):
                give(f"{ROOT}/crates/{crate}", f"{copy}/crates/{crate}")
        return copy

    def remove(self):
        shutil.rmtree(self.room, ignore_errors=True)


class Telling:
    """What is said of the build while it goes on."""

    def __init__(self, work):
        self.work, self.begun, self.done = work, time.monotonic(), {}
        self.is_terminal = sys.stderr.isatty()

    def minutes(self, lanes):
        """How many minutes the whole build may take: what it has taken, and what is left at the pace so far."""
        left = sum(it for name, it in self.work.items() if name not in self.done)
        told = sum(self.work[it] for it in self.done)
        pace = sum(self.done.values()) / told if told > 2000 else PACE
        longest = max((it for name, it in self.work.items() if name not in self.done), default=0)
        return (time.monotonic() - self.begun + pace * max(left / lanes, longest)) / 60

    def renew(self, running, lanes):
        if self.is_terminal:
            so_far = (time.monotonic() - self.begun) / 60
            line = f"orc: proved and built, this once: {len(self.done)} of {len(self.work)} crates, {so_far:.0f} of about {self.minutes(lanes):.0f} minutes; now {', '.join(running)}"
            width = shutil.get_terminal_size().columns - 1
            print(f"\r\033[K{line[:width]}", end="", file=sys.stderr, flush=True)

    def end_of(self, name, seconds, lanes):
        self.done[name] = seconds
        if not self.is_terminal:
            print(f"orc: {name} proved and built in {seconds:.0f} s ({len(self.done)} of {len(self.work)} crates; about {self.minutes(lanes):.0f} minutes in all)", file=sys.stderr, flush=True)

    def end(self):
        if self.is_terminal:
            print("\r\033[K", end="", file=sys.stderr, flush=True)


def build(crates, lanes):
    """Proves and builds each library, and gives the name and the words of the first that fails, if one does."""
    libraries = [it for it in crates if it != PROGRAM]
    work = {it: lines_of(it) for it in crates}
    below = {}
    for name in crates:
        below[name] = [it for it in libraries if any(it == near or it in below[near] for near in crates[name])]
    # How much must be proved one after the other from a crate on: the longest first.
    chain = {it: work[it] + max((work[up] for up in crates if it in below[up]), default=0) for it in crates}
    copies, telling = Copies(crates), Telling(work)
    running, left, failed = {}, sorted(libraries, key=lambda it: -chain[it]), None
    memory = 0.85 * free_bytes()

    def need(name):
        return BYTES + BYTES_OF_A_LINE * work[name]

    def jobs_for(name):
        """Two for the crate that most others wait for, while its chain is longer than the rest is wide."""
        rest = sum(work[it] for it in [*left, *(it for it, _ in running.values())])
        is_head = not any(chain[it] > chain[name] for it, _ in running.values())
        return 2 if is_head and chain[name] > rest / lanes and len(running) < lanes - 1 else 1

    def prove(name, copy, jobs):
        begun = time.monotonic()
        words = ["rt", "lib", "--jobs", str(jobs)]
        told = subprocess.run(words, cwd=f"{copy}/crates/{name}", stdin=subprocess.DEVNULL, stdout=subprocess.PIPE, stderr=subprocess.STDOUT, text=True, errors="replace")
        return told.returncode, told.stdout, time.monotonic() - begun

    pool = ThreadPoolExecutor(lanes)
    try:
        while (left and not failed) or running:
            ready = [it for it in left if all(under in telling.done for under in below[it])] if not failed else []
            for name in ready:
                held = sum(need(it) for it, _ in running.values())
                if len(running) < lanes and (not running or held + need(name) <= memory):
                    left.remove(name)
                    copy = copies.take(name, below[name])
                    running[pool.submit(prove, name, copy, jobs_for(name))] = name, copy
            telling.renew([name for name, _ in running.values()], lanes)
            for it in wait(running, timeout=1, return_when=FIRST_COMPLETED).done:
                name, copy = running.pop(it)
                status, said, seconds = it.result()
                give(f"{copy}/crates/{name}", f"{ROOT}/crates/{name}")
                copies.idle.append(copy)
                if status:
                    failed = failed or (name, said)
                else:
                    telling.end_of(name, seconds, lanes)
        if not failed:
            telling.renew([PROGRAM], lanes)
            release.BUILT.unlink(missing_ok=True)
            # (`rt run` has no form that only builds: the new program runs once, without words)
            told = subprocess.run(["rt", "run"], cwd=f"{ROOT}/crates/{PROGRAM}", stdin=subprocess.DEVNULL, stdout=subprocess.PIPE, stderr=subprocess.STDOUT, text=True, errors="replace")
            if not os.access(f"{ROOT}/crates/{PROGRAM}/out/{PROGRAM}", os.X_OK):
                failed = PROGRAM, told.stdout
    finally:
        telling.end()
        pool.shutdown(wait=False, cancel_futures=True)
        copies.remove()
    return failed


def is_there():
    """Whether the program stands ready: built of the sources as they are, or taken from release/. Says why not, where a build is to come."""
    origin = release.BUILT.with_name(f"{PROGRAM}.origin")
    if os.access(release.BUILT, os.X_OK):
        sum, _, word = origin.read_text().strip().partition(" ") if origin.is_file() else ("", "", "")
        if sum == release.sum_of_all(release.sources()):
            release.note(word)
            return True
        if not sum and not release.is_older():
            # (the gate leaves a program, and no note)
            release.note("built here")
            return True
    why = release.why_not()
    if why:
        print(f"orc: {why}; so it is proved and built here", file=sys.stderr, flush=True)
        return False
    release.take()
    return True


def main(words):
    is_anew = "--anew" in words
    given = [it for it in words if it != "--anew"]
    crates = crates_below(PROGRAM)
    (lanes,) = integers(given, len(os.sched_getaffinity(0)))
    signal.signal(signal.SIGTERM, lambda *_: sys.exit(143))
    # (a second build waits here, and then finds everything made)
    with open(f"{ROOT}/crates.txt", encoding="utf-8") as held:
        fcntl.flock(held, fcntl.LOCK_EX)
        if not is_anew and is_there():
            return 0
        if not shutil.which("rt"):
            print(f"orc: {NO_KIT}", file=sys.stderr)
            return 1
        print("orc: meanwhile tools/unproved.py runs the same words without a proof, in some two minutes", file=sys.stderr, flush=True)
        try:
            failed = build(crates, lanes)
        except KeyboardInterrupt:
            print("orc: the build was interrupted; what was proved is kept", file=sys.stderr)
            return 130
        if failed:
            print(f"{failed[1]}orc: {failed[0]} was not proved and built", file=sys.stderr)
            return 1
        release.note("built here")
    return 0


if __name__ == "__main__":
    sys.exit(main(arguments(__doc__, 0, 2)))
