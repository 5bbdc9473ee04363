#!/usr/bin/env python3
"""Runs all tests and programs without a proof, to see in minutes whether a change does what it should.

    tools/quick_tests.py [CRATE ..]

Each crate that has tests is compiled with checks of each index, sum and access, and its tests are run; each program
is run on what the gate runs it on, and what it writes is compared. As many at once as there are processors, and the
largest first. Nothing is proved by it, and no wrong body is tried: a crate's own check and the gate do that. Ends
with 1 where one fails, and prints what that one said.
"""
import os
import re
import subprocess
import sys
import time
from concurrent.futures import ThreadPoolExecutor

from prover import Crates

TESTS = re.compile(r"#\[test\]")


def has_tests(crates, name):
    return any(TESTS.search(it.read_text()) for it in crates.files(name, ("src",)))


def is_program(crates, name):
    return (crates.folder(name) / "src" / "main.rt").is_file()


def run_tests(folder):
    """Runs the tests of a crate, and gives why they fail, if they do."""
    ran = subprocess.run(["rt", "try", "--test"], cwd=folder, stdin=subprocess.DEVNULL, stdout=subprocess.PIPE, stderr=subprocess.STDOUT, text=True, errors="replace", check=False)
    return None if ran.returncode == 0 and "test result: ok" in ran.stdout else ran.stdout


def run_program(folder):
    """Runs a program as the gate does, and gives what differs, if something does."""
    text = lambda name: (folder / name).read_bytes() if (folder / name).is_file() else b""
    words = text("args").decode().split("\n")[:-1] if text("args") else []
    data = sorted(it for it in (folder / "data").rglob("*") if it.is_file()) if (folder / "data").is_dir() else []
    given = [word for it in data for word in ("--data", f"{it.relative_to(folder / 'data')}={it}")]
    ran = subprocess.run(["rt", "try", *given, "--", *words], cwd=folder, input=text("stdin"), stdout=subprocess.PIPE, stderr=subprocess.PIPE, check=False)
    status = int(text("status") or b"0")
    if ran.returncode != status:
        return f"status {ran.returncode}, and not {status}\n{ran.stderr.decode(errors='replace')}"
    return None if ran.stdout == text("stdout") else f"it wrote\n{ran.stdout.decode(errors='replace')}"


def main(names):
    crates = Crates()
    unknown = [it for it in names if it not in crates.uses]
    if unknown:
        print(f"crates.txt has no crate {', '.join(unknown)}")
        return 2
    every = names or list(crates.uses)
    lines = {it: sum(file.read_bytes().count(b"\n") for name in [it, *crates.below(it)] for file in crates.files(name, ("src",))) for it in every}
    jobs = [(it, run_tests, "tests") for it in every if has_tests(crates, it)] + [(it, run_program, "program") for it in every if is_program(crates, it)]
    jobs.sort(key=lambda it: -lines[it[0]])
    failed, begun = [], time.monotonic()

    def one(job):
        name, call, word = job
        at = time.monotonic()
        why = call(crates.folder(name))
        print(f"{name}: {word} {'FAILED' if why else 'passed'}, {time.monotonic() - at:.0f} s" + (f"\n{why}" if why else ""), flush=True)
        return not why

    with ThreadPoolExecutor(len(os.sched_getaffinity(0))) as pool:
        failed = [job for job, is_well in zip(jobs, pool.map(one, jobs)) if not is_well]
    print(f"{len(jobs) - len(failed)} passed, {len(failed)} failed, without a proof, in {(time.monotonic() - begun) / 60:.0f} minutes")
    return int(bool(failed))


if __name__ == "__main__":
    sys.exit(main(sys.argv[1:]))
