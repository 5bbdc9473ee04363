#!/usr/bin/env python3
"""Runs the gate from nothing in a fresh clone, and prints what each crate took.

    tools/gate_times.py [PROCESSORS]

With PROCESSORS the gate may use so many of the machine's. A row for each crate has the processor seconds
of its proof, of its tests' proof and of its wrong bodies (and of the check that they begin with), the wall
time from its first check to its last, and the most memory that one of its checks held. What is read are
the prover's processes, looked at each second, so a check of less than a second may be missing.

The last lines say how many wrong bodies the gate tries, and how many stand in tools/wrong_bodies beside it.

Nothing is kept of the run: other checkouts on the machine find no proof of it.
"""
import glob
import os
import re
import shutil
import signal
import subprocess
import sys
import tempfile
import time
from collections import defaultdict

from tool_words import arguments, installed, integers

ROOT = os.path.dirname(os.path.dirname(os.path.realpath(__file__)))
TICKS = os.sysconf("SC_CLK_TCK")
KINDS = ("proof", "tests", "edits")


def text(path):
    with open(path, "rb") as it:
        return it.read().decode(errors="replace")


class Check:
    """One process of the prover: what it is for, and what it has taken when it was last looked at."""

    def __init__(self, pid, words):
        self.crate = words[words.index("--crate-name") + 1]
        is_edit = os.path.basename(os.readlink(f"/proc/{pid}/cwd")).startswith("rt-edit")
        self.kind = "edits" if is_edit else "tests" if "--test" in words else "proof"
        self.begun = time.monotonic()
        self.ended, self.seconds, self.bytes = self.begun, 0.0, 0

    def look(self, pid):
        fields = text(f"/proc/{pid}/stat").rpartition(")")[2].split()
        self.seconds = (int(fields[11]) + int(fields[12])) / TICKS
        peak = re.search(r"VmHWM:\s+(\d+)", text(f"/proc/{pid}/status"))
        self.bytes = max(self.bytes, 1024 * int(peak[1]) if peak else 0)
        self.ended = time.monotonic()


def look(session, checks):
    """Looks at the processes of the prover in a session."""
    for pid in filter(str.isdigit, os.listdir("/proc")):
        try:
            stat = text(f"/proc/{pid}/stat")
            if int(stat.rpartition(")")[2].split()[3]) != session:
                continue
            key = pid, stat.rpartition(")")[2].split()[19]
            words = text(f"/proc/{pid}/cmdline").split("\0")
            if key not in checks and "--crate-name" in words:
                checks[key] = Check(pid, words)
            if key in checks:
                checks[key].look(pid)
        except (OSError, ValueError, IndexError):
            # (it has ended)
            continue


def table(checks):
    rows = defaultdict(list)
    for it in checks.values():
        rows[it.crate].append(it)
    width = max(map(len, rows), default=5)
    print(f"{'crate':{width}}  proof s  tests s  edits s   wall s  peak GB")
    sums = dict.fromkeys(KINDS, 0.0)
    for crate, its in sorted(rows.items(), key=lambda row: -sum(it.seconds for it in row[1])):
        spent = {kind: sum(it.seconds for it in its if it.kind == kind) for kind in KINDS}
        wall = max(it.ended for it in its) - min(it.begun for it in its)
        peak = max(it.bytes for it in its) / 1e9
        print(f"{crate:{width}}  " + "  ".join(f"{spent[kind]:7.0f}" for kind in KINDS) + f"  {wall:7.0f}  {peak:7.1f}")
        sums = {kind: sums[kind] + spent[kind] for kind in KINDS}
    print(f"{'all':{width}}  " + "  ".join(f"{sums[kind]:7.0f}" for kind in KINDS))


def bodies():
    """How many wrong bodies the gate tries, and how many are tried beside it."""
    inside = len(glob.glob(f"{ROOT}/crates/*/must-fail/*.edit"))
    outside = len(glob.glob(f"{ROOT}/tools/wrong_bodies/*/*.edit"))
    return f"wrong bodies: {inside} in the gate, {outside} beside it, {inside + outside} in all"


def main():
    (most,) = integers(arguments(__doc__, 0, 1), len(os.sched_getaffinity(0)))
    installed("rt")
    signal.signal(signal.SIGTERM, lambda *_: sys.exit(143))
    processors = sorted(os.sched_getaffinity(0))[:most]
    room, gate = tempfile.mkdtemp(prefix="orc-gate-"), None
    try:
        subprocess.run(["git", "clone", "--quiet", ROOT, f"{room}/orc"], check=True)
        begun, checks = time.monotonic(), {}
        with open(f"{room}/said", "w", encoding="utf-8") as to:
            gate = subprocess.Popen(
                ["rt", "ci"],
                cwd=f"{room}/orc",
                stdin=subprocess.DEVNULL,
                stdout=to,
                stderr=subprocess.STDOUT,
                preexec_fn=lambda: (os.setsid(), os.sched_setaffinity(0, processors)),
            )
        while gate.poll() is None:
            look(gate.pid, checks)
            time.sleep(1)
        said = text(f"{room}/said").splitlines()
        table(checks)
        refused = [it for it in said if re.search(r"NOT PROVED|NOT REFUSED|FAILED|BAD EDIT", it)]
        print("\n".join(refused), end="\n" * bool(refused))
        print(bodies())
        print(f"{said[-1] if said else 'the gate said nothing'}; {(time.monotonic() - begun) / 60:.0f} minutes on {len(processors)} processors")
        return gate.returncode
    finally:
        if gate and gate.poll() is None:
            os.killpg(gate.pid, signal.SIGTERM)
            gate.wait()
        shutil.rmtree(room, ignore_errors=True)


if __name__ == "__main__":
    sys.exit(main())
