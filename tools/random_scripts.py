#!/usr/bin/env python3
"""Runs random scripts on threads, and sums up what was found of them.

    tools/random_scripts.py LAB [COUNT [FIRST]]

LAB is the built program of the crate script_lab. It makes the scripts of COUNT numbers (10,000) from FIRST (1)
on, runs each with 0 to 16 workers, and judges its journal, the ends of its lines and its notifiers. Prints how
many lines ended how, which ways never came, and each script of which something differs; a part of 100 scripts
that hasn't ended after 300 seconds is tried again script by script, to name those that don't end in 60. The
status is 1 where something differs, or a script doesn't end."""

import os
import subprocess
import sys
from concurrent.futures import ThreadPoolExecutor

from tool_words import arguments, built, integers

# how many scripts a call of the program runs
PART = 100

PART_SECONDS = 300
SCRIPT_SECONDS = 60

# the ways in which lines end, as the program calls them
ENDS = ["replied", "found", "failed", "in error", "missing", "no dylib", "exited", "trapped", "otherwise", "unfound", "stopped", "skipped", "peeked at none", "not yet", "ready"]

# what it counts of journals, where a change is an entry of another seat than the one before
JOURNALS = ["generated", "entries", "entries of workers", "changes of seat"]

# why units are given up
CAUSES = ["refused", "missing", "in error", "alias cycle", "bad dep", "no room", "no memory", "full"]
WORDS = ENDS + [f"given up: {cause}" for cause in CAUSES] + JOURNALS

# by design of the scripts these don't come: each run has fuel enough and writes nothing, and memory suffices
NEVER = {"otherwise", "given up: no memory"}


def run(lab, first, count, seconds):
    """The lines that the program prints for these scripts; none where it doesn't end in time."""
    try:
        done = subprocess.run([lab, str(first), str(count), "ends"], stdout=subprocess.PIPE, text=True, timeout=seconds)
    except subprocess.TimeoutExpired:
        return None
    if done.returncode != 0:
        return [f"scripts from {first} on: the program ended with status {done.returncode}"]
    return done.stdout.splitlines()


def run_part(lab, first, count):
    """What the program prints for these scripts, and those of them that don't end."""
    lines = run(lab, first, count, PART_SECONDS)
    if lines is not None:
        return lines, []
    lines, hung = [], []
    for number in range(first, first + count):
        its = run(lab, number, 1, SCRIPT_SECONDS)
        if its is None:
            hung.append(number)
        else:
            lines += its
    return lines, hung


def number_pairs(line):
    """The numbers of a line of counts, by their words."""
    words = line.split()
    return dict(zip(words[0::2], map(int, words[1::2])))


def add(sums, line):
    """Adds a line of counts to the sums, and tells whether it is one."""
    if line.startswith("scripts ") and " illegal " in line:
        pairs = number_pairs(line)
    else:
        word, _, count = line.rpartition(" ")
        if word not in WORDS or not count.isdigit():
            return False
        pairs = {word: int(count)}
    for word, count in pairs.items():
        sums[word] = sums.get(word, 0) + count
    return True


def main():
    lab, *numbers = arguments(__doc__, 1, 3)
    lab, (count, first) = built(lab), integers(numbers, 10000, 1)
    parts = [(at, min(PART, first + count - at)) for at in range(first, first + count, PART)]
    sums, said, hung = {}, [], []
    # each script has up to 20 threads, so a few calls beside each other keep the processors busy
    with ThreadPoolExecutor(max(1, (os.cpu_count() or 1) // 2)) as pool:
        for lines, its in pool.map(lambda part: run_part(lab, *part), parts):
            said += [line for line in lines if not add(sums, line)]
            hung += its
    for word in WORDS:
        print(word, sums.get(word, 0))
    never = [word for word in WORDS if not sums.get(word) and word not in NEVER]
    print("never came:", ", ".join(never) or "none")
    for line in said:
        print(line)
    for number in hung:
        print(f"script {number}: it doesn't end")
    words = ["scripts", "lines", "workers", "illegal", "results_differ", "notes_differ"]
    print(*(f"{word} {sums.get(word, 0)}" for word in words), f"hung {len(hung)}")
    differ = any(sums.get(word) for word in words[3:])
    sys.exit(1 if differ or said or hung or sums.get("scripts") != count else 0)


if __name__ == "__main__":
    main()
