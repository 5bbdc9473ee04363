#!/usr/bin/env python3
"""Measures how the time and the memory of a program grow with its last word, a number.

    tools/doubling.py LEAST MOST PROGRAM [WORDS ..]

Runs PROGRAM at LEAST, twice LEAST and so on up to MOST. WORDS are the words before the number; where one has
commas, each of its parts is taken in turn, with each of the others. Of each size it prints the least processor
time of three runs, less that of the number 0, the least of their greatest memory for each of the number, and how
many times the time of half the size it took; at the end the greatest of these of all whose half took 20 ms or more.
It needs GNU time.
"""
import itertools
import os
import subprocess
import sys

from tool_words import arguments, built, installed, integer

RUNS = 3

# shorter times are mostly the start of a process
SHORT = 0.02


# the greatest memory that wait4 tells of a process is at least that of who started it, so a small one starts it
START = ["/usr/bin/time", "-f", "%M"]


def run(words):
    """The processor time in seconds and the greatest memory in bytes of one run, and what it printed."""
    with subprocess.Popen(START + words, stdout=subprocess.PIPE, stderr=subprocess.PIPE, text=True) as started:
        printed = started.stdout.read().strip()
        told = started.stderr.read().split()
        _, status, used = os.wait4(started.pid, 0)
        started.returncode = os.waitstatus_to_exitcode(status)
    if started.returncode != 0:
        sys.exit(f"{' '.join(words)}: status {started.returncode}")
    return used.ru_utime + used.ru_stime, int(told[-1]) * 1024, printed


def measure(words):
    runs = [run(words) for _ in range(RUNS)]
    return min(time for time, _, _ in runs), min(memory for _, memory, _ in runs), runs[0][2]


def double(least, most, words):
    """Prints a line for each size; the greatest growth from one to the next."""
    start_time, _, _ = measure([*words, "0"])
    greatest, before = 0.0, None
    print(" ".join(words[1:]) or words[0])
    size = least
    while size <= most:
        time, memory, printed = measure([*words, str(size)])
        time = max(time - start_time, 0.0)
        growth = ""
        if before is not None and before >= SHORT:
            greatest = max(greatest, time / before)
            growth = f"{time / before:.2f} times"
        print(f"  {size:8} {time * 1000:9.1f} ms {memory / size:8.0f} bytes each  {growth:11} {printed}", flush=True)
        before, size = time, size * 2
    return greatest


def main():
    least, most, program, *choices = arguments(__doc__, 3)
    least, most, program, choices = integer(least), integer(most), built(program), [word.split(",") for word in choices]
    installed("/usr/bin/time")
    growths = [double(least, most, [program, *words]) for words in itertools.product(*choices)]
    print(f"at most {max(growths):.2f} times from a size to its double, where the first takes {SHORT * 1000:.0f} ms")


if __name__ == "__main__":
    main()
