#!/usr/bin/env python3
"""Measures the processor time of sessions of many units, by the program of the crate ring_lab.

    tools/ring_times.py RINGS [MOST]

Runs RINGS at 1,024 units, 2,048 and so on up to MOST (65,536), up to each of the phases: definitions, lookups
of heads, removals, lookups of all. Prints the least of three times of each, in milliseconds of one processor,
and for each size the time of a unit in microseconds.
"""
import resource
import subprocess
import sys

from tool_words import arguments, built, integers


def processor_time(words):
    before = resource.getrusage(resource.RUSAGE_CHILDREN)
    subprocess.run(words, stdout=subprocess.DEVNULL, check=True)
    after = resource.getrusage(resource.RUSAGE_CHILDREN)
    return after.ru_utime + after.ru_stime - before.ru_utime - before.ru_stime


def main():
    rings, *numbers = arguments(__doc__, 1, 2)
    rings, (most,) = built(rings), integers(numbers, 65536)
    empty = min(processor_time([rings, "0"]) for _ in range(3))
    print(f"no unit: {empty * 1000:.0f} ms")
    print("  units  defined    heads  removed      all   a unit")
    count = 1024
    while count <= most:
        times = [min(processor_time([rings, str(count), str(phase)]) for _ in range(3)) for phase in (1, 2, 3, 4)]
        columns = "".join(f"{time * 1000:9.0f}" for time in times)
        print(f"{count:7}{columns}{times[3] / count * 1e6:7.2f} us")
        count *= 2


if __name__ == "__main__":
    main()
