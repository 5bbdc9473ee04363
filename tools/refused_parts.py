#!/usr/bin/env python3
"""Runs the laboratories of a session's parts with each of their requests for memory refused in turn.

    tools/refused_parts.py [SEED [COUNT]]

They are names_lab, orders_lab, trackers_lab, units_lab, lookup_lab and frontier_lab, which lab.py proves and builds. Needs `cc`,
which makes a library of refused_memory.c that is loaded before libc. Each makes COUNT lists of calls (2) of SEED (1), or
emissions of 40 instances, and is called once for each of its requests: with this one refused, and with this one and all
after it. A call of the part that wants memory and doesn't get it has to leave the part as it was, so that all that comes
after it is as the plain lists have it, and an emission that is made once more comes out as with ample memory. Where another
request is refused, the laboratory has to end with status 1, and say alone that memory ran out. Says how many runs ended how;
the exit status is 1 where one ended otherwise."""
import os
import re
import sys
import tempfile
from collections import Counter

import lab
from refused_memory import ALL, Refusals
from tool_words import arguments, installed, integers

LISTS = ("names_lab", "orders_lab", "trackers_lab", "units_lab", "lookup_lab")
EMISSIONS = [("random", "up"), ("random", "down"), ("rings", "down"), ("tree", "fail")]
NO_MEMORY = b"Error: Kind(OutOfMemory)\n"
LINE = re.compile(r"\w+ (\d+) lists: (\d+) calls answered, (\d+) refused, (\d+) passed over, (\d+) without memory, 0 differ")


def counts(told):
    """Of each part the lists, the calls, and how many of these wanted memory; nothing where a line says otherwise."""
    lines = [LINE.fullmatch(it) for it in told.stdout.decode().splitlines()]
    if not all(lines):
        return None
    rows = [[int(it) for it in line.groups()] for line in lines]
    return [(lists, sum(calls), calls[-1]) for lists, *calls in rows]


def went_on(told, ample):
    """Some calls wanted memory, and what came after them is as it has to be."""
    ours, theirs = counts(told), counts(ample)
    return (
        (told.returncode, told.stderr) == (0, b"")
        and ours is not None
        and [it[:2] for it in ours] == [it[:2] for it in theirs]
        and any(wanting for _, _, wanting in ours)
    )


def wants_memory(told):
    """It ended early, and says why, and nothing differed before."""
    return (told.returncode, told.stderr) == (1, NO_MEMORY) and counts(told) is not None


def kind_of(told, ample):
    if (told.returncode, told.stdout, told.stderr) == (ample.returncode, ample.stdout, ample.stderr):
        return "as with ample memory"
    if went_on(told, ample):
        return "went on"
    return "ended" if wants_memory(told) else "otherwise"


def refuse_each(refusals, words):
    """How many runs ended how, and how many requests there are."""
    ends = Counter()
    ample, made = refusals.call(words, "")
    for at in range(made):
        for last in (at, ALL):
            told, _ = refusals.call(words, "", REFUSED_FROM=at, REFUSED_TO=last)
            kind = kind_of(told, ample)
            ends[kind] += 1
            if kind == "otherwise":
                print(f"{words}, request {at}{'' if last == at else ' and all after it'}: {told}")
    return made, ends


def main():
    seed, count = map(str, integers(arguments(__doc__, 0, 2), 1, 2))
    installed("cc")
    calls = [(name, [seed, count]) for name in LISTS] + [("frontier_lab", [*words, "40"]) for words in EMISSIONS]
    wrong = 0
    with tempfile.TemporaryDirectory(prefix="orc-refused-") as folder:
        for name, words in calls:
            refusals = Refusals(str(lab.path(name)), folder)
            made, ends = refuse_each(refusals, words)
            wrong += ends["otherwise"]
            print(f"{name} {' '.join(words)}: {made} requests; {dict(ends)}", flush=True)
    return 1 if wrong else 0


if __name__ == "__main__":
    sys.exit(main())
