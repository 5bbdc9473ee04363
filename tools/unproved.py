#!/usr/bin/env python3
"""Runs orc without proving it, for who wants to see it before the first build has ended.

    tools/unproved.py WORDS .. [<SCRIPT]

WORDS are those of `./orc`. The program is compiled with checks of each index, sum and access, which takes some
minutes and is kept nowhere, and runs for at most 60 seconds, with copies of the files that WORDS or the script
name. Output, log and status are the program's. Nothing of it is proved: `./orc` proves, builds and runs it.
"""
import os
import re
import subprocess
import sys

from tool_words import arguments, installed

ROOT = os.path.dirname(os.path.dirname(os.path.realpath(__file__)))
# what `rt try` says of the run, after what the program wrote
REPORT = re.compile(rb"^(checked: |races: |run=|rt: ).*\n?", re.M)


def place(number, name):
    """Where the program finds a file: where it is named, or in a folder of its own where that lies elsewhere."""
    plain = os.path.normpath(name)
    return f"elsewhere/{number}/{os.path.basename(plain)}" if plain.startswith(("/", "..")) else plain


def main(asked):
    installed("rt")
    script = sys.stdin.read() if asked[0] == "session" else ""
    named = sorted({it for it in [*asked, *script.split()] if os.path.isfile(it)})
    inside = {name: place(number, name) for number, name in enumerate(named)}
    given = [it for name, to in inside.items() for it in ("--data", f"{to}={os.path.abspath(name)}")]
    script = re.sub(r"\S+", lambda word: inside.get(word[0], word[0]), script)
    if sys.stderr.isatty():
        print("compiling without a proof", file=sys.stderr, flush=True)
    ran = subprocess.run(
        ["rt", "try", *given, "--", *[inside.get(word, word) for word in asked]],
        cwd=f"{ROOT}/crates/orc", input=script.encode(), stdout=subprocess.PIPE, stderr=subprocess.PIPE,
    )
    sys.stdout.buffer.write(ran.stdout)
    sys.stdout.flush()
    sys.stderr.buffer.write(REPORT.sub(b"", ran.stderr))
    return ran.returncode


if __name__ == "__main__":
    sys.exit(main(arguments(__doc__, 1)))
