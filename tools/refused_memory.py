#!/usr/bin/env python3
"""Runs the program with each of its requests for memory refused in turn, and looks at what it says.

    tools/refused_memory.py [ORC]

ORC is `./orc` where it is left out. Needs `cc`, which makes a library of refused_memory.c that is loaded before libc. Runs
and sessions, with and without workers, are called once for each of their requests: with this one refused, and with this one and
all after it. Each call has to end, with the answer that it has with ample memory, or with `end no memory` alone on the log and
the output untouched, but that a session may have written its text. At last all threads are refused, and nothing may differ.
Says how many calls ended how; the exit status is 1 where one ended otherwise."""
import os
import subprocess
import sys
import tempfile
from collections import Counter

import edge
import tool_words

ALL = 1 << 62
SESSION = edge.TWO_CLIENTS + "watch resolved main:all main\n"

# the words of the call, and what is on standard input
CALLS = [
    ([], ""),
    (["frob"], ""),
    (["run", "nosuch.o"], ""),
    (["run", "cut.o"], ""),
    (["run", "hello.o"], ""),
    (["run", "even.o", "odd.o"], ""),
    (["run", "even.o", "odd.o", "--workers", "2"], ""),
    (["run", "even.o"], ""),
    (["run", "far.o", "odd.o"], ""),
    (["session"], "frob\n"),
    (["session"], SESSION),
    (["session", "--workers", "2"], SESSION),
]


class Refusals:
    def __init__(self, orc, folder):
        self.orc, self.folder = orc, folder
        self.library, self.count = f"{folder}/refused.so", f"{folder}/refused"
        source = os.path.join(os.path.dirname(os.path.realpath(__file__)), "refused_memory.c")
        subprocess.run(["cc", "-O2", "-shared", "-fPIC", "-o", self.library, source, "-ldl"], check=True)

    def call(self, words, text, **refused):
        """How the call ended, and how often it asked for memory."""
        with open(self.count, "wb") as it:
            it.write(bytes(8))
        env = {"LD_PRELOAD": self.library, "REFUSED": self.count} | {name: str(value) for name, value in refused.items()}
        told = subprocess.run([self.orc, *words], cwd=self.folder, env=env, input=text.encode(), capture_output=True, timeout=60)
        with open(self.count, "rb") as it:
            return told, int.from_bytes(it.read(), "little")


def summary(words, told):
    """What doesn't change with the order in which threads work."""
    free = "--workers" in words or words[:1] == ["session"]
    output = [it.partition(b"@")[0] for it in told.stdout.splitlines() if it.startswith(b"c")] if free else told.stdout
    log = told.stderr.splitlines()[-1:] if free else told.stderr
    return told.returncode, output, log


def says_so(text):
    """It is the whole text of a session in which memory ran out: at a call of a line or a unit, or before any line."""
    results = [it for it in text.splitlines() if it.startswith(b"c")]
    return text.endswith(b"\n") and (b"nomemory" in text or all(it.endswith(b" skipped") for it in results))


def wants_memory(words, told):
    """The call says that memory ran out, and nothing else."""
    written = told.stdout == b"" or words[:1] == ["session"] and says_so(told.stdout)
    return written and (told.returncode, told.stderr) == (114, b"end no memory\n")


def main():
    orc = tool_words.orc(*tool_words.arguments(__doc__, 0, 1))
    tool_words.installed("cc")
    wrong = 0
    with tempfile.TemporaryDirectory(prefix="orc-refused-") as folder:
        kept = [open(f"{edge.ROOT}/examples/{name}.o", "rb").read() for name in ("hello", "parity/even", "parity/odd")]
        for name, content in edge.files_of(*kept).items():
            with open(f"{folder}/{name}", "wb") as it:
                it.write(content)
        refusals = Refusals(orc, folder)
        for words, text in CALLS:
            ends = Counter()
            ample, made = refusals.call(words, text)
            for at in range(made):
                for last in (at, ALL):
                    told, _ = refusals.call(words, text, REFUSED_FROM=at, REFUSED_TO=last)
                    kind = "no memory" if wants_memory(words, told) else "as with ample memory" if summary(words, told) == summary(words, ample) else "otherwise"
                    ends[kind] += 1
                    if kind == "otherwise":
                        wrong += 1
                        print(f"{words}, request {at}{'' if last == at else ' and all after it'}: {told}")
            told, _ = refusals.call(words, text, REFUSED_THREADS=1)
            if summary(words, told) != summary(words, ample):
                wrong += 1
                print(f"{words}, without threads: {told}")
            print(f"{' '.join(words) or 'no words'}: {made} requests; {dict(ends)}", flush=True)
    return 1 if wrong else 0


if __name__ == "__main__":
    sys.exit(main())
