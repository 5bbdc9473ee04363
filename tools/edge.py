#!/usr/bin/env python3
"""Runs the program itself and compares exit status, standard output and standard error with what is
written here by hand, by docs/COMMANDS.md.

    tools/edge.py [ORC]

ORC is `./orc` where it is left out. `.ci/run` calls this after the gate. Each line that differs is shown;
what can't be tried on this machine is named. The exit status is 1 where something differs.
"""
import os
import shutil
import subprocess
import sys
import tempfile

import tool_words

ROOT = os.path.dirname(os.path.dirname(os.path.realpath(__file__)))
CFLAGS = "-march=rv64im -mabi=lp64 -mcmodel=medany -ffreestanding -O2 -c".split()
SETUP = """1 s0 dylib main = made d0
2 s0 tracker d0 = tracker t0
3 s0 define d0 t0 o0 = defined u0 i0 1
"""
LINKED = SETUP + """4 s1 ask d0:all ready main = pending q0
5 s1 take = start u0
6 s1 place u0 48 16 = placed 10000000
7 s1 resolve u0 = resolved
8 s1 link u0 = done q1
9 s1 take = finish u0 bound
10 s1 emit u0 i0: = emitted
11 s1 collect q0 = found 10 i0@10000000
12 s1 image = image
"""
# The two objects of examples/parity.
BOTH = """1 s0 dylib main = made d0
2 s0 tracker d0 = tracker t0
3 s0 define d0 t0 o0 = defined u0 i0 2
4 s0 define d0 t0 o1 = defined u1 i2 2
"""
PARITY = BOTH + """5 s1 ask d0:all ready main = pending q0
6 s1 take = start u0
7 s1 place u0 240 16 = placed 10000000
8 s1 resolve u0 = resolved
9 s1 link u0 = pending q1
10 s1 take = start u1
11 s1 place u1 96 16 = placed 100000f0
12 s1 resolve u1 = resolved
13 s1 link u1 = done q2
14 s1 take = finish u0 bound i3,i2
15 s1 emit u0 i0:i3,i2;i1:i3,i2 = emitted
16 s1 take = finish u1 bound i0
17 s1 emit u1 i2:i0;i3: = emitted
18 s1 collect q0 = found 17 i1@10000064
19 s1 image = image
"""
ALONE = """1 s0 dylib main = made d0
2 s0 tracker d0 = tracker t0
3 s0 define d0 t0 o0 = defined u0 i0 2
4 s1 ask d0:all ready main = pending q0
5 s1 take = start u0
6 s1 place u0 240 16 = placed 10000000
7 s1 resolve u0 = resolved
8 s1 link u0 = missing calls
9 s1 fail u0 missing calls = failed
10 s1 collect q0 = failed 9 i1
end dep failed i1
"""
# far.o has a jump in the place of a call, to 2 MiB behind its symbol: its object has no stub.
FAR = BOTH + """5 s1 ask d0:all ready main = pending q0
6 s1 take = start u0
7 s1 place u0 208 16 = placed 10000000
8 s1 resolve u0 = resolved
9 s1 link u0 = pending q1
10 s1 take = start u1
11 s1 place u1 96 16 = placed 100000d0
12 s1 resolve u1 = resolved
13 s1 link u1 = done q2
14 s1 take = finish u0 bound i3,i2
15 s1 fail u0 refused 0 44 17 2097316 = failed
16 s1 collect q0 = failed 15 i1
end link refused 0 44 17 2097316
"""
NEEDS_FAR = BOTH + """5 s1 ask d0:all ready is_odd = pending q0
6 s1 take = start u1
7 s1 place u1 96 16 = placed 10000000
8 s1 resolve u1 = resolved
9 s1 link u1 = pending q1
10 s1 take = start u0
11 s1 place u0 208 16 = placed 10000060
12 s1 resolve u0 = resolved
13 s1 link u0 = done q2
14 s1 take = finish u1 bound i0
15 s1 emit u1 i2:i0;i3: = emitted
16 s1 take = finish u0 bound i3,i2
17 s1 fail u0 refused 0 44 17 2097012 = failed
18 s1 collect q0 = failed 17 i2
end dep failed i2
"""
TWICE = BOTH + """5 s0 define d0 t0 o1 = duplicate is_odd i2
end define refused 1
"""
SAME = SETUP + """4 s0 define d0 t0 o0 = duplicate main i0
end define refused 0
"""
# Where the relocation of the call of is_odd stands in even.o: its type, and its addend.
CALL_TYPE, CALL_ADDEND = 1128, 1136
# Where the instructions of hello.o stand in the file: `main`, and the one that sets the exit code.
MAIN, CODE = 64, 88


def patched(hello, *changes):
    """A copy of the object with these bytes at these places."""
    made = bytearray(hello)
    for at, put in changes:
        made[at : at + len(put)] = put
    return bytes(made)


def load_immediate(register, value):
    """addi register, zero, value."""
    return (value << 20 | register << 7 | 0x13).to_bytes(4, "little")


def files_of(hello, even, odd):
    return {
        "even.o": even,
        "odd.o": odd,
        "far.o": patched(even, (CALL_TYPE, b"\x11"), (CALL_ADDEND, (1 << 21).to_bytes(8, "little"))),
        "hello.o": hello,
        "empty.o": b"",
        "cut.o": hello[:400],
        "class32.o": patched(hello, (4, b"\x01")),
        "flags.o": patched(hello, (48, b"\x05")),
        "zero.o": patched(hello, (MAIN, bytes(4))),
        "break.o": patched(hello, (MAIN, (0x00100073).to_bytes(4, "little"))),
        "seven.o": patched(hello, (CODE, load_immediate(10, 7))),
        "many.o": patched(hello, (CODE, load_immediate(10, 300))),
        "large.o": bytes((16 << 20) + 1),
        "frob.s": b"frob a0\n",
        **{f"bad{k}.s": text for k, (text, _) in enumerate(REFUSED_TEXTS)},
    }


def summary(*counts):
    """The text of what a generated session came to."""
    labels = ("objects", "heads", "sum", "removed", "found", "failed", "missing")
    return "".join(f"{label} {count}\n" for label, count in zip(labels, counts))


# An assembly text and the answer: its first bad line, for each reason.
REFUSED_TEXTS = [
    (b"nop\n1x: nop\n", "2 label"),
    (b"x: nop\n\nx: nop\n", "3 label"),
    (b"frob a0", "1 word"),
    (b"nop\naddi a0, a1\n", "2 operands"),
    (b"addi a0, a1, 2048\n", "1 number"),
    (b"x:\n.comm x, 8, 8\n", "2 name"),
    (b".section .other\n", "1 section"),
    (b".text\nnop\n.balign 3\n", "3 number"),
]

# The words, the exit status, standard output and standard error.
CASES = [
    (["run", "hello.o"], 0, "hello\n", LINKED + "end exited 0\n"),
    (["run", "hello.o", "--entry", "main", "--fuel", "9"], 0, "hello\n", LINKED + "end exited 0\n"),
    (["run", "hello.o", "--fuel", "8"], 111, "hello\n", LINKED + "end out of fuel\n"),
    (["run", "hello.o", "--fuel", "5", "--entry", "main"], 111, "", LINKED + "end out of fuel\n"),
    (["run", "seven.o"], 7, "hello\n", LINKED + "end exited 7\n"),
    (["run", "many.o"], 300 % 256, "hello\n", LINKED + "end exited 300\n"),
    (["run", "zero.o"], 110, "", LINKED + "end trap 10000000 illegal 0\n"),
    (["run", "break.o"], 110, "", LINKED + "end trap 10000000 break\n"),
    (["run", "hello.o", "--entry", "nosuch"], 107, "", SETUP + "4 s1 ask d0:all ready nosuch = missing nosuch\nend missing nosuch\n"),
    ([], 100, "", "end usage no command\n"),
    (["frob"], 100, "", "end usage unknown command\n"),
    (["--help"], 100, "", "end usage unknown command\n"),
    (["run"], 100, "", "end usage bad words\n"),
    (["run", "even.o", "odd.o"], 8, "7 is odd\n", PARITY + "end exited 8\n"),
    (["run", "--fuel=500", "even.o", "--entry=main", "--workers=0", "--", "odd.o"], 8, "7 is odd\n", PARITY + "end exited 8\n"),
    (["run", "even.o"], 109, "", ALONE),
    (["run", "far.o", "odd.o"], 108, "", FAR),
    (["run", "far.o", "odd.o", "--entry", "is_odd"], 109, "", NEEDS_FAR),
    (["run", "even.o", "odd.o", "odd.o"], 116, "", TWICE),
    (["run", "hello.o", "hello.o"], 116, "", SAME),
    (["run", *["hello.o"] * 1024], 116, "", SAME),
    (["run", *["hello.o"] * 1025], 100, "", "end usage bad words\n"),
    (["run", "even.o", "nosuch.o", "empty.o"], 102, "", "end file fault 1\n"),
    (["run", "even.o", "even.o", "odd.o", "empty.o"], 105, "", "end object refused 2 e1 0\n"),
    (["run", "hello.o", "--entry"], 100, "", "end usage bad words\n"),
    (["run", "hello.o", "--fuel", "1", "--fuel", "1"], 100, "", "end usage bad words\n"),
    (["run", b"hello\xff.o"], 100, "", "end usage bad words\n"),
    (["run", "hello.o", "--fuel", "08"], 100, "", "end usage bad number\n"),
    (["run", "hello.o", "--workers", "17"], 100, "", "end usage bad number\n"),
    (["run", "hello.o", "--fuel", "-1"], 100, "", "end usage bad words\n"),
    (["run", "hello.o", "--fuel=-1"], 100, "", "end usage bad number\n"),
    (["run", "hello.o", "--entry="], 100, "", "end usage bad words\n"),
    (["run", "--", "hello.o", "--workers"], 102, "", "end file fault 1\n"),
    (["run", "nosuch.o", "--fuel", "1099511627777"], 100, "", "end usage bad number\n"),
    (["run", "nosuch.o"], 102, "", "end file fault 0\n"),
    (["run", "."], 102, "", "end file fault 0\n"),
    (["run", "empty.o"], 105, "", "end object refused 0 e1 0\n"),
    (["run", "cut.o"], 105, "", "end object refused 0 e1 400\n"),
    (["run", "class32.o"], 105, "", "end object refused 0 e3\n"),
    (["run", "flags.o"], 105, "", "end object refused 0 e7 5\n"),
    (["run", "large.o"], 106, "", "end too long 0\n"),
    (["as", "frob.s"], 115, "", "end asm refused 1 word\n"),
    (["as", "hello.o"], 115, "", "end asm refused 1 word\n"),
    (["as", "nosuch.s"], 102, "", "end file fault 0\n"),
    (["as", "."], 102, "", "end file fault 0\n"),
    (["as", "large.o"], 106, "", "end too long 0\n"),
    (["as"], 100, "", "end usage bad words\n"),
    (["as", "hello.s", "hello.s"], 100, "", "end usage bad words\n"),
    (["as", "hello.s", "--workers", "0"], 100, "", "end usage bad words\n"),
    (["as", "--help"], 100, "", "end usage bad words\n"),
    (["gen", "1"], 0, summary(1, 0, 0, 1, 0, 0, 1), "end done\n"),
    (["gen", "8"], 0, summary(8, 1, 7, 3, 1, 4, 3), "end done\n"),
    (["gen", "1000"], 0, summary(1000, 71, 8876, 334, 331, 335, 334), "end done\n"),
    (["gen", "4096"], 0, summary(4096, 293, 37339, 1366, 1363, 1367, 1366), "end done\n"),
    (["gen"], 100, "", "end usage bad words\n"),
    (["gen", "8", "8"], 100, "", "end usage bad words\n"),
    (["gen", "-8"], 100, "", "end usage bad words\n"),
    (["gen", "0"], 100, "", "end usage bad number\n"),
    (["gen", "08"], 100, "", "end usage bad number\n"),
    (["gen", "4097"], 100, "", "end usage bad number\n"),
    *((["as", f"bad{k}.s"], 115, "", f"end asm refused {line}\n") for k, (_, line) in enumerate(REFUSED_TEXTS)),
]


# The words of runs with workers, the exit status, standard output and the end line.
ENDS = [
    (["run", "even.o", "odd.o"], 8, "7 is odd\n", "end exited 8"),
    (["run", "odd.o", "even.o", "hello.o", "--entry", "is_odd"], 116, "", "end define refused 2"),
    (["run", "hello.o"], 0, "hello\n", "end exited 0"),
    (["run", "even.o"], 109, "", "end dep failed i1"),
    (["run", "even.o", "odd.o", "--entry", "nosuch"], 107, "", "end missing nosuch"),
]


HELLO = "dylib main\ntracker main t\nobject main t hello.o\n"
LOOKUP = "lookup ready main:all main\n"
LOOKED = LINKED.replace("12 s1 image = image\n", "")
HELLO_TEXT = b"hello\n".hex()
ODD_TEXT = b"7 is odd\n".hex()
TWO_CLIENTS = "dylib main\ntracker main t\nobject main t even.o\nobject main t odd.o\nclient\n" + LOOKUP + "run main 100000\nclient\n" + LOOKUP.replace(" main\n", " is_odd\n")

# The script on standard input, the words, the exit status, standard output and standard error.
SCRIPTS = [
    ("", [], 0, "", "end done\n"),
    (HELLO + "client\n" + LOOKUP + "run main 1000\n", [], 0, LINKED + f"c1 l1 found main@10000000\nc1 l2 exited 0 {HELLO_TEXT}\n", "end done\n"),
    (HELLO + "client\n" + LOOKUP + "run main 8\n", ["--workers", "0"], 0, LINKED + f"c1 l1 found main@10000000\nc1 l2 out of fuel {HELLO_TEXT}\n", "end done\n"),
    (
        HELLO + "client\n" + LOOKUP + "remove t\n" + LOOKUP + "run main 100\n",
        [],
        0,
        LOOKED
        + "12 s1 remove t0 = removed\n13 s1 ask d0:all ready main = missing main\n14 s1 image = image\n"
        + "c1 l1 found main@10000000\nc1 l2 removed\nc1 l3 missing main\nc1 l4 trap 10000000 fetch -\n",
        "end done\n",
    ),
    (
        HELLO + "client\n" + LOOKUP.replace("lookup", "watch"),
        [],
        0,
        LOOKED.replace("ask", "watch 0") + "c1 l1 found main@10000000\n",
        "end done\n",
    ),
    (HELLO + "client\ndefine main t hello.o\nrun main 1\n", [], 0, SETUP + "4 s1 define d0 t0 o0 = duplicate main i0\nc1 l1 duplicate main i0\nc1 l2 unfound\n", "end done\n"),
    (
        HELLO + "client\npeek main\n" + LOOKUP.replace(" ready ", " resolved ") + "peek main\n" + LOOKUP + "peek main\n",
        [],
        0,
        SETUP
        + "4 s1 ask d0:all resolved main = pending q0\n5 s1 take = start u0\n6 s1 place u0 48 16 = placed 10000000\n7 s1 resolve u0 = resolved\n"
        + "8 s1 link u0 = done q1\n9 s1 collect q0 = found 7 i0@10000000\n10 s1 ask d0:all ready main = pending q2\n11 s1 take = finish u0 bound\n"
        + "12 s1 emit u0 i0: = emitted\n13 s1 collect q2 = found 12 i0@10000000\n"
        + "c1 l1 unfound\nc1 l2 found main@10000000\nc1 l3 notyet\nc1 l4 found main@10000000\nc1 l5 ready 10000000\n",
        "end done\n",
    ),
    ("client\npeek\n", [], 104, "", "end script refused 2 count\n"),
    ("client\npeek main?\n", [], 104, "", "end script refused 2 name\n"),
    ("peek main\n", [], 104, "", "end script refused 1 word\n"),
    ("client\n" + LOOKUP, [], 104, "", "end script refused 2 unknown\n"),
    ("frob\n", ["--workers", "16"], 104, "", "end script refused 1 word\n"),
    (HELLO + "client\n" + 17 * LOOKUP.replace("lookup", "watch"), [], 104, "", "end script refused 21 nonote\n"),
    (HELLO.replace("hello.o", "nosuch.o"), [], 102, "", "end file fault 0\n"),
    (HELLO + "object main t cut.o\n", [], 105, "", "end object refused 1 e1 400\n"),
    (HELLO.replace("hello.o", "large.o"), [], 106, "", "end too long 0\n"),
    (HELLO, ["hello.o"], 100, "", "end usage bad words\n"),
    (HELLO, ["--fuel", "1"], 100, "", "end usage bad words\n"),
    (HELLO, ["--workers", "17"], 100, "", "end usage bad number\n"),
]

# The same with workers and several clients, whose journal may be any of many: the result lines.
RESULTS = [
    (HELLO + "client\n" + LOOKUP + "run main 1000\n", f"c1 l1 found main@10000000\nc1 l2 exited 0 {HELLO_TEXT}\n"),
    (HELLO + "client\n" + LOOKUP.replace(" main\n", " nosuch\n") + "run nosuch 1\n", "c1 l1 missing nosuch\nc1 l2 unfound\n"),
]


class Edge:
    def __init__(self, orc, folder):
        self.orc, self.folder, self.tried, self.wrong = orc, folder, 0, 0

    def run(self, words, **how):
        how = {"stdout": subprocess.PIPE, **how}
        return subprocess.run([self.orc, *words], cwd=self.folder, stdin=subprocess.DEVNULL, stderr=subprocess.PIPE, timeout=60, **how)

    def compare(self, what, wanted, found):
        self.tried += 1
        if wanted != found:
            self.wrong += 1
            print(f"{what}: {found} in place of {wanted}")

    def case(self, words, status, out, log):
        told = self.run(words)
        self.compare(words, (status, out.encode(), log.encode()), (told.returncode, told.stdout, told.stderr))

    def assembled(self, source, wanted, words=()):
        """The object of a text, byte by byte."""
        shutil.copy(f"{ROOT}/examples/{source}.s", f"{self.folder}/{source}.s")
        told = self.run(["as", *words, f"{source}.s"])
        self.compare(f"as {source}.s", (0, wanted, b"end done\n"), (told.returncode, told.stdout, told.stderr))

    def ending(self, words, status, out, end):
        """A run with workers, whose journal may be any of many."""
        told = self.run(words)
        self.compare(words, (status, out.encode(), [end.encode()]), (told.returncode, told.stdout, told.stderr.splitlines()[-1:]))

    def session(self, script, words, status, out, log):
        told = self.fed(script, words)
        self.compare(f"session {words} of {script!r}", (status, out.encode(), log.encode()), (told.returncode, told.stdout, told.stderr))

    def results(self, script, workers, lines):
        told = self.fed(script, ["--workers", workers])
        results = b"".join(it for it in told.stdout.splitlines(keepends=True) if it.startswith(b"c"))
        self.compare(f"session with {workers} workers of {script!r}", (0, lines.encode(), b"end done\n"), (told.returncode, results, told.stderr))

    def clients(self, workers):
        """Two clients beside each other: what is found lies wherever it was placed first, and the run is the same."""
        told = self.fed(TWO_CLIENTS, ["--workers", workers])
        results = [it for it in told.stdout.decode().splitlines() if it.startswith("c")]
        kept = [it.partition("@")[0] for it in results]
        wanted = ["c1 l1 found main", f"c1 l2 exited 8 {ODD_TEXT}", "c2 l1 found is_odd"]
        self.compare(f"two clients and {workers} workers", (0, wanted, b"end done\n"), (told.returncode, kept, told.stderr))

    def fed(self, script, words):
        """The session of a script on standard input."""
        return subprocess.run([self.orc, "session", *words], cwd=self.folder, input=script.encode(), stdout=subprocess.PIPE, stderr=subprocess.PIPE, timeout=60)

    def write_fault(self, what, **how):
        """A write that fails is answered by the status alone, and the log isn't begun."""
        for words in (["run", "hello.o"], ["as", "hello.s"]):
            told = self.run(words, **how)
            self.compare(f"{what} of {words}", (103, b""), (told.returncode, told.stderr))

    def compiled(self, compiler, target, names):
        """A program of C ends and writes as its objects that stand beside its files."""
        made, kept = [], []
        for k, name in enumerate(names):
            told = subprocess.run([compiler, *target, *CFLAGS, "-o", f"{self.folder}/made{k}.o", f"{ROOT}/examples/{name}.c"], stderr=subprocess.PIPE)
            self.compare(f"{compiler} {name}.c", 0, told.returncode)
            shutil.copy(f"{ROOT}/examples/{name}.o", f"{self.folder}/kept{k}.o")
            made.append(f"made{k}.o")
            kept.append(f"kept{k}.o")
        ends = [self.run(["run", *it, "--fuel", "100000000"]) for it in (made, kept)]
        last = [(it.returncode, it.stdout, it.stderr.splitlines()[-1]) for it in ends]
        self.compare(f"run {', '.join(names)} by {compiler}", last[1], last[0])


def main():
    orc = tool_words.orc(*tool_words.arguments(__doc__, 0, 1))
    kept = []
    for name in ("hello", "parity/even", "parity/odd"):
        with open(f"{ROOT}/examples/{name}.o", "rb") as it:
            kept.append(it.read())
    with tempfile.TemporaryDirectory(prefix="orc-edge-") as folder:
        for name, bytes_of in files_of(*kept).items():
            with open(f"{folder}/{name}", "wb") as it:
                it.write(bytes_of)
        edge = Edge(orc, folder)
        for case in CASES:
            edge.case(*case)
        edge.assembled("hello", kept[0])
        edge.assembled("hello", kept[0], ["--"])
        for words, *wanted in ENDS:
            for workers in ("1", "4", "16"):
                edge.ending([*words, "--workers", workers], *wanted)
        for case in SCRIPTS:
            edge.session(*case)
        for workers in ("0", "1", "4", "16"):
            for script, lines in RESULTS:
                edge.results(script, workers, lines)
            edge.clients(workers)
        if os.path.exists("/dev/full"):
            with open("/dev/full", "wb") as full:
                edge.write_fault("a full output", stdout=full)
        else:
            print("skipped: a full output, since there is no /dev/full")
        for compiler, target in (("riscv64-linux-gnu-gcc", []), ("clang", ["--target=riscv64"])):
            if not shutil.which(compiler):
                print(f"skipped: the examples by {compiler}, which isn't installed")
                continue
            for names in (["sieve"], ["print"], ["parity/even", "parity/odd"]):
                edge.compiled(compiler, target, names)
    print(f"{edge.tried} compared, {edge.wrong} differ")
    return 1 if edge.wrong else 0


if __name__ == "__main__":
    sys.exit(main())
