#!/usr/bin/env python3
"""Tests of the tools that read logs, with logs written by hand from the grammar of the journal.

    tools/test_journal.py

What is expected was thought out from the grammar and the rules of a session, and not taken from a tool."""
import html
import json
import pathlib
import os
import re
import struct
import subprocess
import sys
import tempfile
import unittest

import journal
from explain import Explanation
from journal import LogError, Session, read_entry, read_log
from journal_dot import graph
from journal_page import columns, log_text, page
from object_names import extensions, objects_of, without_versions
from script_text import Script

TOOLS = pathlib.Path(__file__).resolve().parent
PARITY = [str(TOOLS.parent / "examples" / "parity" / name) for name in ("even.o", "odd.o")]

# Each event with each of its replies, and the word that the reply is known by.
LINES = """
made: dylib main = made d0
taken: dylib main = taken d0
toomany: dylib d64 = toomany
set: order d0 d0:all,d1:exported = set
set: order d0 = set
nodylib: order d7 d7:all = nodylib d7
generator: attach d0 t0 o3 = generator g0
nodylib: attach d1 t0 o3 = nodylib d1
gone: attach d0 t0 a0 = gone t0
toomany: attach d0 t0 l2 = toomany
defined: define d0 t0 o1 = defined u1 i2 3
duplicate: define d0 t0 o1 = duplicate = i2
nodylib: define d1 t0 o1 = nodylib d1
gone: define d0 t1 o1 = gone t1
toomany: define d0 t0 o1 = toomany
defined: generate g0 = defined u1 i2 0
duplicate: generate g0 = duplicate f@V1 i2
toomany: generate g0 = toomany
spent: generate g0 = spent g0
nogen: generate g9 = nogen g9
done: ask d0:all,d1:exported resolved f g? = done q0
pending: ask d0:all ready main = pending q0
inerror: ask d0:all ready main = inerror i0
missing: ask d0:all ready f main = missing main
offer: ask d0:all ready main = offer g0
nodylib: ask d9:all ready main = nodylib d9
done: ask ready = done q0
done: watch 2 d0:all ready main = done q0
pending: watch 0 d0:all ready main = pending q0
inerror: watch 1 d0:all ready main = inerror i0
missing: watch 1 d0:all ready main = missing main
offer: watch 1 d0:all ready main = offer g0
nodylib: watch 1 d9:all ready main = nodylib d9
found: collect q0 = found 17 i1@10000064,none
found: collect q0 = found 17
lost: collect q0 = failed 9 i1
unknown: collect q4 = unknown q4
start: take = start u0
bound: take = finish u0 bound i3,none,i2
bound: take = finish u0 bound
unbound: take = finish u0 lost i4
placed: place u0 240 16 = placed 100000f0
noroom: place u0 240 16 = noroom 240
defunct: place u0 240 16 = defunct u0
wrongphase: place u0 240 16 = wrongphase u0
resolved: resolve u0 = resolved
defunct: resolve u0 = defunct u0
wrongphase: resolve u0 = wrongphase u0
done: link u0 = done q1
pending: link u0 = pending q1
inerror: link u0 = inerror i3
missing: link u0 = missing calls
offer: link u0 = offer g1
aliascycle: link u0 = aliascycle i0
defunct: link u0 = defunct u0
wrongphase: link u0 = wrongphase u0
emitted: emit u0 i0:i3,i2;i1: = emitted
emitted: emit u0 = emitted
baddep: emit u0 i0:i3 = baddep i3
defunct: emit u0 i0:i3 = defunct u0
wrongphase: emit u0 i0:i3 = wrongphase u0
failed: fail u0 refused 0 44 17 -2097316 = failed
failed: fail u0 missing = = failed
failed: fail u0 inerror i3 = failed
failed: fail u0 aliascycle i0 = failed
failed: fail u0 baddep i3 = failed
failed: fail u0 noroom 4096 = failed
failed: fail u0 nomemory = failed
failed: fail u0 full = failed
defunct: fail u0 full = defunct u0
wrongphase: fail u0 full = wrongphase u0
tracker: tracker d0 = tracker t0
nodylib: tracker d1 = nodylib d1
toomany: tracker d0 = toomany
moved: move t0 t1 = moved
gone: move t0 t1 = gone t0
otherdylib: move t0 t1 = otherdylib
removed: remove t0 = removed
gone: remove t0 = gone t0
image: image = image
"""

# What is no line of a journal: a reply of another event, a number with a sign or zeros before it, a list with a
# space too many, a name that was not asked for.
NO_LINES = """
dylib main = set
dylib a b = made d0
take = placed 10000000
place u0 240 16 = placed 0x10000000
place u0 240 16 = placed 1000000A
place u00 240 16 = placed 10000000
place u0 -1 16 = noroom 240
emit u0  = emitted
emit u0 i0 = emitted
collect q0 = found
collect q0 = failed
take = finish u0 bound i0, i1
ask d0:all soon main = pending q0
ask d0:all ready f = missing g
link u0 = missing a b
fail u0 tired = failed
image = image =
""".strip("\n").split("\n")

TWO = """1 s0 dylib main = made d0
2 s0 tracker d0 = tracker t0
3 s0 define d0 t0 o0 = defined u0 i0 2
4 s0 define d0 t0 o1 = defined u1 i2 2
5 s1 ask d0:all ready main = pending q0
6 s1 take = start u0
7 s1 place u0 240 16 = placed 10000000
8 s1 resolve u0 = resolved
9 s1 link u0 = pending q1
10 s1 take = start u1
11 s1 place u1 96 16 = placed 100000f0
12 s1 resolve u1 = resolved
13 s1 link u1 = done q2
14 s1 take = finish u0 bound i3,i2
15 s1 emit u0 i0:i3,i2;i1:i3,i2 = emitted
16 s1 take = finish u1 bound i0
17 s1 emit u1 i2:i0;i3: = emitted
18 s1 collect q0 = found 17 i1@10000064
19 s1 image = image
"""

# Three units, each with a tracker. u0 (a, and w, which a strong w of u1 replaces) needs b of u1, and the lookup asks for
# c of u2 too. u2 is emitted and ready; u0 is emitted while u1 isn't; u1 is given up, which takes a along and leaves c.
SETUP = """1 s0 dylib main = made d0
2 s0 tracker d0 = tracker t0
3 s0 tracker d0 = tracker t1
4 s0 tracker d0 = tracker t2
5 s0 define d0 t0 o0 = defined u0 i0 2
6 s0 define d0 t1 o1 = defined u1 i2 2
7 s0 define d0 t2 o2 = defined u2 i4 1
8 s1 ask d0:all ready a? c = pending q0
9 s1 take = start u0
10 s2 take = start u2
11 s1 resolve u0 = resolved
12 s2 resolve u2 = resolved
13 s1 link u0 = pending q1
14 s2 link u2 = done q2
15 s2 take = start u1
16 s2 resolve u1 = resolved
17 s1 take = finish u2 bound
18 s1 emit u2 i4: = emitted
19 s1 take = finish u0 bound i2
20 s1 emit u0 i0:i2 = emitted
"""
FAILURE = SETUP + """21 s2 link u1 = missing nowhere
22 s2 fail u1 missing nowhere = failed
23 s1 collect q0 = failed 22 i0
24 s1 remove t2 = removed
c1 l1 failed i0
c1 l2 removed
"""
REMOVAL = SETUP + """21 s1 remove t1 = removed
22 s2 link u1 = defunct u1
"""

ALIAS = """1 s0 dylib main = made d0
2 s0 tracker d0 = tracker t0
3 s0 define d0 t0 l0 = defined u0 i0 1
4 s0 define d0 t0 o0 = defined u1 i1 1
5 s1 ask d0:all ready m = pending q0
6 s1 take = start u0
7 s1 link u0 = pending q1
8 s1 take = start u1
9 s1 place u1 16 16 = placed 10000000
10 s1 resolve u1 = resolved
11 s1 link u1 = done q2
12 s1 take = finish u0 bound i1
13 s1 resolve u0 = resolved
14 s1 emit u0 i0:i1 = emitted
15 s1 take = finish u1 bound
16 s1 emit u1 i1: = emitted
17 s1 collect q0 = found 16 i0@10000000
"""

ONE = "1 s0 dylib main = made d0\n2 s0 tracker d0 = tracker t0\n"
UNDEFINED = TWO[: TWO.index("4 s0")] + """4 s1 ask d0:all ready main = pending q0
5 s1 take = start u0
6 s1 place u0 240 16 = placed 10000000
7 s1 resolve u0 = resolved
8 s1 link u0 = missing calls
9 s1 fail u0 missing calls = failed
10 s1 collect q0 = failed 9 i1
end dep failed i1
"""


# A script of two clients, and what it came to: f of q.o is gone before the second run, and h is nowhere.
SCRIPT = b"""# two objects
dylib main
tracker main ta
tracker main tb
object main ta p.o
object main tb q.o
object main gone r.o
client
lookup ready main:all main
run main 100
remove tb
run main 100

lookup ready main:exported f
define main tb q.o
run g 5
client
lookup ready main:all h
"""
SESSION = """1 s0 dylib main = made d0
2 s0 tracker d0 = tracker t0
3 s0 tracker d0 = tracker t1
4 s0 define d0 t0 o0 = defined u0 i0 1
5 s0 define d0 t1 o1 = defined u1 i1 1
6 s0 define d0 t2 o2 = gone t2
7 s1 ask d0:all ready main = pending q0
8 s1 take = start u0
9 s1 place u0 32 16 = placed 10000000
10 s1 resolve u0 = resolved
11 s1 link u0 = pending q1
12 s1 take = start u1
13 s1 place u1 16 16 = placed 10000020
14 s1 resolve u1 = resolved
15 s1 link u1 = done q2
16 s1 take = finish u0 bound i1
17 s1 emit u0 i0:i1 = emitted
18 s1 take = finish u1 bound
19 s1 emit u1 i1: = emitted
20 s1 collect q0 = found 19 i0@10000000
21 s1 image = image
22 s2 ask d0:all ready h = missing h
23 s1 remove t1 = removed
24 s1 image = image
25 s1 ask d0:exported ready f = missing f
26 s1 define d0 t1 o1 = gone t1
c1 l1 found main@10000000
c1 l2 exited 5 68690a
c1 l3 removed
c1 l4 trap 10000020 fetch -
c1 l5 missing f
c1 l6 gone t1
c1 l7 unfound
c2 l1 missing h
"""

TEXT, COMMON, UNDEFINED_SECTION = 1, 0xFFF2, 0
GLOBAL, WEAK = 1, 2


def object_bytes(code, symbols, relocations=(), attributes=b""):
    """A relocatable file of one section of code. A symbol is a name, binding, section, value and size; a relocation an
    offset, a type and the number of a symbol, from 1. By the tables of the System V gABI."""
    names = b"\0" + b"".join(it[0].encode() + b"\0" for it in symbols)
    table, at = bytes(24), 1
    for name, bind, section, value, size in symbols:
        table += struct.pack("<IBBHQQ", at, bind << 4, 0, section, value, size)
        at += len(name) + 1
    rela = b"".join(struct.pack("<QQq", at, symbol << 32 | kind, 0) for at, kind, symbol in relocations)
    titles = b"\0.text\0.rela.text\0.symtab\0.strtab\0.shstrtab\0.riscv.attributes\0"
    # the name, type, flags, link, info, alignment, entry size and bytes of each
    rows = [
        (1, 1, 6, 0, 0, 4, 0, code), (7, 4, 0x40, 3, 1, 8, 24, rela), (18, 2, 0, 4, 1, 8, 24, table),
        (26, 3, 0, 0, 0, 1, 0, names), (34, 3, 0, 0, 0, 1, 0, titles), (44, 0x70000003, 0, 0, 0, 1, 0, attributes),
    ]
    body, headers = b"", bytes(64)
    for name, kind, flags, link, info, align, entry, data in rows:
        body += bytes(-len(body) % 8)
        headers += struct.pack("<IIQQQQIIQQ", name, kind, flags, 0, 64 + len(body), len(data), link, info, align, entry)
        body += data
    body += bytes(-len(body) % 8)
    head = struct.pack("<16sHHIQQQIHHHHHH", b"\x7fELF\2\1\1", 1, 243, 1, 0, 0, 64 + len(body), 0, 64, 0, 0, 64, len(rows) + 1, 5)
    return head + body + headers


def attributes_of(architecture):
    """The attributes of a file that was compiled for this, by the RISC-V ELF psABI: the alignment of the stack, 16, first."""
    words = b"\4\x10\5" + architecture + b"\0"
    inner = b"\1" + struct.pack("<I", 5 + len(words)) + words
    return b"A" + struct.pack("<I", 4 + 6 + len(inner)) + b"riscv\0" + inner


def phases(session, entry):
    """The phases of all instances after an entry; none of those that aren't defined yet."""
    return [row.phase_at(entry) for row in session.instances]


def explained(text, files=()):
    return Explanation(read_log(text), objects_of(files)).words()


def told(text, files=(), script=None):
    """All lines that are said of a log."""
    return Explanation(read_log(text), objects_of(files), script and Script(script)).text()


def made(text, files=()):
    log = read_log(text)
    return page("log", Explanation(log, objects_of(files)), log_text(log))


class Grammar(unittest.TestCase):
    def test_each_event_with_each_reply(self):
        seen = set()
        for line in LINES.strip().split("\n"):
            word, _, text = line.partition(": ")
            entry = read_entry(1, f"7 s2 {text}")
            self.assertIsNotNone(entry, text)
            self.assertEqual((entry.number, entry.seat, entry.reply.word), (7, 2, word), text)
            seen.add((entry.word, word))
        allowed = {(event, word) for event, words in journal.ANSWERS.items() for word in words.split()}
        self.assertEqual(seen, allowed)

    def test_values(self):
        emit = read_entry(1, "1 s1 emit u4 i0:i3,i2;i1: = emitted").event
        self.assertEqual((emit.unit, emit.groups), (4, [([0], [3, 2]), ([1], [])]))
        found = read_entry(1, "1 s1 collect q0 = found 17 i1@10000064,none").reply
        self.assertEqual((found.number, found.matches), (17, [(1, 0x10000064), None]))
        self.assertEqual(read_entry(1, "1 s1 take = finish u0 bound i3,none").reply.matches, [3, None])
        watch = read_entry(1, "1 s1 watch 3 d0:all ready f g? = pending q5").event
        self.assertEqual((watch.note, watch.items, watch.level, watch.words()), (3, ["d0:all"], "ready", ["f", "g?"]))
        why = read_entry(1, "1 s1 fail u0 refused 0 44 17 -20 = failed").event.why
        self.assertEqual((why.word, why.values), ("refused", [0, 44, 17, -20]))
        self.assertEqual(read_entry(1, "1 s1 fail u0 missing = = failed").event.why.values, ["="])

    def test_what_is_no_line(self):
        for text in NO_LINES:
            self.assertIsNone(read_entry(1, f"1 s1 {text}"), text)

    def test_results(self):
        lines = ["found f@10000000 g@none", "found", "failed i3", "inerror i3", "missing f", "defined u1 i2 1", "duplicate f i1", "moved", "gone t0"]
        lines += ["removed", "otherdylib", "exited 3 -", "trap 10000000 illegal ff 68690a", "out of fuel -", "output full 00", "unfound", "ready 10000000", "notyet", "full", "nomemory", "skipped"]
        text = ONE + "".join(f"c{k // 5 + 1} l{k % 5 + 1} {line}\n" for k, line in enumerate(lines))
        results = read_log(text).results
        self.assertEqual([it.text.split(" ", 2)[2] for it in results], lines)
        self.assertEqual((results[7].client, results[7].number, results[7].word), (2, 3, "moved"))
        self.assertEqual(results[12].values, [0x10000000, ["illegal", "ff"], "68690a"])

    def test_names_of_an_entry(self):
        """An entry of a run may have spaces, line breaks and ` = ` in its name."""
        for name in ("two\nlines", "a b", "x = missing x", "main?", "x\nend exited 0", "trailing\n", "5 s1 take = start u0"):
            log = read_log(ONE + f"3 s1 ask d0:all ready {name} = missing {name}\nend missing {name}\n")
            self.assertEqual((len(log.entries), log.rest), (3, None), name)
            self.assertEqual(log.wanted(log.entries[2].event), [name])
            self.assertEqual((log.end.word, log.end.values[0].rstrip("\n")), ("missing", name.rstrip("\n")), name)

    def test_bytes_that_are_no_text(self):
        log = read_log(ONE.encode() + b"3 s0 define d0 t0 o0 = duplicate \xff\x85 i0\nend define refused 0\n")
        self.assertEqual(log.entries[2].reply.name, "\\xff\\x85")

    def test_errors_name_the_line(self):
        for text, line, words in [
            (ONE + "hello\n", 3, "this is no entry"),
            (ONE + "4 s0 image = image\n", 3, "entry 4 stands where entry 3 is due"),
            (TWO.replace("6 s1 take = start u0", "6 s1 take = start u7"), 6, "there is no u7 yet"),
            (ONE + "3 s1 ask d0:all ready f = bogus\n4 s1 image = image\n", 3, "this is no entry"),
            (ONE + "c1 l1 removed\n3 s0 image = image\n", 4, "after result lines"),
        ]:
            with self.assertRaises(LogError) as caught:
                Session(read_log(text))
            self.assertEqual(caught.exception.line, line)
            self.assertIn(words, str(caught.exception))

    def test_a_log_that_is_cut_off(self):
        """Each first part of a log is read: its whole lines, and what stands after them."""
        whole = TWO + "end exited 8\n"
        for length in range(len(whole)):
            text = whole[:length]
            log = read_log(text)
            lines, _, rest = text.rpartition("\n")
            self.assertEqual(len(log.entries), min(19, lines.count("\n") + (lines != "")), text)
            if log.end is None:
                self.assertEqual(log.rest or "", rest)
            else:
                self.assertEqual((log.end.text, log.rest), ("end exited 8", ""))
            Session(log)


class Sessions(unittest.TestCase):
    def test_two_objects_are_ready_at_once(self):
        session = Session(read_log(TWO + "end exited 8\n"))
        self.assertEqual(phases(session, 3), ["defined", "defined", None, None])
        self.assertEqual(phases(session, 6), ["started", "started", "defined", "defined"])
        self.assertEqual(phases(session, 8), ["resolved", "resolved", "defined", "defined"])
        self.assertEqual(phases(session, 15), ["emitted", "emitted", "resolved", "resolved"])
        self.assertEqual(phases(session, 17), ["ready"] * 4)
        self.assertEqual([row.name for row in session.instances], [None, "main", None, None])
        self.assertEqual([row.deps for row in session.instances], [[3, 2], [3, 2], [0], []])
        first = session.units[0]
        self.assertEqual([(it.seat, it.first, it.last) for it in first.spans], [(1, 6, 9), (1, 14, 15)])
        self.assertEqual((first.phase, first.end, first.base, first.need), ("emitted", 15, 0x10000000, 240))

    def test_a_failure_takes_along_what_is_not_ready(self):
        session = Session(read_log(FAILURE))
        # w of u0 is in no group, so the strong one of u1 had replaced it
        self.assertEqual(phases(session, 20), ["emitted", "replaced", "resolved", "resolved", "ready"])
        self.assertEqual(phases(session, 22), ["failed", "replaced", "failed", "failed", "ready"])
        self.assertEqual(phases(session, 24)[4], "removed")
        self.assertEqual([it.phase for it in session.units], ["emitted", "failed", "emitted"])
        self.assertEqual((session.units[1].end, session.units[1].why.values, session.units[2].removed), (22, ["nowhere"], 24))

    def test_a_removal_fails_what_depends_on_it(self):
        session = Session(read_log(REMOVAL))
        self.assertEqual(phases(session, 21), ["failed", "replaced", "removed", "removed", "ready"])
        self.assertEqual((session.units[1].phase, session.units[1].end, session.units[1].spans[0].last), ("removed", 21, 21))

    def test_names_of_a_lookup(self):
        """Of several names, a lookup that was found tells which instances they are."""
        session = Session(read_log(SETUP + "21 s1 collect q0 = found 20 i0@10000000,i4@10000020\nc1 l1 found a@10000000 c@10000020\n"))
        self.assertEqual([row.name for row in session.instances], ["a", None, None, None, "c"])

    def test_an_alias_waits_for_its_target(self):
        session = Session(read_log(ALIAS))
        self.assertEqual(phases(session, 12), ["started", "resolved"])
        self.assertEqual(phases(session, 13), ["resolved", "resolved"])
        self.assertEqual(phases(session, 14), ["emitted", "resolved"])
        self.assertEqual(phases(session, 16), ["ready", "ready"])

    def test_move_and_generator(self):
        text = ONE + """3 s0 tracker d0 = tracker t1
4 s0 attach d0 t0 o0 = generator g0
5 s1 ask d0:all ready f = offer g0
6 s1 move t0 t1 = moved
7 s1 generate g0 = defined u0 i0 1
8 s1 remove t0 = removed
9 s1 remove t1 = removed
c1 l1 moved
"""
        session = Session(read_log(text))
        self.assertEqual((session.units[0].name, session.units[0].tracker), ("o0", 1))
        self.assertEqual([session.instances[0].phase_at(it) for it in (6, 7, 8, 9)], [None, "defined", "defined", "removed"])


class Explanations(unittest.TestCase):
    def test_each_end_line(self):
        """Each answer is said in words of its own, with what the numbers mean: by readelf's account of the two objects."""
        even, odd = PARITY
        for end, words in {
            "exited 8": ["exited with 8."],
            "exited 300": ["exited with 300", "256: 44."],
            "usage no command": ["No command"],
            "usage unknown command": ["none that is built"],
            "usage bad words": ["don't fit", "UTF-8", "standard input", "1,024"],
            "usage bad number": ["number", "range"],
            "read fault": ["Reading the script failed"],
            "file fault 1": [odd, "missing"],
            "too long 0": [even, "16 MiB"],
            "missing is_odder": ["is_odder", "not local", ".globl"],
            "link refused 0 44 19 4294967296": ["R_RISCV_CALL_PLT at 44 of placed section 0 has the value 4294967296"],
            "trap 0 fetch": ["weak function"],
            "trap 10000070 load 7ffefff8": [f"main+12 of {even}", "0x7ffefff8 (in the stack)"],
            "trap 10000008 store 5": [f"is_even+8 of {even}", "stores to 0x5"],
            "trap 100000f0 illegal 0": [f"is_odd+0 of {odd}", "0x00000000 is no instruction"],
            "trap 10000000 misaligned 10000002": [f"is_even+0 of {even}", f"0x10000002 (is_even+2 of {even})", "multiple of 4"],
            "trap 10000000 break": ["ebreak"],
            "out of fuel": ["--fuel"],
            "output full": ["1 MiB"],
            "journal full 19": ["after 19"],
            "no memory": ["Memory ran out"],
            "define refused 1": [odd, "strong definition"],
            "done": ["run to its end"],
            "script refused 2 unknown": ["Line 2 of the script", "wasn't declared"],
            "script refused 2 word": ["before the first `client`", "after it"],
            "script refused 2 taken": ["declared before", "a name twice"],
            "script refused 2 bytes": ["tab", "Windows"],
            "asm refused 5 label": ["Line 5 of the assembly", "label"],
        }.items():
            said = explained(f"{TWO}end {end}\n", PARITY)
            for word in words:
                self.assertIn(word, said)
            explained(f"end {end}\n")

    def test_each_refusal_of_an_object(self):
        even = PARITY[0]
        for why, words in {
            "e1 4000": ["ends before a range", "4000"],
            "e2": ["ELF"],
            "e3": ["64 bits"],
            "e4": ["little endian"],
            "e5": ["-c"],
            "e6": ["RISC-V"],
            "e7 5": ["flags are 5", "-march=rv64im"],
            "e8 0": ["the section table"],
            "e8 1": ["section 1 (.text)"],
            "e9 21": ["symbol 21 (is_even)"],
            "e10 2": ["section 2 (.rela.text)"],
            "e11 6": ["section 6 (.text.startup)"],
            **{f"e12 {form}": ["it "] for form in "group rel tls compressed sectionkind xindex bind".split()},
            "g1 60 4 12": ["R_RISCV_CALL_PLT against symbol 21 (is_even) at 12 of section 6 (.text.startup)", "isn't linked"],
            "g1 60 0 8": ["R_RISCV_SET_ULEB128 at 8 of section 1 (.text)"],
            "g2 0 44": ["R_RISCV_CALL_PLT against symbol 23 (is_odd) at 44 of section 1 (.text)", "outside its section"],
            "g3 22": ["symbol 22 (calls)", "thread-local"],
            "g4 0 4": ["R_RISCV_PCREL_LO12_I against symbol 10 (.L0 ) at 4 of section 1 (.text)", "pair"],
            "g5 3 0": ["section 5 (.rodata.str1.8)", "padding"],
            "g6": ["262,144 relocations"],
        }.items():
            said = explained(f"end object refused 0 {why}\n", PARITY)
            for word in [f"{even} can't be linked", *words]:
                self.assertIn(word, said)
            for files in ([], ["/nowhere.o"], [__file__]):
                self.assertIn("can't be linked", explained(f"end object refused 0 {why}\n", files))

    def test_causes_of_a_failure(self):
        even, odd = PARITY
        # both are undefined in even.o, and its relocations refer to both
        self.assertEqual(explained(UNDEFINED, [even]), f"The entry, main of {even}, couldn't be made ready: no object defines calls and is_odd, which {even} needs.")
        self.assertIn("no object defines calls, which file 0 needs.", explained(UNDEFINED))
        # u0 was given up because u1 was, which had a reason of its own
        text = TWO[: TWO.index("13 s1")] + """13 s1 link u1 = missing nowhere
14 s1 fail u1 missing nowhere = failed
15 s1 take = finish u0 lost i3
16 s1 fail u0 inerror i3 = failed
17 s1 collect q0 = failed 16 i1
end dep failed i1
"""
        self.assertEqual(
            explained(text, PARITY),
            f"The entry, main of {even}, couldn't be made ready: {even} needs calls of {odd}; no object defines nowhere, which {odd} needs.",
        )
        # u0 was emitted, and fails with u1
        text = SETUP + "21 s2 link u1 = missing nowhere\n22 s2 fail u1 missing nowhere = failed\n23 s1 collect q0 = failed 22 i0\nend dep failed i0\n"
        self.assertIn("no object defines nowhere, which file 1 needs", explained(text))
        # the call of is_odd at 44 of .text has a place in is_even; its type has a range
        text = TWO[: TWO.index("15 s1")] + """15 s1 fail u0 refused 0 44 19 4294967296 = failed
16 s1 collect q0 = failed 15 i1
end link refused 0 44 19 4294967296
"""
        said = explained(text, PARITY)
        self.assertIn("R_RISCV_CALL_PLT against symbol 23 (is_odd) at 44 of section 1 (.text), is_even+44,", said)
        self.assertIn(f"of {even} has the value 4294967296, which is out of its range (-2^31-2^11 to 2^31-2^11-1)", said)
        for why, words in {"noroom 240": "no room for the 240 bytes", "nomemory": "memory ran out", "full": "journal was full", "aliascycle i0": "leads back"}.items():
            text = TWO[: TWO.index("15 s1")] + f"15 s1 fail u0 {why} = failed\n16 s1 collect q0 = failed 15 i1\nend dep failed i1\n"
            self.assertIn(words, explained(text, PARITY))

    def test_a_second_definition(self):
        text = ONE + "3 s0 define d0 t0 o0 = defined u0 i0 2\n4 s0 define d0 t0 o1 = duplicate is_even i0\nend define refused 1\n"
        self.assertEqual(explained(text, PARITY), f"{PARITY[1]} defines is_even, which {PARITY[0]} defines too.")
        self.assertEqual(explained(text), "File 1 defines is_even, which file 0 defines too.")
        text = ONE + "3 s0 define d0 t0 o0 = toomany\nend define refused 0\n"
        self.assertIn("262,144", explained(text))
        text = ONE + "3 s0 define d0 t0 o0 = defined u0 i0 2\n4 s0 define d0 t0 o0 = duplicate is_even i0\nend define refused 0\n"
        self.assertEqual(explained(text, PARITY[:1]), f"{PARITY[0]} is named twice, and so defines is_even twice.")

    def test_a_log_without_its_end(self):
        self.assertIn("no end line", explained(TWO))
        self.assertIn("interrupted", explained(""))
        self.assertIn("results of its clients", explained(FAILURE))
        self.assertIn("cut off in the middle of a line: end no m", explained("end no m"))
        self.assertIn("may be cut off", explained("end exited 8"))


class Lines(unittest.TestCase):
    """What the lines of a session came to, and what is said of definitions."""

    def setUp(self):
        folder = tempfile.TemporaryDirectory()
        self.addCleanup(folder.cleanup)
        self.addCleanup(os.chdir, os.getcwd())
        os.chdir(folder.name)

    def write(self, name, *parts, **others):
        pathlib.Path(name).write_bytes(object_bytes(*parts, **others))

    def test_each_line_is_told(self):
        self.write("p.o", bytes(8), [("main", GLOBAL, TEXT, 0, 0), ("f", GLOBAL, UNDEFINED_SECTION, 0, 0)], [(0, 19, 2)])
        self.write("q.o", bytes(8), [("f", GLOBAL, TEXT, 0, 0)])
        lines = told(SESSION, script=SCRIPT, files=["p.o", "q.o"])
        wanted = [
            ["journal of a session"],
            ["set-up, entry 6", "wasn't defined", "no tracker t2"],
            ["3 of 8 came to what they asked for"],
            ["c1 l1: main of p.o was found at 0x10000000."],
            ["c1 l2: the run of main exited with 5 and wrote 3 bytes", '"hi\\n"'],
            ["c1 l3: tracker tb (t1) was removed", "q.o"],
            ["c1 l4: the run of main", "wrote nothing", "0x10000020 (where f+0 of q.o was, until entry 23 freed that)", "not all mapped"],
            ["c1 l5: no definition of f is seen in main:exported: f of q.o was removed by entry 23."],
            ["c1 l6: q.o wasn't defined: tracker tb (t1) was removed by entry 23."],
            ["c1 l7: nothing was run", "none of its lines before looks g up"],
            ["c2 l1: no definition of h is seen in main:all."],
        ]
        self.assertEqual(len(lines), len(wanted), lines)
        for line, words in zip(lines, wanted):
            for word in words:
                self.assertIn(word, line)
        # without the script and the files things have their numbers
        plain = "\n".join(told(SESSION))
        for word in ("c1 l1: main of file 0 was found", "file 1 wasn't defined: tracker t1 was removed by entry 23", "gave the name an instance"):
            self.assertIn(word, plain)

    def test_peeks_are_told(self):
        """A peek has no entry: the lines after it keep theirs."""
        script = "dylib main\ntracker main t\nobject main t f.o\nclient\npeek f\nlookup resolved main:all f\npeek f\nlookup ready main:all f\npeek f\nrun f 9\n"
        text = ONE + "3 s0 define d0 t0 o0 = defined u0 i0 1\n4 s1 ask d0:all resolved f = pending q0\n5 s1 take = start u0\n6 s1 place u0 16 16 = placed 10000000\n"
        text += "7 s1 resolve u0 = resolved\n8 s1 link u0 = done q1\n9 s1 collect q0 = found 7 i0@10000000\n10 s1 ask d0:all ready f = pending q2\n"
        text += "11 s1 take = finish u0 bound\n12 s1 emit u0 i0: = emitted\n13 s1 collect q2 = found 12 i0@10000000\n14 s1 image = image\n"
        text += "c1 l1 unfound\nc1 l2 found f@10000000\nc1 l3 notyet\nc1 l4 found f@10000000\nc1 l5 ready 10000000\nc1 l6 exited 3 -\n"
        lines = told(text, script=script.encode())
        wanted = ["4 of 6 came", "gave f an instance: none of its lines before looks f up", "isn't ready", "nobody had told that f is ready", "was found at 0x10000000.", "f is ready at 0x10000000.", "the run of f exited with 3"]
        self.assertEqual(len(lines), 1 + len(wanted), lines)
        for line, words in zip(lines[1:], wanted):
            self.assertIn(words, line)
        self.assertIn("c1 l5: the name is ready at 0x10000000.", told(text))
        self.assertIn("<code>c1 l5 ready 10000000</code><span>the name is ready", made(text))

    def test_causes_of_lines(self):
        lines = told(FAILURE)
        self.assertIn("1 of 2 came", lines[1])
        self.assertIn("c1 l1: the lookup of a? and c failed with instance 0 of file 0: it needs instance 2 of file 1; no dylib in the link order of main defines nowhere, which file 1 needs.", lines)
        text = REMOVAL + "23 s1 collect q0 = failed 21 i0\n24 s3 ask d0:all ready a = inerror i0\nc1 l1 failed i0\nc3 l1 inerror i0\n"
        lines = told(text)
        self.assertIn("it needs instance 2 of file 1, which wasn't ready when entry 21 removed tracker t1", lines[2])
        self.assertIn("c3 l1: the lookup of a was refused: a of file 0 had failed by entry 21, and is so until tracker t0 is removed", lines[3])
        text = ONE + "3 s0 define d0 t0 o0 = defined u0 i0 1\n4 s1 ask d0:all resolved f = pending q0\n5 s1 take = start u0\n6 s1 place u0 16 16 = placed 10000000\n"
        text += "7 s1 resolve u0 = resolved\n8 s1 collect q0 = found 7 i0@10000000\n9 s2 define d0 t0 o1 = duplicate f i0\n"
        lines = told(text + "c1 l1 found f@10000000 g@none\nc2 l1 duplicate f i0\nc2 l2 full\nc2 l3 skipped\nend journal full 9\n")
        self.assertIn("after 9", lines[0])
        for line, words in zip(lines[2:], ["f of file 0 was found at 0x10000000, which can't be run yet, since it isn't ready; g has no definition", "file 0 defines it already", "no place", "stopped"]):
            self.assertIn(words, line)

    def test_commons(self):
        """A common variable that is smaller than another file's, and a weak definition over a common one, are told."""
        self.write("small.o", bytes(8), [("main", GLOBAL, TEXT, 0, 0), ("v", GLOBAL, COMMON, 8, 8)])
        self.write("large.o", bytes(8), [("f", GLOBAL, TEXT, 0, 0), ("v", GLOBAL, COMMON, 16, 64)])
        self.write("weak.o", bytes(8), [("f", GLOBAL, TEXT, 0, 0), ("v", WEAK, TEXT, 4, 4)])
        self.write("strong.o", bytes(8), [("f", GLOBAL, TEXT, 0, 0), ("v", GLOBAL, TEXT, 4, 4)])

        def warnings(first, second, counts):
            text = ONE + f"3 s0 define d0 t0 o0 = defined u0 i0 {counts[0]}\n4 s0 define d0 t0 o1 = defined u1 i{counts[0]} {counts[1]}\nend exited 0\n"
            return told(text, [first, second])[1:]

        (line,) = warnings("small.o", "large.o", (2, 1))
        self.assertIn("the common v of small.o is taken, with 8 bytes aligned to 8, and large.o has one of 64 bytes aligned to 16", line)
        self.assertEqual(warnings("large.o", "small.o", (2, 1)), [])
        (line,) = warnings("weak.o", "small.o", (2, 1))
        self.assertIn("the weak v of weak.o is taken, and not the common one of small.o", line)
        self.assertEqual(warnings("small.o", "weak.o", (2, 1)), [])
        # a strong one replaces either, and what isn't of these files isn't told
        self.assertEqual(warnings("small.o", "strong.o", (2, 2)), [])
        (line,) = warnings("small.o", "large.o", (2, 2))
        self.assertIn("don't fit the definitions of the log", line)
        self.assertIn("the common v of small.o", made(ONE + "3 s0 define d0 t0 o0 = defined u0 i0 2\n4 s0 define d0 t0 o1 = defined u1 i2 1\nend exited 0\n", ["small.o", "large.o"]))

    def test_what_lies_behind_the_blocks(self):
        """After 8 bytes of code a call of another object has a cell at 8 and a stub at 16, and the unit ends at 32."""
        self.write("p.o", bytes(8), [("main", GLOBAL, TEXT, 0, 0), ("f", GLOBAL, UNDEFINED_SECTION, 0, 0)], [(0, 19, 2)])
        self.write("q.o", bytes(4), [("f", GLOBAL, TEXT, 0, 0)])
        for at, words in {"10000008": "the cell of f of p.o", "10000018": "the stub of f of p.o", "10000024": "padding of q.o", "10000020": "f+0 of q.o"}.items():
            text = SESSION[: SESSION.index("23 s1")].replace("6 s0 define d0 t2 o2 = gone t2", "6 s0 image = image") + f"end trap {at} break\n"
            self.assertIn(words, explained(text, ["p.o", "q.o"]))

    def test_what_an_object_was_compiled_for(self):
        """An atomic instruction in a file whose attributes tell of A; an illegal word in one that is for RV64IM is only that."""
        text = SESSION[: SESSION.index("22 s2")] + "end trap 10000000 illegal 6b5252f\n"
        for architecture, words in {
            b"rv64i2p1_m2p0_a2p1_zicsr2p0": "perhaps one of the extension A (atomic): p.o was compiled for rv64ima_zicsr, as its attributes say",
            b"rv64i2p1_m2p0_zmmul1p0": "perhaps one of the extension A (atomic).",
            b"": "perhaps one of the extension A (atomic).",
        }.items():
            self.write("p.o", bytes(8), [("main", GLOBAL, TEXT, 0, 0), ("f", GLOBAL, UNDEFINED_SECTION, 0, 0)], [(0, 19, 2)], attributes=attributes_of(architecture))
            self.assertIn(words, explained(text, ["p.o", "/nowhere"]))
        self.assertEqual(extensions("rv64imafdc_zicsr2p0"), {"i", "m", "a", "f", "d", "c", "zicsr"})
        self.assertEqual(without_versions("rv64i2p1_m2p0_a2p1_zicsr2p0_zmmul1p0"), "rv64ima_zicsr_zmmul")

    def test_lines_of_scripts_and_texts(self):
        """What is odd about the bytes of the line that was refused."""
        for line, words in {b"dylib main\r": "carriage return", b"dylib\tmain": "a tab at byte 6", b"dylib  main": "two where one stands", b"dylib \x01": "0x01 at byte 7"}.items():
            said = told("end script refused 2 bytes\n", script=b"# one\n" + line + b"\n")[0]
            self.assertIn(words, said)
            self.assertIn("`dylib", said)
        pathlib.Path("f.s").write_bytes(b"\tnop\nret\r\n\tli a0, 5\n")
        self.assertIn("carriage return", explained("end asm refused 2 word\n", ["f.s"]))
        self.assertIn("`\\x09li a0, 5`: its first word", explained("end asm refused 3 word\n", ["f.s"]))

    def test_files_of_a_script(self):
        script = Script(SCRIPT)
        self.assertEqual(list(script.files), ["p.o", "q.o", "r.o"])
        self.assertEqual((script.line(1, 5).words[0], script.line(2, 1).words, script.line(2, 2)), ("lookup", ["lookup", "ready", "main:all", "h"], None))


class Pages(unittest.TestCase):
    def data(self, text, files=()):
        return json.loads(re.search('id="data">(.*?)</script>', made(text, files), re.S)[1])

    def test_names_are_escaped(self):
        name = "</script><b>&\"'"
        text = ONE + f"3 s1 ask d0:all ready {name} = missing {name}\nend missing {name}\n"
        written = made(text)
        self.assertNotIn("<b>", written)
        self.assertIn(html.escape(f"end missing {name}"), written)
        self.assertEqual(self.data(text)["entries"][2], [1, "ask", "missing", None, f"3 s1 ask d0:all ready {name} = missing {name}"])

    def test_data(self):
        data = self.data(TWO + "end exited 8\n", PARITY)
        phases = [it[0] for it in data["phases"]]
        self.assertEqual([it[1] for it in data["instances"]], ["is_even", "main", "is_odd", "calls"])
        self.assertEqual([(at, phases[it]) for at, it in data["instances"][3][2]], [(4, "defined"), (10, "started"), (12, "resolved"), (17, "emitted"), (17, "ready")])
        self.assertEqual(data["groups"], [[15, [0], [3, 2]], [15, [1], [3, 2]], [17, [2], [0]], [17, [3], []]])
        self.assertEqual(data["columns"], [[0], [1]])
        self.assertEqual([it["spans"] for it in data["units"]], [[[1, 6, 9], [1, 14, 15]], [[1, 10, 13], [1, 16, 17]]])

    def test_every_log_has_a_page(self):
        for text in ("", "end no m", "end usage bad words\n", TWO, TWO[:-25], FAILURE, REMOVAL, ALIAS, UNDEFINED):
            written = made(text)
            self.assertNotRegex(written, "@[A-Z]+@")
            self.assertEqual("cut off in the middle" in written, text in ("end no m", TWO[:-25]))
        self.assertIn("c1 l2 removed", made(FAILURE))

    def test_a_large_log_is_not_drawn_at_once(self):
        entries = [*ONE.split("\n")[:2], *(f"{k + 3} s0 define d0 t0 o{k} = defined u{k} i{k} 1" for k in range(20000))]
        self.assertIsNone(self.data("\n".join(entries) + "\n")["columns"])

    def test_a_refusal_tells_what_became_of_the_tracker(self):
        text = ONE + "3 s0 tracker d0 = tracker t1\n4 s1 move t0 t1 = moved\n5 s1 define d0 t0 o0 = gone t0\n6 s1 remove t1 = removed\n7 s1 remove t1 = gone t1\n"
        said = self.data(text + "c1 l1 moved\n")["told"]
        self.assertIn("all that tracker t0 had was moved to tracker t1 by entry 4", said["5"])
        self.assertIn("tracker t1 was removed by entry 6", said["7"])
        text = ONE + "3 s0 dylib other = made d1\n4 s0 define d1 t0 o0 = gone t0\n"
        self.assertIn("tracker t0 is one of main, and not of other", self.data(text)["told"]["4"])

    def test_columns_go_by_distance(self):
        """u0 needs u1, and the lookup itself asked for u2."""
        self.assertEqual(columns(Session(read_log(SETUP))), [[0, 2], [1]])

    def test_dot(self):
        session = Session(read_log(TWO + "end exited 8\n"))
        lines = [it.strip() for it in graph(session, 15)]
        self.assertIn('i1 [label="i1\\nmain", style="filled", fillcolor="#cbbcec", tooltip="emitted"];', lines)
        self.assertEqual([it for it in lines if "->" in it], ["i0 -> i3;", "i0 -> i2;", "i1 -> i3;", "i1 -> i2;"])
        self.assertEqual([it for it in graph(session, 3) if "cluster" in it], ["  subgraph cluster_u0 {"])
        self.assertIn("i2 -> i0;", "\n".join(graph(session, 19)))


class Commands(unittest.TestCase):
    def test_the_tools_run(self):
        with tempfile.TemporaryDirectory() as folder:
            log, target = pathlib.Path(folder) / "log", pathlib.Path(folder) / "page.html"
            log.write_text(TWO + "end exited 8\n")

            def run(*words, status=0):
                done = subprocess.run([sys.executable, *map(str, words)], capture_output=True, text=True)
                self.assertEqual(done.returncode, status, done.stderr)
                return done.stdout, done.stderr

            self.assertEqual(run(TOOLS / "explain.py", log, *PARITY)[0], "The program exited with 8.\n")
            self.assertTrue(run(TOOLS / "journal_dot.py", log, "--at", 15)[0].startswith("digraph"))
            self.assertIn("entries 1 to 19", run(TOOLS / "journal_dot.py", log, "--at", 20, status=2)[1])
            run(TOOLS / "journal_page.py", log, "-o", target)
            self.assertTrue(target.read_text().startswith("<!doctype html>"))
            script = pathlib.Path(folder) / "script"
            script.write_bytes(SCRIPT)
            log.write_text(SESSION)
            self.assertIn("c1 l2: the run of main exited with 5", run(TOOLS / "explain.py", log, "--script", script)[0])
            run(TOOLS / "journal_page.py", log, "--script", script, "-o", target)
            self.assertIn("the run of main exited with 5", target.read_text())
            for odd, words in {b"\x7fELF\2": "this is an object", b"y\n": "this is no log of orc", b"end done\0": "zero byte"}.items():
                log.write_bytes(odd)
                for tool in ("explain.py", "journal_dot.py", "journal_page.py"):
                    self.assertEqual(run(TOOLS / tool, log, status=1)[1].count("\n"), 1)
                    self.assertIn(words, run(TOOLS / tool, log, status=1)[1])
            # (what has no end isn't read to it)
            self.assertIn("no log of orc", run(TOOLS / "explain.py", "/dev/zero", status=1)[1])
            log.write_text("end exited 3\n")
            self.assertEqual(run(TOOLS / "explain.py", log, "/dev/zero")[0], "The program exited with 3.\n")
            log.write_text(ONE + "hello\n")
            for tool in ("explain.py", "journal_dot.py", "journal_page.py"):
                self.assertIn("line 3: this is no entry", run(TOOLS / tool, log, status=1)[1])


if __name__ == "__main__":
    unittest.main()
