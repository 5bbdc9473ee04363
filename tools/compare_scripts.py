#!/usr/bin/env python3
"""Compares what the reader says of random and damaged scripts with a second reader of the grammar.

    tools/compare_scripts.py DUMP [COUNT [SEED]]

DUMP is the built program of the crate script_dump. Names what differs; ends with 1 where something does.
"""
import random
import subprocess
import sys
import tempfile
from collections import Counter
from pathlib import Path

from script_grammar import answer
from tool_words import arguments, built, integers

BATCH = 400


class Writer:
    """Writes lines that are mostly good: the names that it uses are mostly declared."""

    def __init__(self, dice):
        self.dice = dice
        self.dylibs, self.trackers = [], []

    def new_name(self):
        return "".join(self.dice.choices("abAB_09", k=self.dice.randint(1, 3)))

    def symbol(self):
        odd = ["=", "", "a?", "?", "a,b", "a@V", "\x7f", "é", "x" * 4096, "x" * 4097]
        if self.dice.random() < 0.02:
            return self.dice.choice(odd)
        return "".join(self.dice.choices("fgh:.$-\xe9", k=self.dice.randint(1, 3)))

    def one_of(self, names):
        if not names or self.dice.random() < 0.03:
            return self.dice.choice(["zz", "a-b", "", "é", "y" * 4096, "y" * 4097])
        return self.dice.choice(names)

    def dylib(self):
        return self.one_of(self.dylibs)

    def tracker(self):
        return self.one_of(self.trackers)

    def file(self):
        if self.dice.random() < 0.02:
            return self.dice.choice(["é", "", "a\x7f", "f" * 5000])
        return self.dice.choice(["a.o", "b.o", "dir/c.o", "~", "!"])

    def item(self):
        scope = "all" if self.dice.random() < 0.5 else "exported"
        if self.dice.random() < 0.03:
            scope = self.dice.choice(["", "al", "all:", "All"])
        return f"{self.dylib()}:{scope}"

    def number(self, base, bits):
        odd = ["", "00", "08", "-1", "+1", "0x1", "1A", "A", "g", str(2**40 + 1), str(2**64), "f" * 17]
        if self.dice.random() < 0.05:
            return self.dice.choice(odd)
        n = self.dice.choice([0, 1, 10, (1 << bits) - 1, self.dice.getrandbits(bits)])
        return f"{n:x}" if base == 16 else str(n)

    def some(self, make, least, most):
        return [make() for _ in range(self.dice.randint(least, most))]

    def lookup(self):
        level = self.dice.choices(["ready", "resolved", "soon"], [10, 10, 1])[0]
        order = ",".join(self.some(self.item, 1, 3))
        mark = lambda: self.symbol() + self.dice.choice(["", "", "?"])
        return [level, order, *self.some(mark, 0 if self.dice.random() < 0.05 else 1, 4)]

    def setup(self):
        kind = self.dice.choice(
            "dylib tracker order object object absolute absolute generator alias alias".split()
        )
        if kind == "dylib":
            self.dylibs.append(self.new_name())
            return [kind, self.dylibs[-1]]
        if kind == "tracker":
            d = self.dylib()
            self.trackers.append(self.new_name())
            return [kind, d, self.trackers[-1]]
        if kind == "order":
            return [kind, self.dylib(), *self.some(self.item, 1, 3)]
        if kind == "absolute":
            definition = lambda: f"{self.symbol()}={self.number(16, 64)}"
            return [kind, self.dylib(), self.tracker(), *self.some(definition, 1, 3)]
        if kind == "alias":
            definition = f"{self.symbol()}={self.dylib()}:{self.symbol()}"
            return [kind, self.dylib(), self.tracker(), definition]
        return [kind, self.dylib(), self.tracker(), self.file()]

    def call(self):
        kind = self.dice.choice("define lookup lookup watch move remove run run peek client".split())
        if kind == "client":
            return [kind]
        if kind == "define":
            return [kind, self.dylib(), self.tracker(), self.file()]
        if kind == "move":
            return [kind, self.tracker(), self.tracker()]
        if kind == "remove":
            return [kind, self.tracker()]
        if kind == "peek":
            return [kind, self.symbol()]
        if kind == "run":
            fuel = self.number(10, 40)
            arguments = self.some(lambda: self.number(10, 64), 0, 3)
            return [kind, self.symbol(), fuel, *arguments]
        return [kind, *self.lookup()]

    def script(self):
        lines = [["dylib", "a"], ["tracker", "a", "t"]]
        self.dylibs, self.trackers = ["a"], ["t"]
        lines += self.some(self.setup, 0, 8)
        lines += [["client"]] + self.some(self.call, 0, 8)
        if self.dice.random() < 0.1:
            self.dice.shuffle(lines)
        texts = [" ".join(line) for line in lines]
        for _ in range(self.dice.randint(0, 2)):
            texts.insert(self.dice.randint(0, len(texts)), self.dice.choice(["", "# x  y\t", "#"]))
        text = "\n".join(texts) + self.dice.choice(["", "\n"])
        return text.encode("utf-8" if self.dice.random() < 0.9 else "latin-1", "replace")


def damaged(dice, data):
    """A script with a few bytes changed, doubled, dropped or moved."""
    data = bytearray(data)
    for _ in range(dice.randint(1, 2)):
        if not data:
            break
        at = dice.randrange(len(data))
        kind = dice.randrange(4)
        if kind == 0:
            data[at] = dice.choice([*b" \n\t#:,=@?_a0", 0x7F, 0x1F, 0x80, 0xFF, dice.randrange(256)])
        elif kind == 1:
            del data[at]
        elif kind == 2:
            data.insert(at, data[at])
        else:
            end = min(len(data), at + dice.randint(1, 12))
            part = data[at:end]
            del data[at:end]
            place = dice.randint(0, len(data))
            data[place:place] = part
    return bytes(data)


def at_limits():
    """Scripts at a limit, and just past it."""
    head = "dylib a\ntracker a t\n"
    for n in (64, 65):
        yield "".join(f"dylib d{i}\n" for i in range(n))
        yield head + "order a" + " a:all" * n + "\n"
        yield head + "client\nlookup ready " + ",".join(["a:all"] * n) + " f\n"
    for n in (1024, 1025):
        yield head + "".join(f"object a t f{i}\n" for i in range(n)) + "object a t f0\n"
        yield head + "client\n" + "".join(f"define a t f{i}\n" for i in range(n))
    for n in (16, 17):
        yield "client\n" * n
    for n in (2, 3):
        yield head + "client\n" + "watch ready a:all f\n" * n
    for n in (65536, 65537):
        yield head + "client\nlookup ready a:all" + " f" * n + "\n"
        yield head + "client\nwatch ready a:all" + " f?" * n + "\n"
        yield head + "absolute a t" + "".join(f" f{i:x}=0" for i in range(n)) + "\n"
    for n in (8, 9):
        yield "client\nrun f 0" + " 1" * n + "\n"
    for n in (4096, 4097):
        yield "#\n" * n
        yield "\n" * n
        yield f"dylib {'d' * n}\nclient\nrun {'f' * n} 1\n"
        yield head + f"client\nlookup ready a:all {'f' * n}?\n"
    for n in (1048575, 1048576, 1048577):
        yield "#" * n
        yield "#" * (n - 1) + "\n"
        yield "\n" + "#" * (n - 1)
        yield "#" * (n - 8) + "\ndylib a"
    for n in (1 << 40, (1 << 40) + 1, (1 << 64) - 1, 1 << 64):
        yield f"client\nrun f {n}\n"
        yield f"client\nrun f 1 {n}\n"
        yield head + f"absolute a t f={n:x}\n"


def scripts(dice, count):
    yield b""
    for text in at_limits():
        yield text.encode()
    for k in range(count):
        data = Writer(dice).script()
        yield data if k % 2 else damaged(dice, data)


def answers(dump, notes, folder, batch):
    """What the program says of each script."""
    names = []
    for k, data in enumerate(batch):
        path = folder / f"{k}"
        path.write_bytes(data)
        names.append(str(path))
    out = subprocess.run([dump, str(notes), *names], check=True, capture_output=True).stdout
    parts = out.decode().split("script ")[1:]
    return [part.splitlines()[1:] for part in parts]


def main():
    dump, *numbers = arguments(__doc__, 1, 3)
    dump, (count, seed) = built(dump), integers(numbers, 20000, 1)
    dice = random.Random(seed)
    tally, differing, total = Counter(), 0, 0
    everything = list(scripts(dice, count))
    with tempfile.TemporaryDirectory() as name:
        for start in range(0, len(everything), BATCH):
            batch = everything[start : start + BATCH]
            notes = dice.randint(0, 2) if start else 2
            for data, said in zip(batch, answers(dump, notes, Path(name), batch), strict=True):
                expected = answer(data, notes)
                total += 1
                tally[said[0].split()[2] if said and said[0].startswith("refused") else "read"] += 1
                if said != expected:
                    differing += 1
                    if differing <= 5:
                        print("script", data[:400], "notes", notes)
                        print("  reader ", said[:6])
                        print("  grammar", expected[:6])
    print(f"{total} scripts, {differing} differ;", dict(sorted(tally.items())))
    sys.exit(1 if differing else 0)


if __name__ == "__main__":
    main()
