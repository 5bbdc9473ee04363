#!/usr/bin/env python3
"""Changes one byte of `examples/hello.o`, or cuts it, and looks for the answer that the checks name.

    tools/changed_bytes.py DUMP
"""
import sys
import tempfile
from pathlib import Path

from compare_objects import answers
from tool_words import arguments, built

HELLO = Path(__file__).resolve().parent.parent / "examples" / "hello.o"
CUTS = {0: "e1 0", 15: "e1 15", 63: "e1 63", 64: "e1 328", 400: "e1 400"}
CHANGES = [
    (4, 0x01, "e3"),
    (5, 0x02, "e4"),
    (16, 0x02, "e5"),
    (18, 0x3E, "e6"),
    (48, 0x05, "e7 5"),
    (58, 0x3F, "e8 0"),
    (425, 0x10, "e1 776"),
    (440, 0x03, "e8 1"),
    (480, 0x40, "e11 2"),
    (560, 0x05, "e10 3"),
    (236, 0x30, "e12 bind"),
    (240, 0x25, "e9 3"),
    (124, 0x09, "e10 3"),
]


def main():
    dump = built(*arguments(__doc__, 1, 1))
    hello = HELLO.read_bytes()
    cases = [(hello[:length], f"refused {end}") for length, end in CUTS.items()]
    for at, value, end in CHANGES:
        cases.append((hello[:at] + bytes([value]) + hello[at + 1 :], f"refused {end}"))
    bad = 0
    with tempfile.TemporaryDirectory() as place:
        paths = []
        for k, (data, _) in enumerate(cases):
            paths.append(str(Path(place, str(k))))
            Path(paths[-1]).write_bytes(data)
        got = answers(dump, paths)
        for path, (_, want) in zip(paths, cases):
            if got[path] != [want]:
                bad += 1
                print(f"ours {got[path][0][:100]}, wanted {want}")
    print(f"{len(cases)} files, {bad} answered otherwise")
    return 1 if bad else 0


if __name__ == "__main__":
    sys.exit(main())
