#!/usr/bin/env python3
"""Runs an object whose padding is left to the linker, and looks at its journal and its end.

    tools/padded_row.py ORC

The object has 28 bytes of text: two instructions, ALIGN with 12 bytes of padding at 8, a jump at 20 and the
return that it leads to. Four bytes of padding are deleted, so that six instructions are done. The same
holds where its section's alignment is 8 in the file. Ends with 1 where something differs."""
import pathlib
import struct
import subprocess
import sys
import tempfile

from tool_words import arguments, built

TOP = pathlib.Path(__file__).resolve().parent.parent
OBJECT = TOP / "tools" / "labs" / "graph_dump" / "data" / "padded.o"
SECTION_ALIGN = 392
JOURNAL = """\
1 s0 dylib main = made d0
2 s0 tracker d0 = tracker t0
3 s0 define d0 t0 o0 = defined u0 i0 1
4 s1 ask d0:all ready main = pending q0
5 s1 take = start u0
6 s1 place u0 32 16 = placed 10000000
7 s1 resolve u0 = resolved
8 s1 link u0 = done q1
9 s1 take = finish u0 bound
10 s1 emit u0 i0: = emitted
11 s1 collect q0 = found 10 i0@10000000
12 s1 image = image
"""


def main():
    orc, unlike = built(*arguments(__doc__, 1, 1)), 0
    with tempfile.TemporaryDirectory() as folder:
        path = pathlib.Path(folder, "padded.o")
        for align in (16, 8):
            data = bytearray(OBJECT.read_bytes())
            struct.pack_into("<Q", data, SECTION_ALIGN, align)
            path.write_bytes(data)
            for fuel, end in ((6, "end exited 2\n"), (5, "end out of fuel\n")):
                done = subprocess.run([orc, "run", path, "--fuel", str(fuel)], stdout=subprocess.PIPE, stderr=subprocess.PIPE)
                if done.stdout or done.stderr.decode() != JOURNAL + end:
                    unlike += 1
                    print(f"alignment {align}, fuel {fuel}: {done.stderr.decode()}")
    print(f"{unlike} unlike" if unlike else "all alike")
    return 1 if unlike else 0


if __name__ == "__main__":
    sys.exit(main())
