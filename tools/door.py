#!/usr/bin/env python3
"""What `./orc` answers itself: help, its version, and the tools that read logs.

    ./orc help [COMMAND]             what the commands are, or one of them, with an example
    ./orc --version                  the sum of the sources, the kit, and where the program came from
    ./orc explain LOG [FILE ..] [--script SCRIPT]                tools/explain.py with these words
    ./orc page LOG [FILE ..] [--script SCRIPT] [-o PAGE.html]    tools/journal_page.py with these words

All other words go to the program as they are.
"""
import os
import signal
import sys
from pathlib import Path

import release

TOOLS = Path(__file__).resolve().parent
TOOL_OF = {"explain": "explain.py", "page": "journal_page.py"}

USAGE = """orc links and runs RISC-V programs in memory.

  ./orc run FILE.. [--entry NAME] [--fuel N] [--workers N]    links these objects and runs one of their symbols
  ./orc session [--workers N] <SCRIPT                         makes the calls of a script on one session
  ./orc as FILE >OBJECT                                       assembles a text
  ./orc gen N                                                 makes a session of N generated objects
  ./orc explain LOG [FILE..]                                  says in words how a log ended, and why
  ./orc page LOG [FILE..] [-o PAGE.html]                      draws a log as a page
  ./orc help [COMMAND]                                        this page, or that of one command
  ./orc --version                                             which program this is

The log of a command stands on standard error; its last line and the exit status say how it ended.
An example: ./orc run examples/parity/even.o examples/parity/odd.o
docs/COMMANDS.md has each answer and what to do about it, docs/GLOSSARY.md the words, README.md the rest."""

HELP = {
    "run": """./orc run FILE.. [--entry NAME] [--fuel N] [--workers N]

Links the objects in these files as one program, and runs the symbol `main`.

  --entry NAME    runs the symbol NAME
  --fuel N        runs at most N instructions, and not 1,000,000; at most 2^40
  --workers N     N threads link beside the one that looks the entry up; at most 16

Objects are relocatable ELF64 files for RISC-V: `-march=rv64im -mabi=lp64 -mcmodel=medany -ffreestanding -c`.
Standard output has what the program wrote, standard error the journal of the link and how it ended, and the exit
status is the program's; one from 100 on may be orc's own, which the last line of the log tells.

Example: ./orc run examples/parity/even.o examples/parity/odd.o""",
    "session": """./orc session [--workers N] <SCRIPT

Reads a script on standard input, and makes its calls on one session: dylibs, trackers, objects, and clients that look
up, watch, run, move and remove beside each other. Standard output has the session's journal, and then a line for
each line of each client.

  --workers N     N threads link beside the clients; at most 16

docs/COMMANDS.md, "A session by a script", has the lines of a script.

Example: cd examples/cycle && ../../orc session <cycle""",
    "as": """./orc as FILE >OBJECT

Assembles the text in FILE, and writes its object on standard output. docs/COMMANDS.md, "An assembly text", has
what a text may say.

Example: ./orc as examples/hello.s >/tmp/hello.o && ./orc run /tmp/hello.o""",
    "gen": """./orc gen N

Makes the calls of a session of N generated objects, 1 to 4096, and writes what it came to on standard output.

Example: ./orc gen 512""",
    "explain": """./orc explain LOG [FILE..]

Says in words how a log ended, and why; of a session what each line came to. LOG is what `orc` wrote on standard error
(of a session, what it wrote on standard output), FILE.. are the files of the command in order: with them, symbols and
sections are called by name. Of a session `--script SCRIPT` tells the files.

Example: ./orc run examples/sieve.o 2>/tmp/log; ./orc explain /tmp/log examples/sieve.o""",
    "page": """./orc page LOG [FILE..] [-o PAGE.html]

Makes one page of a log, on which the link can be looked at entry by entry; it needs no network and nothing beside it.
`PAGE.html#15` opens at entry 15.

Example: ./orc run examples/parity/even.o examples/parity/odd.o 2>/tmp/log; ./orc page /tmp/log examples/parity/even.o examples/parity/odd.o -o /tmp/page.html""",
    "help": """./orc help [COMMAND]

What the commands are, or one of them, with an example.

Example: ./orc help run""",
}


def version():
    """Which program this is: the sum of its sources, the kit that proved it, and where it came from."""
    sum, found = release.sum_of_all(release.sources()), release.released()
    kit = release.kit_name() or (found[0] if found else "no kit")
    origin = release.BUILT.with_name(f"{release.PROGRAM}.origin")
    noted = origin.read_text().split(maxsplit=1) if origin.is_file() else []
    if noted and noted[0] == sum:
        word = "the program of release/" if noted[1].strip() == "release" else "proved and built here"
    elif release.why_not() is None:
        word = "the program of release/, once it is called"
    else:
        word = "no program is built of these sources yet"
    return f"orc, of sources {sum[:16]}, by {kit}: {word}"


def main(words):
    word, rest = words[0], words[1:]
    if word in TOOL_OF:
        os.execv(sys.executable, [sys.executable, str(TOOLS / TOOL_OF[word]), *rest])
    if word == "--version":
        print(version())
        return 0
    if not rest:
        print(USAGE)
        return 0
    if rest[0] not in HELP:
        print(f"orc: there is no command {rest[0]}; ./orc help has them", file=sys.stderr)
        return 2
    print(HELP[rest[0]])
    return 0


if __name__ == "__main__":
    if len(sys.argv) < 2:
        sys.exit(__doc__)
    # (who reads a part alone, as head does, ends this)
    signal.signal(signal.SIGPIPE, signal.SIG_DFL)
    sys.exit(main(sys.argv[1:]))
