#!/usr/bin/env python3
"""Lists the functions whose proof took more than ten seconds, by what in them took it.

    tools/slow_functions.py [CRATE ..]

Reads when each file of crates/CRATE/out/incremental was written, of each CRATE or of all that have been
checked. One job writes them in order, a file for each module of the proof, so a module took what lies
between its file and the one before. That holds after a check from nothing, with `rt check --jobs 1`; of a
later one only what it did anew has new times, and ten minutes without a file are a pause between two.

A row for each function has the seconds of the search for its goals, of the borrow checker's paths through
it, and of what belongs to its types and its code; then a row for the crate, with its lemmas and its
definitions. Seconds are those of a clock, so a machine that does other work makes all of them longer.
"""
import os
from collections import defaultdict

from tool_words import ROOT, arguments, end, end_with_reader

LONG = 10
PAUSE = 600
KINDS = ("search", "paths", "types", "code")
# Of a function, by the first word of the module after its name; all others are of its types.
KIND_OF = {"Proof": "search", "Goals": "search", "Answers": "search", "Lts": "paths", "Code": "code", "TheLink": "code"}


def modules(crate):
    """The modules of a crate's proof with the seconds that each took, in their order."""
    room = os.path.join(ROOT, "crates", crate, "out", "incremental")
    written = []
    for folder, _, names in os.walk(room):
        for name in names:
            if name.endswith(".oantt"):
                written.append((os.stat(os.path.join(folder, name)).st_mtime_ns, name[: -len(".oantt")]))
    written.sort()
    for (before, _), (at, name) in zip(written, written[1:]):
        seconds = (at - before) / 1e9
        yield name.removeprefix(f"Rattle-{crate}-"), seconds if seconds < PAUSE else 0.0


def function_of(module, functions):
    """The function that a module belongs to, and the module's words after its name."""
    words = module.removeprefix("proofs.").removeprefix("specs.contracts.").split(".")
    for many in range(len(words), 0, -1):
        name = ".".join(words[:many])
        if name in functions:
            return name, words[many:]
    return None, words


def spent(crate):
    """The seconds of each function by kind, and those of what belongs to none."""
    taken = list(modules(crate))
    contracts = (name.removeprefix("specs.contracts.") for name, _ in taken if name.startswith("specs.contracts."))
    functions = {name.removesuffix(".Key") for name in contracts if name.endswith(".Key")}
    of_functions, others = defaultdict(lambda: dict.fromkeys(KINDS, 0.0)), 0.0
    for module, seconds in taken:
        name, words = function_of(module, functions)
        if name is None:
            others += seconds
        else:
            of_functions[name][KIND_OF.get(words[0], "types") if words else "types"] += seconds
    return of_functions, others


def row(seconds, others, name):
    cells = [sum(seconds.values()) + others, *(seconds[kind] for kind in KINDS), others]
    return " ".join(f"{cell:7.1f}" if cell else " " * 7 for cell in cells) + f"  {name}"


def show(crate):
    of_functions, others = spent(crate)
    for name, seconds in sorted(of_functions.items(), key=lambda it: -sum(it[1].values())):
        if sum(seconds.values()) > LONG:
            print(row(seconds, 0.0, f"{crate}::{name.replace('.', '::')}"))
    sums = {kind: sum(it[kind] for it in of_functions.values()) for kind in KINDS}
    print(row(sums, others, f"{crate}, {len(of_functions)} functions"))


def was_checked(crate):
    return os.path.isdir(os.path.join(ROOT, "crates", crate, "out", "incremental"))


def main():
    named = arguments(__doc__, 0)
    end_with_reader()
    for crate in named:
        if not was_checked(crate):
            end(f"{crate}: `cd crates/{crate} && rt check --jobs 1` has to be called first")
    print(" ".join(f"{word:>7}" for word in ("all s", *KINDS, "lemmas")))
    for crate in named or filter(was_checked, sorted(os.listdir(os.path.join(ROOT, "crates")))):
        show(crate)


if __name__ == "__main__":
    main()
