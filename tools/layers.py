#!/usr/bin/env python3
"""Looks whether the crates stand in layers, and prints how many there are of what.

    tools/layers.py

In `crates.txt` a line `# LAYER: what it is for` is a heading, and the crates up to the next one are of that layer. The
layers stand lowest first. A crate may stand on crates of its own layer and of lower ones, and stands behind all that it
names. So nothing stands on tests, but tests and what comes behind them. What isn't so is named, and the script then ends
with 1.

The figures are those of the crates of this repository: how many there are, and in each layer; how many the program
stands on, and the longest chain of these, each of which stands on the next; and how often one crate names another.
"""
import re
import sys
from functools import lru_cache

from prover import TOP, Crates
from tool_words import arguments, end_with_reader

HEADING = re.compile(r"# ([a-z]+): (\S.*)")
PROGRAM = "orc"


class Layers:
    """The layers of `crates.txt`, lowest first: what each is for, and its crates in their order."""

    def __init__(self, top=TOP):
        self.purposes, self.crates, self.wrong = {}, {}, []
        layer = None
        for line in (top / "crates.txt").read_text().splitlines():
            name = line.partition("#")[0].partition(":")[0].split()[:1]
            if heading := HEADING.fullmatch(line):
                layer = heading[1]
                if layer in self.purposes:
                    self.wrong.append(f"the layer {layer} has two headings")
                self.purposes[layer] = heading[2]
                self.crates.setdefault(layer, [])
            elif name and layer:
                self.crates[layer] += name
            elif name:
                self.wrong.append(f"{name[0]} stands in no layer")
        self.names = list(self.purposes)
        self.of = {name: layer for layer, names in self.crates.items() for name in names}


def wrong_places(layers, crates):
    """What stands on a layer above its own, or before what it names."""
    place = {name: number for number, name in enumerate(crates.uses)}
    for name in filter(layers.of.get, crates.uses):
        own = layers.of[name]
        for low in filter(layers.of.get, crates.own(name)):
            if layers.names.index(layers.of[low]) > layers.names.index(own):
                yield f"{name} of the layer {own} stands on {low} of the layer {layers.of[low]}"
            elif place[low] >= place[name]:
                yield f"{name} stands before {low}, which it names"


def longest_chain(crates, name):
    """The most crates from one down, each of which stands on the next."""

    @lru_cache(maxsize=None)
    def chain(it):
        return [it, *max(map(chain, crates.own(it)), key=len, default=[])]

    return chain(name)


def figures(layers, crates):
    """The lines that say how many there are of what."""
    chain = longest_chain(crates, PROGRAM)
    yield f"{len(crates.uses)} crates, which name each other {sum(len(crates.own(it)) for it in crates.uses)} times"
    yield f"the program stands on {len(crates.below(PROGRAM))}, in chains of at most {len(chain)}: {' > '.join(chain)}"
    for layer, names in layers.crates.items():
        yield f"{len(names):4} {layer}: {layers.purposes[layer]}"


def main():
    arguments(__doc__, 0, 0)
    end_with_reader()
    layers, crates = Layers(), Crates()
    wrong = layers.wrong or list(wrong_places(layers, crates))
    print("\n".join(wrong or figures(layers, crates)))
    return int(bool(wrong))


if __name__ == "__main__":
    sys.exit(main())
