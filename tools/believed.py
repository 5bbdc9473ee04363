#!/usr/bin/env python3
"""Lists the definitions that must be believed: all that the clauses of the top call speak of, and what these speak of.

    tools/believed.py              compares the list with that of docs/DEFINITIONS.md, and ends with 1 where they differ
    tools/believed.py --write      writes it there
    tools/believed.py --list [CRATE::FUNCTION ..]      prints that of these functions, and not of `orc_cli::orc`

A clause names definitions of `specs/`, by the imports of its file; a definition names others, and types of the code. Of
such a type what counts is its Model: what contracts see of it. The list has the files in the order of `crates.txt`.
The toolchain's own library is left out: its words are those of its pages.
"""
import re
import sys
from collections import defaultdict
from functools import cached_property, lru_cache
from pathlib import Path

from prover import TOP, Crates

PAGE = TOP / "docs" / "DEFINITIONS.md"
BEGIN, END = "<!-- made by tools/believed.py -->", "<!-- end -->"
WORD = re.compile(r"[^\W\d][\w'-]*(?:\.[^\W\d][\w'-]*)*")
HEAD = re.compile(r"^(\s*)(?:(?:unfoldable|opaque|abbrev|private) )*(?:pub )?(?:(record|data) )?([^\W\d][\w'-]*|\S*◌\S*)(?: [^=\n]*)? :(?: |$)")
IMPORT = re.compile(r"^\s*(?:ghost )?use Rattle\.(\w+)\.(specs|proofs)\.([\w.+]+?)(?:\.\{(.*)\}| as (\w+));?$", re.M)
CLAUSE = re.compile(r"^\s*(?:requires|ensures)\*?(?: \w+)? \{")


class Source:
    """A file: what it imports, and the texts of what it defines, by their names."""

    def __init__(self, crate, path):
        self.crate, self.path, self.text = crate, path, path.read_text()
        self.names, self.modules = {}, {}
        for crate, part, module, names, alias in IMPORT.findall(self.text):
            if part != "specs":
                continue
            if alias:
                self.modules[alias] = crate, module
            for it in filter(None, map(str.strip, names.split(","))):
                name, _, other = it.partition(" as ")
                self.names[other or name] = crate, module, name

    @cached_property
    def definitions(self):
        """The blocks of a file of specs: a head, and all up to the next head that isn't a field of it."""
        found, name, indent, is_record = {}, None, 0, False
        for line in self.text.split("\n"):
            if line.lstrip().startswith(("--", "use ")):
                continue
            head = HEAD.match(line)
            is_field = head and name and len(head[1]) > indent and (is_record or not head[2])
            if head and not is_field:
                name, indent, is_record = head[3], len(head[1]), bool(head[2])
                found[name] = ""
            if name:
                found[name] += line + "\n"
        return found


class House:
    """All files of the crates, by their modules."""

    def __init__(self, crates=None):
        self.crates = crates or Crates()

    def reached(self, begin):
        """The definitions and types of the code that texts come to, by their files, each with its text. `begin` are texts with their files."""
        found, todo = defaultdict(dict), list(begin)
        while todo:
            source, text = todo.pop()
            for it, name in self.named(source, text):
                if name not in found[it.path]:
                    block = it.definitions.get(name) if it.path.suffix == ".antt" else model_of(it.text, name)
                    if block is not None:
                        found[it.path][name] = block
                        todo.append((it, block))
        return {path: names for path, names in found.items() if names}

    def named(self, source, text):
        """What the words of a text stand for, by the imports of its file."""
        own = source.definitions if source.path.suffix == ".antt" else {}
        operators = [it for it in {**own, **source.names} if "◌" in it and all(part in text for part in it.split("◌"))]
        for word in {*WORD.findall(text), *operators}:
            first, _, rest = (word, "", "") if "◌" in word else word.partition(".")
            if first in own:
                yield source, first
                continue
            if first in source.names:
                crate, module, name = source.names[first]
            elif first in source.modules and rest:
                crate, module = source.modules[first]
                name = rest.split(".")[0]
            else:
                continue
            it, name = self.declared(crate, module, name) if module.startswith("declared.") else (self.source(crate, module), name)
            if it:
                yield it, name

    @lru_cache(maxsize=None)
    def source(self, crate, module):
        """The file of a module of specs, or of a module of the code."""
        if crate not in self.crates.uses:
            return None
        parts = module.split(".")
        for folder, ending in (("specs", ".antt"), ("src", ".rt")):
            for stem in (Path(*parts), Path("lib"), Path("main")) if folder == "src" and parts == [""] else (Path(*parts),):
                path = self.crates.folder(crate) / folder / stem.with_name(stem.name + ending)
                if path.is_file():
                    return Source(crate, path)
        return None

    @lru_cache(maxsize=None)
    def declared(self, crate, module, name):
        """The file and the name of a type or constant of the code that a module of specs stands for."""
        parts = module.split(".")[1:]
        for cut in range(len(parts), -1, -1):
            for stem in [Path(*parts[:cut])] if cut else [Path("lib")]:
                path = self.crates.folder(crate) / "src" / stem.with_name(stem.name + ".rt")
                if path.is_file():
                    rest = [it for it in parts[cut:] if not it.startswith("The")]
                    return Source(crate, path), (rest or [name])[0]
        return None, name


def model_of(text, name):
    """What contracts see of a type: the lines of its Model, and its struct or enum."""
    lines = text.split("\n")
    taken = []
    for at, line in enumerate(lines):
        if re.match(rf"\s*impl\b.*\bModel for {name}\b", line) or re.match(rf"\s*(?:pub )?(?:struct|enum|trait) {name}\b", line):
            indent = len(line) - len(line.lstrip())
            for it in lines[at:]:
                taken.append(it)
                if it == " " * indent + "}" or it.endswith(";") and it is line:
                    break
    return "\n".join(it for it in taken if "ghost" in it or "Model" in it)


def clauses_of(source, function):
    """The text of a function's clauses."""
    lines, taken = source.text.split("\n"), []
    at = next((at for at, it in enumerate(lines) if re.match(rf"\s*(?:pub )?fn {function}\b", it)), None)
    if at is None:
        return None
    indent = len(lines[at]) - len(lines[at].lstrip())
    for it in lines[at:]:
        if it == " " * indent + "{" or it == " " * indent + "{}":
            break
        if not it.lstrip().startswith("//"):
            taken.append(it)
    text = "\n".join(taken)
    first = CLAUSE.search(text) or re.search(r"^\s*(?:requires|ensures)", text, re.M)
    return text[first.start():] if first else ""


def clauses(house, crate, function):
    """A function's clauses, with the file that they stand in."""
    sources = (Source(crate, it) for it in house.crates.files(crate, ("src",)) if it.suffix == ".rt")
    found = next(((it, text) for it in sources for text in [clauses_of(it, function)] if text is not None), None)
    if not found:
        raise SystemExit(f"{crate} has no function {function}")
    return found


def table(house, found):
    """The list as a table, in the order of crates.txt."""
    order = list(house.crates.uses)
    rows = []
    for path in sorted(found, key=lambda it: (order.index(it.relative_to(TOP / "crates").parts[0]), it.suffix != ".rt", str(it))):
        inside = path.relative_to(TOP)
        names = ", ".join(f"`{it}`" for it in found[path])
        rows.append(f"| [{inside.relative_to('crates')}](../{inside}) | {names} |")
    return "\n".join(["| File | What it has |", "|---|---|", *rows])


def main(words):
    house = House()
    functions = words[1:] if words[:1] == ["--list"] and len(words) > 1 else ["orc_cli::orc"]
    found = defaultdict(set)
    for it in functions:
        crate, _, function = it.rpartition("::")
        for path, names in house.reached([clauses(house, crate, function)]).items():
            found[path] |= set(names)
    found = {path: sorted(names) for path, names in found.items()}
    text = table(house, found)
    count = sum(map(len, found.values()))
    if words[:1] == ["--list"]:
        print(text)
        return 0
    page = PAGE.read_text()
    at, to = page.find(BEGIN), page.find(END)
    if words == ["--write"] and 0 <= at < to:
        PAGE.write_text(page[:at] + f"{BEGIN}\n\n{text}\n\n" + page[to:])
        print(f"{count} definitions and types in {len(found)} files")
        return 0
    if not 0 <= at < to or page[at + len(BEGIN) : to].strip() != text:
        print("docs/DEFINITIONS.md: its list of what must be believed isn't that of the clauses of `orc`: call tools/believed.py --write")
        return 1
    return 0


if __name__ == "__main__":
    sys.exit(main(sys.argv[1:]))
