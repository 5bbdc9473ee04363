#!/usr/bin/env python3
"""Looks whether what the documents name is there: each relative link of README.md, tools/README.md and the pages of docs/, and
in the tables of docs/ and README.md on promises, laws, crates and terms each name in backticks. Whether each call of a walk is
a function of its crate. And whether docs/promises/ links each wrong body, and both docs/promises/ and docs/layers/ have a page
for each layer, with its crates. Prints what isn't there, and exits with 1 where something isn't.

A name that is a link is looked for in the file that it leads to. A name after the link of a function is a clause of its
contract, and one after the link of a definition a field of it. Any other name may stand anywhere."""

import re
import sys
from pathlib import Path

from layers import Layers

TOP = Path(__file__).resolve().parent.parent
# the first words of the tables that are looked at
TABLES = {"Promise", "Law", "Crate", "Term"}
# tools that aren't of this repository
OUTSIDE = {"readelf", "ld.lld", "llvm-mc"}

DEFINED = re.compile(r"^\s*(?:(?:unfoldable|opaque|abbrev) )?(?:pub )?(?:(?:record|data) )?([^\W\d]\w*)\b(?=[^\n=]* :)", re.M)
FUNCTION = re.compile(r"^\s*(?:pub(?:\(\w+\))? )?(?:ghost )?fn (\w+)", re.M)
TYPE = re.compile(r"\b(?:struct|enum|trait|type|const) (\w+)")
CLAUSE = re.compile(r"^\s*(?:ensures\*?|requires|ghost) (\w+)", re.M)
LINK = re.compile(r"\[((?:[^\]\[]|`[^`]*`)*)\]\(([^)\s]+)\)")
# a link of one name, a name by itself, or the end of what a link speaks of
TOKEN = re.compile(r"\[`([^`]+)`\]\(([^)\s]+)\)|`([^`]+)`|(;|\|)")


def crates():
    """The crates in their order, and those that another stands on."""
    lines = [line for line in (TOP / "crates.txt").read_text().splitlines() if line and not line.startswith("#")]
    return [line.split(":")[0].split()[0] for line in lines], {low for line in lines for low in line.split(":")[1].split()}


def contract(text, function):
    """The lines of each function of this name, up to its body."""
    for found in re.finditer(rf"^(\s*)(?:pub )?(?:ghost )?fn {function}\b", text, re.M):
        indent = found.group(1).lstrip("\n")
        rest = text[found.end():]
        end = re.search(rf"^{indent}\{{|^\s*(?:pub )?(?:ghost )?fn \w", rest, re.M)
        yield rest[: end.start()] if end else rest


def in_file(name, path, known):
    """Whether the file has what the name says: a crate, a type, and a function or a definition."""
    *before, last = name.split("::")
    text = path.read_text()
    if path.suffix == ".antt":
        return last in DEFINED.findall(text)
    if path.suffix == ".rt":
        if before and before[0] in known and f"/crates/{before.pop(0)}/" not in str(path):
            return False
        words = all(re.search(rf"\b{word}\b", text) for word in before)
        return words and last in [*FUNCTION.findall(text), *TYPE.findall(text), path.name, path.parts[-3]]
    return last in (path.name, path.stem) or ("labs" in path.parts and last in path.parts)


def has_part(name, owner, path):
    """Whether a function's contract has a clause of this name, or a definition a field."""
    text = path.read_text()
    if path.suffix == ".rt":
        return any(name in CLAUSE.findall(clauses) for clauses in contract(text, owner))
    start = re.search(rf"^\s*(?:pub )?record {owner}\b", text, re.M)
    return bool(start) and bool(re.match(rf"(?s).*?^\s+(?:pub )?{name} :", text[start.start():].split("\n\n")[0], re.M))


def everything(known):
    """Each name that is somewhere: of crates, files, definitions, functions, types and clauses."""
    names = set(known) | {"crates", "specs", "src", "proofs", "must-fail", "tools"} | set(re.findall(r"\w+", (TOP / "crates.txt").read_text()))
    for path in (TOP / "crates").rglob("*"):
        if path.suffix in (".antt", ".rt") and "out" not in path.parts:
            text = path.read_text()
            names |= {path.name, path.stem}
            names |= set(DEFINED.findall(text) if path.suffix == ".antt" else FUNCTION.findall(text) + TYPE.findall(text) + CLAUSE.findall(text))
            names |= set(re.findall(r"^\s+([A-Z]\w*)\b", text, re.M))
    return names | {path.name for folder in ("tools", "tools/labs") for path in (TOP / folder).iterdir()}


def slug(heading):
    return re.sub(r"[^\w\- ]", "", heading.strip().lower()).replace(" ", "-")


def anchors(path):
    return {slug(line.lstrip("#")) for line in path.read_text().splitlines() if line.startswith("#")}


def check_links(path, text, missing):
    for found in LINK.finditer(re.sub(r"(?s)```.*?```", "", text)):
        target, _, anchor = found.group(2).partition("#")
        if "://" in target:
            continue
        file = (path.parent / target).resolve() if target else path
        if not file.exists() or (anchor and anchor not in anchors(file)):
            missing.append(f"the link {found.group(2)}")


def check_row(path, row, known, names, missing):
    """Each name of a row, from left to right; `owner` is the function or definition that was linked last."""
    owner = None
    for name, target, alone, end in TOKEN.findall(row):
        if end:
            owner = None
        elif target:
            file = (path.parent / target.split("#")[0]).resolve()
            if file.is_file():
                owner = (name.split("::")[-1], file)
                if not in_file(name, file, known):
                    missing.append(f"{name} in {file.relative_to(TOP)}")
        elif alone in OUTSIDE:
            continue
        elif owner and owner[1].suffix in (".rt", ".antt"):
            if not has_part(alone, *owner):
                missing.append(f"{alone} of {owner[0]} in {owner[1].relative_to(TOP)}")
        elif not (TOP / alone).exists() and not set(re.split(r"::|/", alone)) <= names:
            missing.append(f"the name {alone}")


def check_walk(row, missing):
    """A row of a walk: each call that it names is a function of its crate."""
    crate, *calls = re.findall(r"`([^`]+)`", row)
    text = "".join(path.read_text() for path in (TOP / "crates" / crate / "src").rglob("*.rt"))
    functions = set(FUNCTION.findall(text))
    missing += [f"the call {call} of {crate}" for call in calls if call.split("::")[-1] not in functions]


def check_tables(path, text, known, names, functions, missing):
    table = None
    for line in text.splitlines():
        if not line.startswith("|"):
            table = None
        elif table is None:
            table = line.split("|")[1].strip()
            is_walk = "Calls on the way" in line
        elif is_walk and "`" in line:
            check_walk(line, missing)
        elif table == "Law":
            laws = re.findall(r"`([^`]+)`", line.split("|")[1])
            missing += [f"the law {law}" for law in laws if law not in functions]
        elif table in TABLES:
            check_row(path, line, known, names, missing)


def check_sections(layers, low, missing):
    """A page of promises is a layer's, and its sections are crates of this layer, in their order. Each crate that another stands on
    or that has wrong bodies has one."""
    folder, found = TOP / "docs" / "promises", set()
    for path in sorted(folder.glob("*.md")):
        own = layers.crates.get(path.stem, [])
        # (a heading of several words is no crate's)
        sections = re.findall(r"^## (\w+)$", path.read_text(), re.M)
        missing += [f"the crate {name} of {path.name}" for name in sections if name not in own]
        here = [own.index(name) for name in sections if name in own]
        missing += [f"the order of crates.txt in {path.name}"] if here != sorted(here) else []
        found |= set(sections)
    wanted = [name for name in layers.of if name in low or (TOP / "crates" / name / "must-fail").is_dir()]
    missing += [f"a section of {name} in docs/promises" for name in wanted if name not in found]


def check_layers(layers, missing):
    """Each layer has a page in docs/layers, with a row for each of its crates and no other, in their order."""
    folder = TOP / "docs" / "layers"
    missing += [f"the layer of {path.name}" for path in sorted(folder.glob("*.md")) if path.stem not in layers.crates]
    for layer, own in layers.crates.items():
        path = folder / f"{layer}.md"
        rows = re.findall(r"^\| `(\w+)` \|", path.read_text().partition("\n## ")[0], re.M) if path.is_file() else []
        missing += [f"a row of each crate, in order, in docs/layers/{layer}.md"] if rows != own else []


def check_wrong_bodies(text, missing):
    """Each wrong body stands in a row of a page of promises."""
    edits = (path.relative_to(TOP) for path in [*sorted((TOP / "crates").glob("*/must-fail/*.edit")), *sorted((TOP / "tools" / "wrong_bodies").glob("*/*.edit"))])
    missing += [f"a row of {edit}" for edit in edits if f"(../../{edit})" not in text]


def check_page(path, known, names, functions):
    """What a page names that isn't there. The tables of tools/README.md have words of the tools' own."""
    text, missing = path.read_text(), []
    check_links(path, text, missing)
    if path.parent.name != "tools":
        check_tables(path, text, known, names, functions, missing)
    return [f"{path.relative_to(TOP)}: {what}" for what in missing]


def main():
    known, low = crates()
    names = everything(known)
    functions = {name for path in (TOP / "crates").glob("*/src/**/*.rt") for name in FUNCTION.findall(path.read_text())}
    pages = [TOP / "README.md", *sorted((TOP / "docs").rglob("*.md")), TOP / "tools" / "README.md"]
    missing = [what for path in pages for what in check_page(path, known, names, functions)]
    layers = Layers()
    check_sections(layers, low, missing)
    check_layers(layers, missing)
    check_wrong_bodies("".join(path.read_text() for path in (TOP / "docs" / "promises").glob("*.md")), missing)
    for what in missing:
        print(f"{what} isn't there")
    return int(bool(missing))


sys.exit(main())
