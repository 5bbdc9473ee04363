#!/usr/bin/env python3
"""Lists the public functions whose answer may be want of memory, and which tests and programs call each.

    tools/want_of_memory.py [CRATE ..]

A contract lets any such call be answered so, and a body that always answers so is proved too: only a call with
enough memory shows that it doesn't. Tests are those of the crates whose names end in `_tests` and of the libraries
themselves; programs are those whose output is compared. A function that these don't call is listed with the crates
that do. The script ends with status 1 where nothing calls one. It goes by names, so it takes methods of one name for
each other, and doesn't see which arguments a call has.
"""
import re
import sys
from pathlib import Path

from tool_words import arguments, end

CRATES = Path(__file__).resolve().parent.parent / "crates"
TYPE = re.compile(r"^pub (?:enum|struct) (\w+)[^{;(]*(\{.*?^\}|\(.*?\);)", re.M | re.S)
PUBLIC = re.compile(r"^( *)pub (?:const )?fn (\w+)(.*?)(?=\n *(?:requires|ensures|ghost)\b|\{\n|;\n)", re.M | re.S)
# Why a unit was given up is told by a call that wasn't stopped.
TOLD = {"Why"}


def words(text):
    return set(re.findall(r"\w+", text))


def read_sources():
    """The texts of each crate's files, without comments."""
    files = {}
    for path in sorted(CRATES.glob("*/src/**/*.rt")):
        crate = path.relative_to(CRATES).parts[0]
        files.setdefault(crate, []).append(re.sub(r"//.*", "", path.read_text()))
    return files


def wanting_types(files):
    """The types that have want of memory among their values, or in a part."""
    parts = {}
    for texts in files.values():
        for name, body in (found for text in texts for found in TYPE.findall(text)):
            held = re.sub(r"^ +(?:pub )?(?!NoMemory\b)\w+", "", body, flags=re.M)
            parts.setdefault(name, set()).update(words(held))
    found = {"AllocError", "AllocFailed", "NoMemory"}
    while more := {name for name, body in parts.items() if body & found} - found - TOLD:
        found |= more
    return found


def public_functions(crate, texts, wanting):
    """The functions that a library's root hands on, with their types if they have one, and that may answer so."""
    root = CRATES / crate / "src" / "lib.rt"
    if crate.endswith("_tests") or not root.exists():
        return
    shown = words(" ".join(re.findall(r"^pub (?:use [^;]*|\w+ \w+)", root.read_text(), re.M)))
    for text in texts:
        for match in PUBLIC.finditer(text):
            indent, name, rest = match.groups()
            owners = re.findall(r"^impl\b(?:<[^{]*?>)? (\w+)", text[: match.start()], re.M)
            owner = owners[-1] if indent and owners else None
            if "->" in rest and words(rest.rsplit("->", 1)[1]) & wanting and (owner or name) in shown:
                yield owner, name


def called_in(texts):
    return {name for text in texts for name in re.findall(r"(?<!\bfn )\b(\w+)(?:::<[^;()]*>)?\(", text)}


def callers(crate, owner, name, files, called):
    """The other crates that call the function, and the crate itself."""
    taken = re.compile(rf"\b{crate}::\w*" if owner else rf"\b{crate}::(?:{name}\b|\{{[^}}]*\b{name}\b)")
    for other, texts in files.items():
        if name in called[other] and (other == crate or any(taken.search(text) for text in texts)):
            yield other


def is_caller(crate, other, name, files):
    """Whether tests of the other crate call the function, or a program whose output is compared."""
    if other == crate:
        return name in called_in(text for text in files[crate] if "#[test]" in text)
    return other.endswith("_tests") or (CRATES / other / "stdout").exists()


def main(only):
    files = read_sources()
    for crate in only:
        if crate not in files:
            end(f"{crate}: there is no such crate")
    wanting = wanting_types(files)
    called = {crate: called_in(texts) for crate, texts in files.items()}
    missing = 0
    for crate in only or files:
        for owner, name in public_functions(crate, files[crate], wanting):
            found = list(callers(crate, owner, name, files, called))
            first = [other for other in found if is_caller(crate, other, name, files)]
            how = ", ".join(first) or (f"by way of {', '.join(found)}" if found else "NOT CALLED")
            missing += not found
            print(f"{crate} {owner}::{name}: {how}" if owner else f"{crate} {name}: {how}")
    return 1 if missing else 0


if __name__ == "__main__":
    sys.exit(main(arguments(__doc__, 0)))
