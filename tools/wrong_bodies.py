#!/usr/bin/env python3
"""Wrong bodies that the gate doesn't try each time: those of `tools/wrong_bodies/CRATE/`.

    tools/wrong_bodies.py                   looks, in seconds, whether each was refused by the contracts that stand
    tools/wrong_bodies.py CRATE[/NAME] ..   tries these: the prover has to refuse each
    tools/wrong_bodies.py --stale | --all   tries those of all crates that changed, or all
    tools/wrong_bodies.py --sample HASH MINUTES      tries whole crates that the hash picks, for about so long

  --lanes N         tries so many crates at once
  --after-gate      takes the libraries that the gate has just built here
  --beside DIR      takes those of another checkout's gate, where the texts are the same

A wrong body is a file as those of `crates/CRATE/must-fail/`. The prover judges each function by the contracts of
what it calls, so all bodies of a crate that touch different functions stand in one text, and one check of just these
functions tries them: a round. A body whose function calls one that was refused waits for the next round. One that seems
to be let through is tried once more by itself, with the whole crate.

What came of it stands in `tools/wrong_bodies/CRATE/verdicts`, with a sum of what it depends on: the crate's code and
definitions, its wrong bodies, all definitions that these come to, and the contracts below of what the code names. Proofs
are no part of it, nor are bodies below, comments and derives: they make no lie true. Without words a crate whose sum is another fails, as does a
body that can't be applied or wasn't refused.
"""
import argparse
import hashlib
import re
import shutil
import subprocess
import sys
import tempfile
import time
from concurrent.futures import ThreadPoolExecutor
from dataclasses import dataclass
from pathlib import Path

from believed import House, Source
from prover import PARTS, TOP, Crates, Prover

HOME = TOP / "tools" / "wrong_bodies"
# What a refusal of a function by itself looks like, and what it looks like where only a callee was refused.
JUDGED = re.compile(r"^fn (\S+): (.*)$", re.M)
WAITS = re.compile(r"no proof: it calls")
# A text that the prover can't read tries no contract.
UNREAD = re.compile(r"^(?:\./)?(?:src|specs)/\S+?:\d+:\d+: error: .*(?:is not in scope|has no field|is no name|operand is missing|expected the end|cannot continue)", re.M)
REFUSED, LET_THROUGH, BAD = "refused", "LET THROUGH", "can't be tried"


def is_proved(how):
    """Whether this is said of a function that was proved: of one that may wait, that it may is said too."""
    return how == "proved" or how.startswith("proved, ")


class Body:
    """A wrong body: the texts that it changes, and the functions that they stand in."""

    def __init__(self, path):
        self.path, self.name, self.changes = path, path.stem, list(changes(path.read_text()))

    def applied(self, texts, folder):
        """The texts of a crate's files with this change in them, or why it can't be made. `texts` are files changed already."""
        texts = dict(texts)
        for file, old, new in self.changes:
            if file not in texts and not (folder / file).is_file():
                return None, f"there is no file {file}"
            text = texts.get(file) or (folder / file).read_text()
            if text.count(old) != 1:
                return None, f"its text is in {file} {text.count(old)} times, and not once"
            texts[file] = text.replace(old, new)
        return (texts, None) if self.changes else (None, "it changes nothing")

    def functions(self, crate, folder):
        """The functions that it changes; none where it changes something else too."""
        found = set()
        for file, old, _ in self.changes:
            text = (folder / file).read_text()
            place = function_at(text, text.count("\n", 0, text.find(old))) if file.startswith("src/") else None
            if not place:
                return set()
            parts = [it for it in Path(file).with_suffix("").parts[1:] if it not in ("lib", "main", "mod")]
            found.add(Function(crate, "::".join(parts), *place))
        return found


@dataclass(frozen=True)
class Function:
    """A function of a crate: its module, the type and the trait of its impl, and its name."""

    crate: str
    module: str
    owner: str
    of: str
    name: str

    def path(self):
        """What the prover calls it, or the module that has it, where its impl is of a trait with parameters."""
        inside = [it for it in [self.module, f"{self.owner}{self.of}", self.name] if it]
        return self.module if "<" in self.of else "::".join(inside)

    def is_named(self, named):
        """Whether this name of the prover's is that of the function."""
        front = "::".join(it for it in [self.crate, self.module] if it) + "::"
        if not named.startswith(front):
            return False
        rest = named[len(front) :]
        return rest == self.name if not self.owner else bool(re.fullmatch(rf"{self.owner}\w*::{self.name}", rest))


def changes(text):
    """The changes of a wrong body: the file, what stands there, and what stands there in its place."""
    file = old = None
    for line in text.splitlines():
        if line.startswith("file: "):
            file = line[6:].strip()
        elif line.startswith("old: "):
            old = line[5:]
        elif line.startswith("new:") and file and old:
            yield file, old, re.sub(r"\A ", "", line[4:])
            old = None


IMPL = re.compile(r"\s*(?:pub )?impl\b(?:<(?:[^<>]|<[^<>]*>)*>)?\s+(?:(?P<of>[\w:]+(?:<.*?>)?) for )?&?(?:'\w+ )?(?P<owner>\w+)")


def function_at(text, line):
    """The type, the trait and the name of the function that a line stands in, by the layout that the gate asks for, or None."""
    lines, depth = text.split("\n"), None
    for at in range(line, -1, -1):
        it = lines[at]
        indent = len(it) - len(it.lstrip())
        named = re.match(r"\s*(?:pub(?:\([^)]*\))? )?(?:const )?(?:unsafe )?fn (\w+)", it)
        if depth is None:
            if named:
                name, depth = named[1], indent
                if indent == 0:
                    return "", "", name
            elif it.startswith("}") and at < line:
                return None
        elif indent < depth and not it.strip().startswith(("//", "#")):
            found = IMPL.match(it)
            if found:
                return found["owner"], (found["of"] or "").rpartition("::")[2], name
            found = re.match(r"\s*(?:pub )?trait (\w+)", it)
            if found:
                return found[1], "", name
    return None


TESTS = re.compile(r"^#\[cfg\(test\)\]\nmod \w+ \{\n.*?^\}\n", re.M | re.S)
DECLARED = re.compile(r"(?:pub(?:\([^)]*\))? )?(?:struct|enum|trait|type|const|static|macro_rules!) (?P<owner>\w+)")
FUNCTION = re.compile(r"\s*(?:pub(?:\([^)]*\))? )?(?:const )?(?:ghost )?fn (\w+)")


IMPORT = re.compile(r"^\s*(?:pub(?:\([^)]*\))? )?(?:ghost )?use [^;]*;$", re.M)


def code_of(text):
    """The lines of a file without tests, comments, attributes and imports."""
    return [it for it in IMPORT.sub("", TESTS.sub("", text)).split("\n") if it.strip() and not it.strip().startswith(("//", "#[", "#![", "mod ", "pub mod "))]


def items_of(text):
    """What a file says to a crate above, item by item: the type of its impl or its trait, its name, and its text without a body."""
    lines, owner, of_trait, at = code_of(text), "", False, 0
    while at < len(lines):
        line = lines[at]
        indent = len(line) - len(line.lstrip())
        if indent == 0 and line != "}":
            found = IMPL.match(line) or DECLARED.match(line)
            owner = found["owner"] if found else ""
            of_trait = bool(re.match(r"(?:pub )?(?:trait\b|impl\b.* for )", line))
        begun = at
        named = FUNCTION.match(line)
        at += 1
        if named:
            while at < len(lines) and not ends(lines[at - 1], indent) and (len(lines[at]) - len(lines[at].lstrip()) > indent or lines[at].strip() in ("{", ")") or lines[at].lstrip().startswith((")", ">("))):
                at += 1
            # (a function that isn't public is no crate's above, but for those of traits)
            if of_trait or line.lstrip().startswith("pub "):
                yield owner, named[1], "\n".join(lines[begun:at])
            if lines[at - 1].rstrip().endswith("{"):
                while at < len(lines) and lines[at] != " " * indent + "}":
                    at += 1
                at += 1
        else:
            # a line of a type, a constant, a ghost member or a clause of an impl
            yield owner, "", line


def ends(line, indent):
    """Whether a function's head ends with this line: its body begins, or it has none."""
    it = line.rstrip()
    return it == " " * indent + "{" or it.endswith((" {", "{}", ";")) and not re.match(r"\s*(?:requires|ensures)", it)


class Standing:
    """What a crate's wrong bodies depend on beside its own code: the definitions that it comes to, and what it can call."""

    def __init__(self, crates):
        self.house, self.crates, self.read = House(crates), crates, {}

    def items(self, path):
        if path not in self.read:
            self.read[path] = list(items_of(path.read_text()))
        return self.read[path]

    def of(self, name):
        """The texts of these, in an order that is always the same."""
        own = [Source(name, it) for it in self.crates.files(name, ("src", "specs")) if it.suffix in (".rt", ".antt")]
        words = set(re.findall(r"\w+", "\n".join("\n".join(code_of(it.text)) for it in own)))
        begin, found = [(it, it.text) for it in own], []
        for below in self.crates.below(name):
            for path in self.crates.files(below, ("src",)):
                taken = [text for owner, named, text in self.items(path) if (not owner or owner in words) and (not named or named in words)]
                if taken:
                    found.append((str(path.relative_to(self.crates.top)), taken))
                    begin.append((Source(below, path), "\n".join(taken)))
        definitions = self.house.reached(begin)
        for path in sorted(definitions):
            said = sorted(it for it in definitions[path].items() if it[1])
            if said and self.crates.folder(name) not in path.parents:
                found.append((str(path.relative_to(self.crates.top)), said))
        return found


class Room:
    """A crate's wrong bodies, and a copy of the crate to try them in."""

    def __init__(self, crates, name, standing):
        self.crates, self.name, self.folder, self.standing = crates, name, crates.folder(name), standing
        self.home = HOME / name
        self.bodies = [Body(it) for it in sorted(self.home.glob("*.edit"))]

    def sum(self):
        """A sum of what the verdicts depend on."""
        it = hashlib.sha256()
        for file in [*self.crates.files(self.name, ("specs",)), *(body.path for body in self.bodies)]:
            it.update(repr((file.name, file.read_bytes())).encode())
        for file in self.crates.files(self.name, ("src",)):
            it.update(repr((file.name, code_of(file.read_text()))).encode())
        it.update(repr(self.standing.of(self.name)).encode())
        return it.hexdigest()

    def recorded(self):
        """The sum and the verdicts of the last try."""
        file = self.home / "verdicts"
        lines = file.read_text().splitlines() if file.is_file() else []
        rows = dict(it.split(": ", 1) for it in lines if ": " in it)
        return rows.pop("sum", None), rows

    def wrong(self):
        """What is wrong with what was recorded, a line each."""
        bad = [f"{self.name}/{it.name}: can't be applied: {why}" for it in self.bodies for why in [it.applied({}, self.folder)[1]] if why]
        sum, rows = self.recorded()
        if bad:
            return bad
        if sum != self.sum():
            return [f"{self.name}: changed since its wrong bodies were tried: call tools/wrong_bodies.py {self.name}"]
        return [f"{self.name}/{it.name}: {rows.get(it.name, 'was not tried')}" for it in self.bodies if not rows.get(it.name, "").startswith(REFUSED)]

    def record(self, verdicts):
        rows = [f"{name}: {verdict}" for name, verdict in sorted(verdicts.items())]
        (self.home / "verdicts").write_text("\n".join([f"sum: {self.sum()}", *rows]) + "\n")

    def tried(self, prover, bodies):
        """What came of these wrong bodies, by name."""
        verdicts, left, rounds = {}, list(bodies), 0
        with tempfile.TemporaryDirectory(prefix="wrong-bodies-") as room:
            kept = Path(room) / "kept"
            own = self.folder / "out" / "incremental"
            shutil.copytree(own, kept) if own.is_dir() else kept.mkdir()
            while left:
                rounds += 1
                taken, texts = self.round(left)
                paths = sorted({it.path() for body in taken for it in body.functions(self.name, self.folder)})
                said = self.check(prover, texts, kept, paths)
                found = {it.name: self.verdict(it, said) if len(taken) > 1 else self.alone(said) for it in taken}
                for it in taken:
                    # (what a round doesn't refuse is tried by itself, as is the first where all wait)
                    waits = found[it.name] is None and (it is not taken[0] or any(found.values()))
                    if not waits and not (found[it.name] or "").startswith(REFUSED) and (len(taken) > 1 or paths):
                        found[it.name] = self.alone(self.check(prover, it.applied({}, self.folder)[0], kept))
                verdicts |= {name: verdict for name, verdict in found.items() if verdict}
                left = [it for it in left if it.name not in verdicts]
        return verdicts, rounds

    def round(self, left):
        """As many wrong bodies as touch different functions, and the texts with all of them."""
        taken, held, texts = [], set(), {}
        for it in left:
            functions = it.functions(self.name, self.folder)
            if taken and (not functions or functions & held):
                continue
            changed, why = it.applied(texts, self.folder)
            if why and taken:
                continue
            taken, held, texts = [*taken, it], held | functions, changed or {}
            if not functions:
                break
        return taken, texts

    def check(self, prover, texts, kept, paths=()):
        """Checks the crate with these texts in place of its own, or some of its functions, and gives the status and what was said."""
        with tempfile.TemporaryDirectory(prefix="wrong-bodies-") as room:
            for part in PARTS:
                if (self.folder / part).is_dir():
                    shutil.copytree(self.folder / part, f"{room}/{part}")
            for file, text in (texts or {}).items():
                (Path(room) / file).write_text(text)
            ran = prover.check(self.name, room, kept, [word for it in paths for word in ("--only", it)])
            return ran.returncode, ran.stdout

    def verdict(self, body, said):
        """What a round's check says of one of its bodies, or None where it has to wait."""
        status, text = said
        if status not in (0, 1) or UNREAD.search(text) or not text.rstrip().split("\n")[-1].startswith(("logic=", "only=")):
            return BAD
        functions = body.functions(self.name, self.folder)
        rows = [(named, how) for named, how in JUDGED.findall(text) if any(it.is_named(named) for it in functions)]
        own = [named for named, how in rows if not is_proved(how) and not WAITS.match(how)]
        if own:
            return f"{REFUSED} by {own[0]}"
        return None if any(WAITS.match(how) for _, how in rows) else LET_THROUGH

    @staticmethod
    def alone(said):
        """What the check of one body by itself says."""
        status, text = said
        last = text.rstrip().split("\n")[-1]
        unread = UNREAD.search(text)
        if unread or status not in (0, 1) or status == 1 and not last.startswith(("logic=not-proved", "only=")):
            return f"{BAD}: {(unread[0] if unread else last)[:150]}"
        if status == 0:
            return LET_THROUGH
        named = next((named for named, how in JUDGED.findall(text) if not is_proved(how) and not WAITS.match(how)), None)
        return f"{REFUSED} by {named}" if named else REFUSED


def try_crate(prover, room, only):
    """Tries wrong bodies of one crate, and gives how many there are and how many were refused; none where time ran out."""
    begun = time.monotonic()
    bodies = [it for it in room.bodies if f"{room.name}/{it.name}" in only] or room.bodies
    try:
        verdicts, rounds = room.tried(prover, bodies)
    except subprocess.TimeoutExpired:
        print(f"{room.name}: not tried to its end in the time that was left", flush=True)
        return 0, 0
    wrong = [f"{room.name}/{name}: {verdict}\n" for name, verdict in sorted(verdicts.items()) if not verdict.startswith(REFUSED)]
    if len(bodies) == len(room.bodies) and not prover.until:
        room.record(verdicts)
    refused = sum(it.startswith(REFUSED) for it in verdicts.values())
    print(f"{''.join(wrong)}{room.name}: {refused} of {len(bodies)} refused, in {rounds} checks, {time.monotonic() - begun:.0f} s", flush=True)
    return len(bodies), refused


def try_crates(prover, rooms, only=(), lanes=1):
    """Tries the wrong bodies of crates, so many at once, while there is time, and gives whether each was refused."""
    with ThreadPoolExecutor(lanes) as pool:
        ends = list(pool.map(lambda room: try_crate(prover, room, only), rooms))
    count, refused = sum(it for it, _ in ends), sum(it for _, it in ends)
    print(f"{count} wrong bodies tried: {'each refused' if refused == count else 'not each refused'}")
    return refused == count


def look(rooms):
    """Looks at what was recorded, and gives whether each wrong body was refused by the contracts that stand."""
    bad = [it for room in rooms for it in room.wrong()]
    print("\n".join(bad), end="\n" * bool(bad))
    if not bad:
        print(f"{sum(len(it.bodies) for it in rooms)} wrong bodies in {len(rooms)} crates, each refused by the contracts that stand")
    return not bad


def main():
    words = argparse.ArgumentParser(description="Tries wrong bodies that the gate doesn't try each time.", epilog="without words: looks whether each was refused by the contracts that stand")
    words.add_argument("names", nargs="*", metavar="CRATE[/NAME]")
    words.add_argument("--stale", action="store_true")
    words.add_argument("--all", action="store_true")
    words.add_argument("--sample", nargs=2, metavar=("HASH", "MINUTES"))
    words.add_argument("--after-gate", action="store_true")
    words.add_argument("--beside", metavar="DIR")
    words.add_argument("--lanes", type=int, default=1, metavar="N")
    asked = words.parse_args()
    crates = Crates()
    standing = Standing(crates)
    rooms = [Room(crates, it, standing) for it in crates.uses if (HOME / it).is_dir()]
    unknown = [it for it in asked.names if not any(it in (room.name, *(f"{room.name}/{body.name}" for body in room.bodies)) for room in rooms)]
    for it in unknown:
        print(f"{it}: there is no such wrong body, and no crate that has one here")
    if unknown:
        return 2
    if not (asked.names or asked.stale or asked.all or asked.sample):
        return int(not look(rooms))
    prover = Prover(crates, asked.beside, asked.after_gate)
    if asked.sample:
        key, minutes = asked.sample
        prover.until = time.monotonic() + 60 * float(minutes)
        rooms.sort(key=lambda it: hashlib.sha256(f"{key} {it.name}".encode()).digest())
    elif asked.stale:
        rooms = [it for it in rooms if it.wrong()]
    elif asked.names:
        rooms = [it for it in rooms if any(name.split("/")[0] == it.name for name in asked.names)]
    return int(not try_crates(prover, rooms, set(asked.names), asked.lanes))


if __name__ == "__main__":
    sys.exit(main())
