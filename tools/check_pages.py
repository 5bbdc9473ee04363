#!/usr/bin/env python3
"""Runs what README.md, docs/ and tools/README.md show, in a copy, and compares what it writes byte for byte with the page.

    tools/check_pages.py [ORC]

ORC is the program, by default `./orc`. A page is read from top to bottom:

- A fenced block that begins with `$ ` is a session of a shell at the top of the repository. Each of its commands is run, and
  what stands after it is all that it writes, on either stream. What a command makes is there for those after it on the same
  page. `cat FILE` of a file that isn't there yet is the reader's own, and writes it.
- A fenced block that begins with a comment that is a path has lines of this file.
- A command between single backquotes is run too, and has to fit the program; its output isn't shown. One with words to be
  filled in, as `FILE` or `N`, and one of the kit, which takes long, is only looked at: a tool has to be there, to have its
  run bit, and to know the options.
- A row of a table of scripts has the words that the script's own description has, which `--help` prints.

What differs is shown with its page and line, what isn't run is counted, and what can't be run, since a command isn't
installed, is named. So is what two minutes don't suffice for. The exit status is 1 where something differs."""
import html
import os
import pathlib
import re
import shutil
import signal
import subprocess
import sys
import tempfile
import time
from concurrent.futures import ThreadPoolExecutor
from dataclasses import dataclass, field

from tool_words import arguments, orc, where

TOP = pathlib.Path(__file__).resolve().parent.parent
SECONDS, LONGEST, LANES = 90, 80, 4
LATE = "the two minutes are over"
FENCE = re.compile(r"^```(\w*)\n(.*?)^```$", re.M | re.S)
INLINE = re.compile(r"(?<!`)`([^`\n]+)`(?!`)")
# what stands for a word of the reader's own: in capitals, in brackets, or two dots for more of the same
OPEN = re.compile(r"\b[A-Z]{1,}\b|\.\.|[\[\]…]")
SHELL = re.compile(r"[|;&<>]|\$\(")
# commands that a machine may lack
MAY_LACK = ("riscv64-linux-gnu-gcc", "riscv64-linux-gnu-as", "riscv64-linux-gnu-ld", "qemu-riscv64", "clang", "ld.lld", "dot")
KIT = ("rt",)


@dataclass
class Step:
    """A command of a page, and what the page says that it writes."""

    line: int
    command: str
    shown: str = ""


@dataclass
class Tally:
    run: int = 0
    looked_at: int = 0
    skipped: list = field(default_factory=list)
    wrong: list = field(default_factory=list)


def steps_of(text, line):
    """The commands of a block with what stands after each."""
    steps = []
    for number, row in enumerate(text.splitlines(keepends=True), line):
        if row.startswith("$ "):
            steps.append(Step(number, row[2:].rstrip("\n")))
        else:
            steps[-1].shown += row
    return steps


def lacking(command):
    """A command of these words that isn't installed."""
    return next((it for it in MAY_LACK if re.search(rf"(?:^|[\s|;&(]){re.escape(it)}\b", command) and not shutil.which(it)), None)


def first_difference(wanted, got):
    """The first line that isn't the same, as it was wanted and as it came."""
    rows = [wanted.splitlines(keepends=True), got.splitlines(keepends=True)]
    at = next(k for k in range(max(map(len, rows)) + 1) if rows[0][k : k + 1] != rows[1][k : k + 1])
    return [repr("".join(it[at : at + 1])) if it[at : at + 1] else "nothing more" for it in rows]


class Page:
    """One page, and the copy in which its commands are run."""

    def __init__(self, path, copy, until):
        self.name, self.text = str(path.relative_to(TOP)), path.read_text(encoding="utf-8")
        self.copy, self.until, self.tally = copy, until, Tally()

    def line(self, at):
        return self.text.count("\n", 0, at) + 1

    def wrong(self, line, words):
        self.tally.wrong.append(f"{self.name}:{line}: {words}")

    def skip(self, line, what, why):
        self.tally.skipped.append(f"{self.name}:{line}: {what}: {why}")

    def is_late(self):
        return time.monotonic() >= self.until

    def check(self):
        for found in FENCE.finditer(self.text):
            line = self.line(found.start()) + 1
            if found[2].startswith("$ "):
                self.check_session(steps_of(found[2], line))
            elif path := re.match(r"/\* (\S+) \*/\n|# (\S+/\S+)\n", found[2]):
                self.check_file(line, path[1] or path[2], found[2][path.end() :])
            else:
                for number, row in enumerate(found[2].splitlines(), line):
                    self.look_at(number, row.strip())
        without = FENCE.sub(lambda it: "\n" * it[0].count("\n"), self.text)
        for found in INLINE.finditer(without):
            self.look_at(without.count("\n", 0, found.start()) + 1, html.unescape(found[1]), may_run=True)
        self.check_tables()
        return self.tally

    def check_file(self, line, name, lines):
        path = TOP / name
        if not path.is_file():
            self.wrong(line, f"there is no {name}")
        elif lines.strip("\n") not in path.read_text(encoding="utf-8"):
            self.wrong(line, f"{name} hasn't these lines")
        self.tally.looked_at += 1

    # -- what is run

    def check_session(self, steps):
        """Runs the commands of a block in one shell, up to the first that can't be run here."""
        for k, step in enumerate(steps):
            if missing := lacking(step.command):
                self.skip(step.line, f"`{step.command}`" + (f" and {len(steps) - k - 1} after it" if k + 1 < len(steps) else ""), f"{missing} isn't installed, which is in {where(missing)}")
                steps = steps[:k]
                break
        folder = self.copy
        for step in steps:
            if found := re.fullmatch(r"cd ([\w./-]+)", step.command):
                folder /= found[1]
            found = re.fullmatch(r"cat ([\w./-]+)", step.command)
            if found and not (folder / found[1]).exists() and not made_before(found[1], steps, step):
                (folder / found[1]).write_text(step.shown, encoding="utf-8")
        for step, got in zip(steps, self.run([it.command for it in steps])):
            if got is None and self.is_late():
                self.skip(step.line, f"`{step.command}`", LATE)
                return
            self.tally.run += 1
            if got is None:
                self.wrong(step.line, f"`{step.command}` didn't end, or the shell doesn't take it")
            elif got != step.shown:
                wanted, came = first_difference(step.shown, got)
                self.wrong(step.line, f"`{step.command}`: the page has {wanted}, and it wrote {came}")

    def run(self, commands):
        """What each command writes, in one shell at the top of the copy; none for one that wasn't run to its end."""
        mark = "\x1e%d\x1e"
        script = "s=0\n" + "".join(f"printf '{mark % k}'; (exit $s)\n{command}\ns=$?\n" for k, command in enumerate(commands)) + f"printf '{mark % len(commands)}'\n"
        if self.is_late():
            return [None] * len(commands)
        seconds = min(LONGEST, self.until - time.monotonic())
        shell = subprocess.Popen(["sh", "-c", script], cwd=self.copy, stdin=subprocess.DEVNULL, stdout=subprocess.PIPE, stderr=subprocess.STDOUT, start_new_session=True)
        try:
            said = shell.communicate(timeout=seconds)[0]
        except subprocess.TimeoutExpired:
            stop(shell)
            said = shell.communicate()[0]
        parts = re.split("\x1e([0-9]+)\x1e", said.decode("utf-8", errors="backslashreplace"))
        ended = {int(number): text for number, text in zip(parts[1::2], parts[2::2])}
        return [ended[k] if k + 1 in ended else None for k in range(len(commands))]

    # -- what is looked at

    def look_at(self, line, command, may_run=False):
        """A command in a sentence or a list of forms."""
        first = command.split(" ")[0]
        name = first.removeprefix("./").removeprefix("tools/")
        if first in ("./orc", "orc"):
            self.look_at_orc(line, command, may_run)
        elif first.startswith(("tools/", "./tools/")) and name.endswith((".py", ".sh")):
            self.look_at_tool(line, command, name)
        elif first in KIT or (first == "cd" and re.search(r"\brt\b", command)):
            self.tally.looked_at += 1

    def look_at_tool(self, line, command, name):
        path = TOP / "tools" / name
        if not path.is_file():
            return self.wrong(line, f"there is no tools/{name}")
        if not path.stat().st_mode & 0o111:
            return self.wrong(line, f"tools/{name} has no run bit")
        known = set(re.findall(r"--?[a-z]+", path.read_text(encoding="utf-8")))
        words = re.split(SHELL, command)[0].split()[1:]
        for option in {it.partition("=")[0] for it in words if it.startswith("-") and it != "-"} - known:
            self.wrong(line, f"tools/{name} knows no {option}")
        self.tally.looked_at += 1

    def ask_for_help(self, line, path):
        """A tool that says its words by `--help` says them."""
        if path.is_file() and re.search(r"^(import|from) tool_words", path.read_text(encoding="utf-8"), re.M):
            (said,) = self.run([f"tools/{path.name} --help >help && echo $?"])
            if said is None and self.is_late():
                return self.skip(line, f"tools/{path.name} --help", LATE)
            self.tally.run += 1
            if said != "0\n":
                self.wrong(line, f"tools/{path.name} --help: {said}")

    def look_at_orc(self, line, command, may_run):
        """The words of the program, in place of those to be filled in with what fits, have to fit it."""
        words = re.split(SHELL, command)[0].split()[1:]
        if not words or not may_run or OPEN.search(command) or SHELL.search(command):
            self.tally.looked_at += 1
            return
        (said,) = self.run([f"./orc {' '.join(words)}"])
        if said is None and self.is_late():
            return self.skip(line, f"`{command}`", LATE)
        self.tally.run += 1
        if said is None or re.search(r"^end usage (?!bad words)", said, re.M):
            self.wrong(line, f"`{command}`: {said or 'it did not end'}")

    def check_tables(self):
        """Each script in a table of scripts has the words of its own description."""
        for number, row in enumerate(self.text.splitlines(), 1):
            found = re.match(r"\| `([\w]+\.(?:py|sh))((?: [^`]*)?)`", row)
            if not found:
                continue
            self.look_at_tool(number, f"tools/{found[1]}", found[1])
            self.ask_for_help(number, TOP / "tools" / found[1])
            own = forms_of(TOP / "tools" / found[1])
            # (a tool with several forms has one row)
            if len(own) == 1 and found[1] + found[2].replace("\\|", "|") != own[0]:
                self.wrong(number, f"`{found[1]}{found[2]}`: its description says `{own[0]}`")


def forms_of(path):
    """The words of a tool, as its description has them."""
    text = path.read_text(encoding="utf-8") if path.suffix == ".py" and path.is_file() else ""
    return [it.partition(" | dot")[0] for it in re.findall(r"^ {4}tools/(\w+\.py.*?)(?: {2,}.*)?$", text, re.M)]


def made_before(name, steps, step):
    """Whether a command before this one writes the file."""
    return any(re.search(rf">\s*{re.escape(name)}\b", it.command) for it in steps[: steps.index(step)])


def stop(shell):
    """Ends a shell with all that it started."""
    try:
        os.killpg(shell.pid, signal.SIGKILL)
    except ProcessLookupError:
        pass


def copy_of(folder, program):
    """What the commands of a page need, without the sources of the program. What `./orc` answers itself it answers here too."""
    folder.mkdir()
    shutil.copytree(TOP / "examples", folder / "examples")
    for part in ("docs", "tools"):
        (folder / part).mkdir()
        for it in (TOP / part).iterdir():
            if it.is_file():
                shutil.copy2(it, folder / part)
    for name in ("README.md", "crates.txt", "HANDLES"):
        shutil.copy(TOP / name, folder)
    (folder / "orc").write_text(f'#!/bin/sh\ncase ${{1-}} in help | explain | page) exec "{TOP}/orc" "$@" ;; esac\nexec "{program}" "$@"\n', encoding="utf-8")
    (folder / "orc").chmod(0o755)
    return folder


def main():
    program = orc(*arguments(__doc__, 0, 1))
    # (`./orc` may have to take the program of a release first, and says so)
    subprocess.run([program, "gen", "1"], stdout=subprocess.DEVNULL, stderr=subprocess.DEVNULL, check=False)
    begun = time.monotonic()
    pages = [TOP / "README.md", *sorted((TOP / "docs").rglob("*.md")), TOP / "tools" / "README.md"]
    failed, skipped = False, []
    with tempfile.TemporaryDirectory(prefix="orc-pages-") as room:
        # (each page has a copy of its own, so that pages can be checked beside each other)
        made = [Page(path, copy_of(pathlib.Path(room, str(number)), program), begun + SECONDS) for number, path in enumerate(pages)]
        with ThreadPoolExecutor(LANES) as pool:
            tallies = list(pool.map(Page.check, made))
        for page, told in zip(made, tallies):
            print(f"{page.name}: {told.run} commands run, {told.looked_at} looked at, {len(told.wrong)} not as the page says")
            print("\n".join(told.wrong), end="\n" * bool(told.wrong))
            skipped += told.skipped
            failed = failed or bool(told.wrong)
    for it in skipped:
        print(f"skipped: {it}")
    return int(failed)


if __name__ == "__main__":
    sys.exit(main())
