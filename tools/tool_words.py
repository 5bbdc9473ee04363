"""What every tool here says in one line, and then exits with 2: that its words don't fit, that a program isn't built, or that
a command isn't installed.
"""
import argparse
import os
import re
import shutil
import signal
import sys

ROOT = os.path.dirname(os.path.dirname(os.path.realpath(__file__)))
# the Debian package that has a command
PACKAGES = {
    "riscv64-linux-gnu-gcc": "gcc-riscv64-linux-gnu", "qemu-riscv64": "qemu-user", "clang": "clang", "ld.lld": "lld", "cc": "gcc",
    "llvm-mc-14": "llvm-14", "readelf": "binutils", "/usr/bin/time": "time",
}
NO_KIT = "there is no `rt` on the path, which the toolchain's kit has: this can't be compiled or proved without it"


def end(line):
    """Says the line and ends the tool."""
    print(line, file=sys.stderr)
    sys.exit(2)


def end_with_reader():
    """Who reads a part alone, as `head` does, ends the tool without a word."""
    signal.signal(signal.SIGPIPE, signal.SIG_DFL)


def usage(doc):
    """The line of a tool's description that says its words."""
    return re.search(r"^ {4}(\S+\.py.*?)(?: {2,}.*)?$", doc, re.M)[1]


def arguments(doc, least, most=None):
    """The words of the call, where there are so many; `--help` prints the description."""
    given = sys.argv[1:]
    if given in (["--help"], ["-h"]):
        end_with_reader()
        print(doc.strip())
        sys.exit(0)
    if len(given) < least or (most is not None and len(given) > most):
        end(f"usage: {usage(doc)}")
    return given


def integer(word):
    if not re.fullmatch("-?[0-9]+", word):
        end(f"{word}: this is no number")
    return int(word)


def integers(given, *defaults):
    """Numbers, and the defaults of those that aren't given."""
    return [*map(integer, given), *defaults[len(given) :]]


def built(path):
    """The whole path of a program, where it is there."""
    found = re.fullmatch(r".*crates/(\w+)/out/\1", os.path.abspath(path))
    if os.path.isfile(path) and os.access(path, os.X_OK):
        return os.path.abspath(path)
    how = f"`cd crates/{found[1]} && rt run </dev/null` builds it" if found else "name the built one"
    end(f"{path}: there is no such program: {how}")


def orc(path=None):
    """The program that is named, or `./orc` where it has built one: a build takes too long to be begun by the way."""
    if path:
        return built(path)
    if not os.access(f"{ROOT}/crates/orc/out/orc", os.X_OK):
        end("no program is built yet: `./orc` builds it")
    return f"{ROOT}/orc"


def installed(*commands):
    """Ends the tool where a command that it needs isn't there."""
    for command in commands:
        if not shutil.which(command):
            end(f"{command} isn't installed: it is in {where(command)}" if command != "rt" else NO_KIT)


def where(command):
    return f"Debian's package {PACKAGES.get(command, 'binutils-riscv64-linux-gnu' if command.startswith('riscv64-') else command)}"


class Parser(argparse.ArgumentParser):
    """A reader of words that says what doesn't fit in one line."""

    def __init__(self, doc):
        super().__init__(description=doc, formatter_class=argparse.RawDescriptionHelpFormatter)

    def error(self, message):
        why = "" if message.startswith("the following arguments are required") else f"{message}; "
        end(f"{why}usage: {usage(self.description)}")
