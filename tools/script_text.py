"""A script as tools that read logs need it: which files it names, which names its absolute and alias lines define, what each
client's line says, and what is odd about a line.

It takes any text, also a script that is refused: what a line doesn't have isn't there.
"""
from dataclasses import dataclass

from journal import Offer, printable, text_of
from script_grammar import lines_of

# a script longer than this is refused anyway
MOST_BYTES = 1 << 21
# the lines that are units of their own, and the letter of these
DEFINING = {"absolute": "a", "alias": "l"}


@dataclass(frozen=True)
class Line:
    number: int
    words: list


class Script:
    def __init__(self, data):
        self.lines = [it.removesuffix(b"\n") for it in lines_of(data)]
        self.files, self.dylibs, self.trackers, self.clients, self.offered = {}, [], [], [], {"a": [], "l": []}
        for number, line in enumerate(self.lines, 1):
            if line and not line.startswith(b"#"):
                self.read(Line(number, text_of(line).split(" ")))

    def read(self, line):
        word, *rest = line.words
        if word == "client":
            self.clients.append([])
        elif self.clients:
            self.clients[-1].append(line)
        if word in ("object", "generator", "define") and len(rest) == 3:
            self.files.setdefault(rest[2], len(self.files))
        elif word == "dylib" and rest:
            self.dylibs.append(rest[0])
        elif word == "tracker" and len(rest) == 2:
            self.trackers.append(rest[1])
        elif word in DEFINING and len(rest) > 2:
            self.offered[DEFINING[word]].append([Offer(it.partition("=")[0]) for it in rest[2:]])

    def offers(self, kind, number):
        """The names that an absolute or alias line defines."""
        rows = self.offered[kind]
        return rows[number] if number < len(rows) else None

    def line(self, client, number):
        """The line of a client, both numbered from 1."""
        lines = self.clients[client - 1] if 0 < client <= len(self.clients) else []
        return lines[number - 1] if 0 < number <= len(lines) else None

    def tracker(self, number):
        return self.trackers[number] if number < len(self.trackers) else None


def read_script(name):
    with open(name, "rb") as it:
        return Script(it.read(MOST_BYTES))


def oddity(line, tabs_are_odd=True):
    """What is odd about the bytes of a line, if something is."""
    if line.endswith(b"\r"):
        return "it ends with a carriage return, as lines of Windows do: give the file line ends of Unix"
    if tabs_are_odd and b"\t" in line:
        return f"it has a tab at byte {line.index(9) + 1}: words are parted by single spaces"
    control = next((at for at, it in enumerate(line) if (it < 0x20 and it != 9) or it == 0x7F), None)
    if control is not None:
        return f"it has the byte 0x{line[control]:02x} at byte {control + 1}"
    if tabs_are_odd and (line[:1] == b" " or line[-1:] == b" " or b"  " in line):
        return "it begins or ends with a space, or has two where one stands"
    return None


def quoted(line):
    """A line as it is shown."""
    text = printable(text_of(line))
    return f"`{text if len(text) <= 100 else text[:99] + '…'}`"
