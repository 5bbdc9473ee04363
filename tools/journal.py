"""A log as `orc` writes it, read again: the entries of a journal, result lines, the end line; and what a
session is after each entry.

`read_log(data)` gives the `Log` that bytes are, and `Session(log)` what its entries tell of dylibs, units and
instances. Both are written from the grammar of the journal text and the rules of a session, and independent of
the linker's code. They read what a log says and judge nothing: whether a history is legal, `session_check` tells.
A line that is not of the grammar, and an entry that speaks of what isn't there, is a `LogError` with the number of
its line. A log whose writing ended in the middle of a line is no error: `Log.rest` has what stands there.
"""
import functools
import re
import sys
from dataclasses import dataclass, field


class LogError(Exception):
    def __init__(self, line, why):
        super().__init__(f"line {line}: {why}")
        self.line = line


def text_of(data):
    """Bytes as text: those that are no UTF-8, which a symbol may have, are written as \\xNN."""
    return data.decode("utf-8", errors="backslashreplace")


def printable(text):
    """Text with what a terminal might act on written as \\xNN."""
    return "".join(it if it.isprintable() else f"\\x{ord(it):02x}" for it in text)


# ---- The parts of a line. Each has a pattern with one group, and what is made of the group's text. An empty list
# is left out with the space before it, so that the pattern of a list begins with that space.

NUMBER = "(?:0|[1-9][0-9]*)"
HEX = "(?:0|[1-9a-f][0-9a-f]*)"
NAME = r"[^\x00-\x20\x7f]+"
OUTPUT = "(?:-|(?:[0-9a-f]{2})+)"
ROWS = f"(?:i{NUMBER}(?:,i{NUMBER})*)?"

BEGINNING = re.compile(f"(?:{NUMBER} s|c{NUMBER} l){NUMBER} [a-z]|end [a-z]")
LOOKUP = re.compile(f"{NUMBER} s{NUMBER} ask ")
HEAD = re.compile(f"({NUMBER}) s({NUMBER}) ([a-z]+)")


def listed(element, comma=","):
    return f"((?: {element}(?:{comma}{element})*)?)"


def parted(text, comma=","):
    return text[1:].split(comma) if text else []


def instance(text):
    return None if text == "none" else int(text[1:])


def match(text):
    """What a name was found to be: an instance and its address, or none."""
    if text == "none":
        return None
    row, _, address = text.partition("@")
    return int(row[1:]), int(address, 16)


def group(text):
    """A dependence group: its own instances, and those that they depend on."""
    members, deps = text.split(":")
    return tuple([int(it[1:]) for it in part.split(",") if it] for part in (members, deps))


PARTS = {
    "number": (f"({NUMBER})", int),
    "signed": (f"(-?{NUMBER})", int),
    "hex": (f"({HEX})", lambda text: int(text, 16)),
    "name": (f"({NAME})", str),
    "text": ("(.+)", str),
    "unit": (f"([oal]{NUMBER})", str),
    "level": ("(resolved|ready)", str),
    "items": (listed(f"d{NUMBER}:(?:all|exported)"), parted),
    "names": ("((?: .+)?)", lambda text: text[1:]),
    "groups": (listed(f"{ROWS}:{ROWS}", ";"), lambda text: [group(it) for it in parted(text, ";")]),
    "bound": (listed(f"(?:i{NUMBER}|none)"), lambda text: [instance(it) for it in parted(text)]),
    "found": (listed(f"(?:i{NUMBER}@{HEX}|none)"), lambda text: [match(it) for it in parted(text)]),
    "named": (listed(f"{NAME}@(?:{HEX}|none)", " "), lambda text: parted(text, " ")),
    "output": (f"({OUTPUT})", str),
    "cause": (f"(fetch|break|(?:illegal|misaligned|load|store) {HEX})", str.split),
    "usage": ("(no command|unknown command|bad words|bad number)", str),
    "line": ("(toolong|bytes|word|count|name|number|order|taken|unknown|nonote|toomany)", str),
    "statement": ("(word|operands|number|label|name|section)", str),
    "form": ("(group|rel|tls|compressed|sectionkind|xindex|bind)", str),
}


@functools.lru_cache(maxsize=None)
def pattern(shape):
    """The pattern of a shape, which is text with parts in braces, and what is made of each part."""
    pieces = re.split(r"\{(\w+)\}", shape)
    parts = pieces[1::2]
    pieces[::2] = [re.escape(it) for it in pieces[::2]]
    pieces[1::2] = [PARTS[it][0] for it in parts]
    return re.compile("".join(pieces), re.S), [PARTS[it][1] for it in parts]


def fields(shape, text):
    """The values of the parts, where the text has the shape."""
    compiled, made = pattern(shape)
    found = compiled.fullmatch(text)
    return found and [make(it) for make, it in zip(made, found.groups())]


# ---- Events. The fields of each stand in the order of its line.


@dataclass(frozen=True)
class Dylib:
    name: str


@dataclass(frozen=True)
class Order:
    dylib: int
    items: list


@dataclass(frozen=True)
class Attach:
    dylib: int
    tracker: int
    unit: str


@dataclass(frozen=True)
class Define:
    dylib: int
    tracker: int
    unit: str


@dataclass(frozen=True)
class Generate:
    generator: int


@dataclass(frozen=True)
class Ask:
    items: list
    level: str
    names: str
    note: int = None

    def words(self):
        """The names, by the grammar of scripts: parted by spaces, with a mark after weak ones."""
        return self.names.split(" ") if self.names else []


@dataclass(frozen=True)
class Collect:
    query: int


@dataclass(frozen=True)
class Take:
    pass


@dataclass(frozen=True)
class Place:
    unit: int
    need: int
    align: int


@dataclass(frozen=True)
class Resolve:
    unit: int


@dataclass(frozen=True)
class Link:
    unit: int


@dataclass(frozen=True)
class Emit:
    unit: int
    groups: list


@dataclass(frozen=True)
class Why:
    """Why a unit is given up: a word, and the numbers or the name after it."""

    word: str
    values: list


@dataclass(frozen=True)
class Fail:
    unit: int
    why: Why


@dataclass(frozen=True)
class Tracker:
    dylib: int


@dataclass(frozen=True)
class Move:
    tracker: int
    to: int


@dataclass(frozen=True)
class Remove:
    tracker: int


@dataclass(frozen=True)
class Image:
    pass


WHYS = {
    "refused": "refused {number} {number} {number} {signed}",
    "missing": "missing {name}",
    "inerror": "inerror i{number}",
    "aliascycle": "aliascycle i{number}",
    "baddep": "baddep i{number}",
    "noroom": "noroom {number}",
    "nomemory": "nomemory",
    "full": "full",
}


def read_watch(text):
    found = fields("watch {number}{items} {level}{names}", text)
    return found and Ask(*found[1:], note=found[0])


def read_fail(text):
    found = fields("fail u{number} {text}", text)
    if not found:
        return None
    word = found[1].split(" ")[0]
    values = fields(WHYS[word], found[1]) if word in WHYS else None
    return None if values is None else Fail(found[0], Why(word, values))


def plain(kind, shape):
    """The reader of an event whose line has one shape."""

    def read(text):
        found = fields(shape, text)
        return None if found is None else kind(*found)

    return read


EVENTS = {
    "dylib": plain(Dylib, "dylib {name}"),
    "order": plain(Order, "order d{number}{items}"),
    "attach": plain(Attach, "attach d{number} t{number} {unit}"),
    "define": plain(Define, "define d{number} t{number} {unit}"),
    "generate": plain(Generate, "generate g{number}"),
    "ask": plain(Ask, "ask{items} {level}{names}"),
    "watch": read_watch,
    "collect": plain(Collect, "collect q{number}"),
    "take": plain(Take, "take"),
    "place": plain(Place, "place u{number} {number} {number}"),
    "resolve": plain(Resolve, "resolve u{number}"),
    "link": plain(Link, "link u{number}"),
    "emit": plain(Emit, "emit u{number}{groups}"),
    "fail": read_fail,
    "tracker": plain(Tracker, "tracker d{number}"),
    "move": plain(Move, "move t{number} t{number}"),
    "remove": plain(Remove, "remove t{number}"),
    "image": plain(Image, "image"),
}

# ---- Replies. A reply is known by a word of its own: `lost` is the `failed AT iN` of a collect, and `bound` and
# `unbound` are the two ends of a take that is a `finish`.


@dataclass(frozen=True)
class Reply:
    word: str
    dylib: int = None
    tracker: int = None
    generator: int = None
    unit: int = None
    instance: int = None
    query: int = None
    name: str = None
    number: int = None
    matches: list = None


REPLIES = {
    "made": ("made d{number}", "dylib"),
    "taken": ("taken d{number}", "dylib"),
    "toomany": ("toomany", ""),
    "set": ("set", ""),
    "nodylib": ("nodylib d{number}", "dylib"),
    "generator": ("generator g{number}", "generator"),
    "gone": ("gone t{number}", "tracker"),
    "defined": ("defined u{number} i{number} {number}", "unit instance number"),
    "duplicate": ("duplicate {name} i{number}", "name instance"),
    "spent": ("spent g{number}", "generator"),
    "nogen": ("nogen g{number}", "generator"),
    "done": ("done q{number}", "query"),
    "pending": ("pending q{number}", "query"),
    "inerror": ("inerror i{number}", "instance"),
    "missing": ("missing {text}", "name"),
    "aliascycle": ("aliascycle i{number}", "instance"),
    "offer": ("offer g{number}", "generator"),
    "found": ("found {number}{found}", "number matches"),
    "lost": ("failed {number} i{number}", "number instance"),
    "unknown": ("unknown q{number}", "query"),
    "start": ("start u{number}", "unit"),
    "bound": ("finish u{number} bound{bound}", "unit matches"),
    "unbound": ("finish u{number} lost i{number}", "unit instance"),
    "placed": ("placed {hex}", "number"),
    "noroom": ("noroom {number}", "number"),
    "resolved": ("resolved", ""),
    "emitted": ("emitted", ""),
    "baddep": ("baddep i{number}", "instance"),
    "failed": ("failed", ""),
    "defunct": ("defunct u{number}", "unit"),
    "wrongphase": ("wrongphase u{number}", "unit"),
    "tracker": ("tracker t{number}", "tracker"),
    "moved": ("moved", ""),
    "otherdylib": ("otherdylib", ""),
    "removed": ("removed", ""),
    "image": ("image", ""),
}

ANSWERS = {
    "dylib": "made taken toomany",
    "order": "set nodylib",
    "attach": "generator nodylib gone toomany",
    "define": "defined duplicate nodylib gone toomany",
    "generate": "defined duplicate toomany spent nogen",
    "ask": "done pending inerror missing offer nodylib",
    "watch": "done pending inerror missing offer nodylib",
    "collect": "found lost unknown",
    "take": "start bound unbound",
    "place": "placed noroom defunct wrongphase",
    "resolve": "resolved defunct wrongphase",
    "link": "done pending inerror missing offer aliascycle defunct wrongphase",
    "emit": "emitted baddep defunct wrongphase",
    "fail": "failed defunct wrongphase",
    "tracker": "tracker nodylib toomany",
    "move": "moved gone otherdylib",
    "remove": "removed gone",
    "image": "image",
}

# The replies that change nothing, and say why not.
REFUSALS = set(
    "taken toomany nodylib gone duplicate spent nogen inerror missing aliascycle offer unknown unbound noroom baddep defunct wrongphase otherdylib lost".split()
)


def read_reply(word, text):
    """The reply to an event of this word."""
    for answer in ANSWERS[word].split():
        shape, names = REPLIES[answer]
        values = fields(shape, text)
        if values is not None:
            return Reply(answer, **dict(zip(names.split(), values)))
    return None


def agree(event, reply):
    """A name that is missing is one that was asked for. Only an entry's name may have spaces."""
    if reply.word != "missing":
        return True
    if isinstance(event, Ask):
        return reply.name == event.names or reply.name in event.words()
    return re.fullmatch(NAME, reply.name) is not None


@dataclass(frozen=True)
class Entry:
    line: int
    number: int
    seat: int
    word: str
    event: object
    reply: Reply
    text: str


def read_entry(line, text):
    """The entry that a text is, or none. `=` may be a name, so each ` = ` is tried as the one before the reply."""
    head = HEAD.match(text)
    if not head or head[3] not in EVENTS:
        return None
    begin = head.start(3)
    at = text.find(" = ", begin)
    while at >= 0:
        reply = read_reply(head[3], text[at + 3 :])
        event = reply and EVENTS[head[3]](text[begin:at])
        if event and agree(event, reply):
            return Entry(line, int(head[1]), int(head[2]), head[3], event, reply, text)
        at = text.find(" = ", at + 1)
    return None


# ---- Result lines of a session's clients.

RESULTS = {
    **{word: REPLIES[word][0] for word in "defined duplicate nodylib gone toomany moved otherdylib removed inerror".split()},
    "missing": "missing {name}",
    "found": "found{named}",
    "failed": "failed i{number}",
    "exited": "exited {number} {output}",
    "trap": "trap {hex} {cause} {output}",
    "fuel": "out of fuel {output}",
    "outputfull": "output full {output}",
    "unfound": "unfound",
    "ready": "ready {hex}",
    "notyet": "notyet",
    "full": "full",
    "nomemory": "nomemory",
    "skipped": "skipped",
}


@dataclass(frozen=True)
class Result:
    line: int
    client: int
    number: int
    word: str
    values: list
    text: str


def read_result(line, text):
    found = fields("c{number} l{number} {text}", text)
    for word, shape in RESULTS.items() if found else ():
        values = fields(shape, found[2])
        if values is not None:
            return Result(line, found[0], found[1], word, values, text)
    return None


# ---- The end line.

OBJECT_REFUSALS = {
    **{f"e{n}": f"e{n}" for n in (2, 3, 4, 5, 6, 13)},
    **{f"e{n}": f"e{n} {{number}}" for n in (1, 7, 8, 9, 10, 11)},
    "e12": "e12 {form}",
    "g1": "g1 {number} {number} {number}",
    **{f"g{n}": f"g{n} {{number}} {{number}}" for n in (2, 4, 5)},
    "g3": "g3 {number}",
    "g6": "g6",
    "g7": "g7",
}

ENDS = {
    "done": "done",
    "exited": "exited {number}",
    "usage": "usage {usage}",
    "read": "read fault",
    "file": "file fault {number}",
    "script": "script refused {number} {line}",
    "object": "object refused {number} {text}",
    "long": "too long {number}",
    "missing": "missing {text}",
    "link": "link refused {number} {number} {number} {signed}",
    "dependency": "dep failed i{number}",
    "trap": "trap {hex} {cause}",
    "fuel": "out of fuel",
    "output": "output full",
    "journal": "journal full {number}",
    "memory": "no memory",
    "assembly": "asm refused {number} {statement}",
    "define": "define refused {number}",
}


@dataclass(frozen=True)
class End:
    line: int
    word: str
    values: list
    text: str


def read_object_refusal(text):
    """The word of a refusal of an object, and its arguments."""
    word = text.split(" ")[0]
    values = fields(OBJECT_REFUSALS[word], text) if word in OBJECT_REFUSALS else None
    return None if values is None else [word, *values]


def read_end(line, text):
    if not text.startswith("end "):
        return None
    for word, shape in ENDS.items():
        values = fields(shape, text[4:])
        if values is not None and word == "object":
            refusal = read_object_refusal(values[1])
            values = refusal and [values[0], *refusal]
        if values is not None:
            return End(line, word, values, text)
    return None


# ---- The log.


@dataclass
class Log:
    entries: list = field(default_factory=list)
    results: list = field(default_factory=list)
    end: End = None
    # what stands after the last whole line, where the log was cut off in the middle of one
    rest: str = None

    @functools.cached_property
    def is_run(self):
        """Whether this is the log of a run. A session's journal has result lines after it, and calls that no run makes."""
        others = ("watch", "order", "attach", "generate", "move", "remove")
        return not self.results and not (self.end and self.end.word == "done") and all(it.word not in others for it in self.entries)

    def wanted(self, ask):
        """The names of a lookup. A run asks for its entry, whose name stands as it is."""
        if self.is_run:
            return [ask.names] if ask.names else []
        return [it[:-1] if it.endswith("?") else it for it in ask.words()]


# the characters that the two names in an entry may have after its first line break, and some more
LONGEST = 9000


def begins(text, number):
    """Whether a line begins like the entry of this number, a result line or the end line."""
    return BEGINNING.match(text) is not None and (text[0] in "ce" or text.startswith(f"{number} "))


class LogReader:
    """The lines of a log, from the first to the last."""

    def __init__(self, text):
        self.lines = text.split("\n")
        self.is_whole = self.lines[-1] == ""
        if self.is_whole:
            self.lines.pop()
        self.at = 0
        self.log = Log()

    def read(self):
        log = self.log
        while self.at < len(self.lines) and log.end is None and log.rest is None:
            if self.lines[self.at].startswith("end ") and self.read_end():
                continue
            if not (self.read_result() if self.lines[self.at].startswith("c") else self.read_entry()):
                self.refuse()
        return log

    def read_entry(self):
        """An entry has one line, but for the name of a run's entry, which may have line breaks."""
        log, first = self.log, self.at
        text = self.lines[first]
        is_open = LOOKUP.match(text) is not None
        while True:
            self.at += 1
            is_last = self.at == len(self.lines)
            if is_last and not self.is_whole:
                break
            entry = read_entry(first + 1, text)
            follows = is_last or self.is_cut() or begins(self.lines[self.at], len(log.entries) + 2)
            if entry and (follows or not is_open):
                return self.keep_entry(entry)
            if is_last or not is_open or len(text) - len(self.lines[first]) > LONGEST:
                break
            text += "\n" + self.lines[self.at]
        self.at = first
        return False

    def is_cut(self):
        """Whether the line is the last one, and has no line break."""
        return self.at + 1 == len(self.lines) and not self.is_whole

    def keep_entry(self, entry):
        due = len(self.log.entries) + 1
        if entry.number != due:
            raise LogError(entry.line, f"entry {entry.number} stands where entry {due} is due")
        if self.log.results:
            raise LogError(entry.line, "an entry stands after result lines")
        self.log.entries.append(entry)
        return True

    def read_result(self):
        result = None if self.is_cut() else read_result(self.at + 1, self.lines[self.at])
        if result:
            self.log.results.append(result)
            self.at += 1
        return result is not None

    def read_end(self):
        """The end line is the last one. It too may have the name of a run's entry."""
        text = "\n".join(self.lines[self.at :])
        end = read_end(self.at + 1, text)
        if end is None or ("\n" in text and end.word != "missing"):
            return False
        self.log.end = end
        if not self.is_whole:
            self.log.rest = ""
        self.at = len(self.lines)
        return True

    def refuse(self):
        """What isn't read is the rest of a log that was cut off, or no log."""
        rest, due = self.lines[self.at :], len(self.log.entries) + 1
        # (a name may be cut off at one of its own line breaks)
        is_lookup = LOOKUP.match(rest[0]) is not None and not any(begins(it, due + 1) for it in rest)
        if is_lookup or self.is_cut():
            self.log.rest = "\n".join(rest)
            return
        raise LogError(self.at + 1, f"this is no entry, result line or end line: {printable(rest[0][:200])}")


def read_log(data):
    """The log that these bytes are. Only a line feed ends a line."""
    return LogReader(text_of(data) if isinstance(data, bytes) else data).read()


# a log is read in pieces: what isn't one need not be read to its end, which it may not have
PIECE, LONGEST_LOG = 1 << 20, 1 << 30
# how much of a first line is shown that is none
SHOWN = 48
OBJECT = b"\x7fELF"


def refuse_piece(piece, line):
    """What no log has. An entry's name may have any bytes but a zero."""
    if b"\0" in piece:
        raise LogError(line + piece[: piece.index(b"\0")].count(b"\n"), "this is no log of orc: it has a zero byte")


def read_pieces(file):
    """The bytes of a file, as long as they may be a log."""
    first = file.read1(PIECE) if hasattr(file, "read1") else file.read(PIECE)
    while first and b"\n" not in first and len(first) < PIECE:
        more = file.read(PIECE)
        if not more:
            break
        first += more
    if first.startswith(OBJECT):
        raise LogError(1, "this is an object: LOG comes first, and then its files")
    head = text_of(first.partition(b"\n")[0][:SHOWN])
    begins_log = BEGINNING.match(head) or (b"\n" not in first and any(it.startswith(head) for it in ("1 s0 ", "c1 l1 ", "end ")))
    if first and not begins_log:
        raise LogError(1, f"this is no log of orc, which begins with entry 1 or the end line: {printable(head)}")
    pieces, size, line, piece = [], 0, 1, first
    while piece:
        refuse_piece(piece, line)
        pieces.append(piece)
        size, line = size + len(piece), line + piece.count(b"\n")
        if size > LONGEST_LOG:
            raise LogError(line, f"this is longer than a log may be: {LONGEST_LOG:,} bytes")
        piece = file.read(PIECE)
    return b"".join(pieces)


def read_file(name):
    """The log in a file; `-` is standard input."""
    if name == "-":
        return read_log(read_pieces(sys.stdin.buffer))
    with open(name, "rb") as it:
        return read_log(read_pieces(it))


def refusal(log, error):
    """What is said of a log that isn't read, in one line."""
    if isinstance(error, OSError):
        return f"{error.filename or log}: {error.strerror}"
    return f"{'standard input' if log == '-' else log}: {error}"


# ---- What a session is after each entry, as far as its journal says.

# how far an instance has come; `emitted` is emitted but not ready, and `replaced` gave way to a strong definition
PHASES = "defined started resolved emitted ready failed replaced removed".split()

MOST_INSTANCES = 262144


@dataclass(frozen=True)
class Offer:
    """A name that a unit offers. `is_strong` is neither weak nor common."""

    name: str
    is_strong: bool = True
    is_exported: bool = True
    is_common: bool = False
    size: int = 0
    align: int = 1


@dataclass
class Instance:
    number: int
    unit: int
    name: str = None
    offer: Offer = None
    phase: str = "defined"
    is_present: bool = True
    deps: list = field(default_factory=list)
    # a ready instance that is removed stays ready to those that depend on it
    was_ready: bool = False
    # an instance that it reaches and that isn't emitted, where it is emitted and not ready
    blocked_by: int = None
    changes: list = field(default_factory=list)

    def phase_at(self, entry):
        """Its phase after an entry, or none where it isn't defined yet."""
        return next((phase for at, phase in reversed(self.changes) if at <= entry), None)


@dataclass
class Span:
    """What a seat did for a unit without letting it go: the first or the second job."""

    seat: int
    first: int
    last: int
    is_open: bool = True


@dataclass
class Unit:
    number: int
    name: str
    dylib: int
    tracker: int
    first: int
    count: int
    defined: int
    phase: str = "defined"
    # where it was placed, by which entry, and which entry freed that, if one did
    base: int = None
    need: int = None
    placed: int = None
    freed: int = None
    why: Why = None
    end: int = None
    removed: int = None
    spans: list = field(default_factory=list)
    # the instances that it was bound to, or couldn't have
    needs: list = field(default_factory=list)

    def rows(self):
        return range(self.first, self.first + self.count)

    def free(self, entry):
        if self.base is not None and self.freed is None:
            self.freed = entry

    def lies_at(self, address, entry):
        """Whether the address is in its range after an entry."""
        if self.base is None or not self.base <= address < self.base + self.need:
            return False
        return self.placed <= entry and (self.freed is None or entry < self.freed)


@dataclass(frozen=True)
class Gone:
    """What became of a tracker: `removed`, or `moved` to another one, and by which entry."""

    how: str
    entry: int
    to: int = None


class Session:
    """The units and instances of a session, carried through the entries of its log.

    `offers` gives the names that a unit offers, in order, or none where they aren't known. With them instances have names,
    and one that gives way to a strong definition is `replaced` at once. `is_known` says whether each definition took as many
    names as the offers tell; where it isn't, they are of other files, and nothing should be called by them."""

    def __init__(self, log, offers=lambda unit: None):
        self.log, self.offers, self.is_known = log, offers, True
        self.dylibs, self.trackers, self.generators, self.units, self.instances = [], [], [], [], []
        # of each dylib its link orders, each from an entry on, and its present names as far as they are known
        self.orders, self.names = {}, {}
        # of each definition that wasn't taken the unit, what it offers, and the instance that was there
        self.discarded = []
        # what became of trackers
        self.gone = {}
        # the entry that made each query, and the groups that were emitted, each with its entry
        self.queries, self.groups = {}, []
        self.dependents, self.waiters = {}, {}
        for entry in log.entries:
            self.line, self.at, self.seat = entry.line, entry.number, entry.seat
            getattr(self, f"on_{entry.word}")(entry.event, entry.reply)

    # -- what an entry speaks of

    def one_of(self, rows, letter, number):
        if number >= len(rows):
            raise LogError(self.line, f"there is no {letter}{number} yet")
        return rows[number]

    def unit(self, number):
        return self.one_of(self.units, "u", number)

    def instance(self, number):
        return self.one_of(self.instances, "i", number)

    def due(self, rows, letter, number):
        if number != len(rows):
            raise LogError(self.line, f"{letter}{number} stands where {letter}{len(rows)} is due")

    def query(self, number, event):
        self.due(self.queries, "q", number)
        self.queries[number] = event

    # -- the phases of instances

    def set_phase(self, row, phase):
        if row.phase != phase or not row.changes:
            row.phase = phase
            row.changes.append((self.at, phase))

    def set_phases(self, unit, phase):
        for row in self.instances[unit.first : unit.first + unit.count]:
            if row.is_present and row.phase != "failed":
                self.set_phase(row, phase)

    def is_emitted(self, row):
        return row.phase in ("emitted", "ready") or row.was_ready

    def blocked(self, first):
        """What an emitted instance reaches that isn't emitted, or none; and what was gone through."""
        seen, left = {first.number}, [first.number]
        while left:
            row = self.instances[left.pop()]
            for number in row.deps:
                dep = self.instances[number]
                if not self.is_emitted(dep):
                    return number, seen
                if dep.phase == "emitted" and number not in seen:
                    if dep.blocked_by is not None and not self.is_emitted(self.instances[dep.blocked_by]):
                        return dep.blocked_by, seen
                    seen.add(number)
                    left.append(number)
        return None, seen

    def settle(self, row):
        """Makes an emitted instance ready with all that it reaches, or lets it wait for one that isn't emitted."""
        row.blocked_by, seen = self.blocked(row)
        if row.blocked_by is not None:
            self.waiters.setdefault(row.blocked_by, []).append(row.number)
            return
        for number in seen:
            self.instances[number].blocked_by = None
            self.set_phase(self.instances[number], "ready")

    def lose(self, roots):
        """Fails what reaches one of these and isn't ready."""
        seen, left = set(roots), list(roots)
        while left:
            number = left.pop()
            if self.instances[number].is_present:
                self.set_phase(self.instances[number], "failed")
            for members in self.dependents.get(number, ()):
                for member in members:
                    if member not in seen and self.instances[member].phase == "emitted":
                        seen.add(member)
                        left.append(member)

    # -- the work of seats

    def hold(self, unit):
        unit.spans.append(Span(self.seat, self.at, self.at))

    def held(self, number, lets_go=False):
        """The unit that a seat holds and has done something for."""
        unit = self.unit(number)
        if not unit.spans:
            raise LogError(self.line, f"u{number} wasn't taken")
        unit.spans[-1].last = self.at
        unit.spans[-1].is_open = not lets_go
        return unit

    def close(self, unit, phase):
        unit.phase, unit.end = phase, self.at

    # -- one function for each event; what isn't a success changes nothing

    def on_dylib(self, event, reply):
        if reply.word == "made":
            self.due(self.dylibs, "d", reply.dylib)
            self.dylibs.append(event.name)

    def on_order(self, event, reply):
        if reply.word == "set":
            self.orders.setdefault(event.dylib, []).append((self.at, event.items))

    def order_at(self, dylib, entry):
        """The dylibs in which a dylib's units look names up, each with whether hidden names are seen."""
        items = next((items for at, items in reversed(self.orders.get(dylib, ())) if at <= entry), [])
        return [(dylib, True), *((int(it[1 : it.index(":")]), it.endswith(":all")) for it in items)]

    def on_tracker(self, event, reply):
        if reply.word == "tracker":
            self.due(self.trackers, "t", reply.tracker)
            self.trackers.append(event.dylib)

    def on_attach(self, event, reply):
        if reply.word == "generator":
            self.due(self.generators, "g", reply.generator)
            self.generators.append([event.dylib, event.tracker, event.unit])

    def on_define(self, event, reply):
        self.defined(event.dylib, event.tracker, event.unit, reply)

    def on_generate(self, event, reply):
        if reply.word in ("defined", "duplicate"):
            self.defined(*self.one_of(self.generators, "g", event.generator), reply)

    def defined(self, dylib, tracker, name, reply):
        if reply.word == "duplicate":
            self.name(reply.instance, reply.name)
        if reply.word != "defined":
            return
        self.due(self.units, "u", reply.unit)
        self.due(self.instances, "i", reply.instance)
        if reply.instance + reply.number > MOST_INSTANCES:
            raise LogError(self.line, f"a session has at most {MOST_INSTANCES} instances")
        self.units.append(Unit(reply.unit, name, dylib, tracker, reply.instance, reply.number, self.at))
        for number in range(reply.instance, reply.instance + reply.number):
            self.instances.append(Instance(number, reply.unit))
            self.set_phase(self.instances[-1], "defined")
        offers = self.offers(name)
        if offers is not None:
            self.take_names(self.units[-1], offers)

    def take_names(self, unit, offers):
        """Names the instances of a unit: a weak or common definition of a name that is there isn't taken."""
        present = self.names.setdefault(unit.dylib, {})
        there = {it.name: present[it.name] for it in offers if it.name in present and self.instances[present[it.name]].is_present}
        taken = [it for it in offers if it.is_strong or it.name not in there]
        if len(taken) != unit.count:
            self.is_known = False
            return
        self.discarded += [(unit, it, there[it.name]) for it in offers if not it.is_strong and it.name in there]
        for number, offer in zip(unit.rows(), taken):
            if offer.name in there:
                self.set_phase(self.instances[there[offer.name]], "replaced")
                self.instances[there[offer.name]].is_present = False
            self.instances[number].name, self.instances[number].offer = offer.name, offer
            present[offer.name] = number

    def name(self, number, name):
        row = self.instance(number)
        row.name = row.name or name

    def on_ask(self, event, reply):
        wanted = self.log.wanted(event)
        if reply.word in ("done", "pending"):
            self.query(reply.query, event)
        elif reply.word == "inerror" and len(wanted) == 1:
            self.name(reply.instance, wanted[0])

    on_watch = on_ask

    def on_collect(self, event, reply):
        if reply.word == "unknown":
            return
        asked = self.queries.get(event.query)
        if not isinstance(asked, Ask):
            raise LogError(self.line, f"q{event.query} is no lookup")
        wanted = self.log.wanted(asked)
        if reply.word == "lost" and len(wanted) == 1:
            self.name(reply.instance, wanted[0])
        if reply.word == "found" and len(wanted) == len(reply.matches):
            for name, found in zip(wanted, reply.matches):
                if found:
                    self.name(found[0], name)

    def on_take(self, event, reply):
        unit = self.unit(reply.unit)
        self.hold(unit)
        unit.phase = "started" if reply.word == "start" else "finishing"
        unit.needs += [it for it in reply.matches or () if it is not None] if reply.word != "unbound" else [reply.instance]
        if reply.word == "start":
            self.set_phases(unit, "started")

    def on_place(self, event, reply):
        if reply.word in ("placed", "noroom"):
            unit = self.held(event.unit)
            if reply.word == "placed":
                unit.base, unit.need, unit.placed = reply.number, event.need, self.at

    def on_resolve(self, event, reply):
        if reply.word == "resolved":
            self.set_phases(self.held(event.unit), "resolved")

    def on_link(self, event, reply):
        if reply.word in ("done", "pending"):
            self.query(reply.query, event)
            self.held(event.unit, lets_go=True).phase = "linked" if reply.word == "done" else "waiting"
        elif reply.word not in ("defunct", "wrongphase"):
            self.held(event.unit).needs += [] if reply.instance is None else [reply.instance]

    def on_emit(self, event, reply):
        if reply.word == "baddep":
            self.held(event.unit)
        if reply.word != "emitted":
            return
        unit = self.held(event.unit, lets_go=True)
        self.close(unit, "emitted")
        for members, deps in event.groups:
            self.groups.append((self.at, members, deps))
            for number in deps:
                self.instance(number)
                self.dependents.setdefault(number, []).append(members)
            for number in members:
                self.instance(number).deps = deps
        self.emitted(unit, [number for members, _ in event.groups for number in members])

    def emitted(self, unit, members):
        """Instances of the unit that are in no group had given way to strong definitions before."""
        alive = set(members)
        for number in unit.rows():
            self.set_phase(self.instances[number], "emitted" if number in alive else "replaced")
            self.instances[number].is_present &= number in alive
        for number in members:
            for row in [number, *self.waiters.pop(number, ())]:
                if self.instances[row].phase == "emitted":
                    self.settle(self.instances[row])

    def on_fail(self, event, reply):
        if reply.word == "failed":
            unit = self.held(event.unit, lets_go=True)
            self.close(unit, "failed")
            unit.why = event.why
            unit.free(self.at)
            self.lose([number for number in unit.rows() if self.instances[number].is_present])

    def on_move(self, event, reply):
        if reply.word == "moved":
            if event.tracker != event.to:
                self.gone[event.tracker] = Gone("moved", self.at, event.to)
            for unit in self.units:
                unit.tracker = event.to if unit.tracker == event.tracker else unit.tracker
            for generator in self.generators:
                generator[1] = event.to if generator[1] == event.tracker else generator[1]

    def on_remove(self, event, reply):
        if reply.word != "removed":
            return
        self.gone[event.tracker] = Gone("removed", self.at)
        units = [unit for unit in self.units if unit.tracker == event.tracker and unit.removed is None]
        rows = [self.instances[number] for unit in units for number in unit.rows() if self.instances[number].is_present]
        self.lose([row.number for row in rows if row.phase != "ready"])
        for row in rows:
            row.was_ready = row.phase == "ready"
            row.is_present = False
            self.set_phase(row, "removed")
        for unit in units:
            self.remove_unit(unit)

    def remove_unit(self, unit):
        unit.removed = self.at
        unit.free(self.at)
        if unit.spans and unit.spans[-1].is_open:
            unit.spans[-1].last, unit.spans[-1].is_open = self.at, False
        if unit.end is None:
            self.close(unit, "removed")

    def on_image(self, event, reply):
        pass
