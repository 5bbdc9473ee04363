"""The grammar of scripts, written again from its description, and independent of the reader's code.

`answer(data, notes)` gives the lines that `script_dump` prints for a script: a refusal, or what it asks for.
"""
import re

NAME = re.compile(rb"[A-Za-z0-9_]{1,4096}")
FILE = re.compile(rb"[\x21-\x7e]+")
SYMBOL = re.compile(rb"[^\x00-\x20\x7f,=@]{1,4096}")
ITEM = re.compile(rb"([A-Za-z0-9_]{1,4096}):(all|exported)")
DECIMAL = re.compile(rb"0|[1-9][0-9]*")
HEXADECIMAL = re.compile(rb"0|[1-9a-f][0-9a-f]*")
LEVELS = (b"resolved", b"ready")


class Refused(Exception):
    pass


def want(good, why):
    if not good:
        raise Refused(why)


def is_symbol(word):
    return SYMBOL.fullmatch(word) is not None and not word.endswith(b"?")


def is_name(word):
    return NAME.fullmatch(word) is not None


def decimal(word, most):
    return DECIMAL.fullmatch(word) is not None and int(word) <= most


def is_address(word):
    return HEXADECIMAL.fullmatch(word) is not None and int(word, 16) < 1 << 64


def mention(texts, text):
    """The number of a text, which gets the next one where it has none."""
    return texts.setdefault(text, len(texts))


class Reader:
    """What the lines so far declared, and what they are written as."""

    def __init__(self, notes):
        self.notes = notes
        self.watches = 0
        self.dylibs, self.trackers, self.files, self.names = {}, {}, {}, {}
        self.clients = 0
        self.written = []

    def write(self, *words):
        self.written.append(" ".join(words))

    def name(self, text):
        return f"n{mention(self.names, text)}"

    def known(self, d, t):
        want(d in self.dylibs and t in self.trackers, "unknown")

    def dt(self, d, t):
        return f"d{self.dylibs[d]}", f"t{self.trackers[t]}"

    def declare_dylib(self, words):
        want(len(words) == 1, "count")
        (d,) = words
        want(is_name(d), "name")
        want(d not in self.dylibs, "taken")
        want(len(self.dylibs) < 64, "toomany")
        mention(self.dylibs, d)
        self.write("setup dylib", self.name(d))

    def set_order(self, words):
        want(len(words) >= 2, "count")
        d, *items = words
        want(is_name(d), "name")
        text = self.items(items, [d])
        want(len(items) <= 64, "toomany")
        self.write("setup order", f"d{self.dylibs[d]}", *text())

    def items(self, items, others=()):
        """The items of an order are well formed, and their dylibs known, as are others."""
        matches = [ITEM.fullmatch(item) for item in items]
        want(all(matches), "order")
        want(all(d in self.dylibs for d in [*others, *(m[1] for m in matches)]), "unknown")
        return lambda: [f"d{self.dylibs[m[1]]}:{m[2].decode()}" for m in matches]

    def make_tracker(self, words):
        want(len(words) == 2, "count")
        d, t = words
        want(is_name(d) and is_name(t), "name")
        want(t not in self.trackers, "taken")
        want(d in self.dylibs, "unknown")
        mention(self.trackers, t)
        self.write("setup tracker", *self.dt(d, t))

    def name_file(self, line, words):
        want(len(words) == 3, "count")
        d, t, file = words
        want(is_name(d) and is_name(t) and FILE.fullmatch(file), "name")
        self.known(d, t)
        want(file in self.files or len(self.files) < 1024, "toomany")
        self.write(line, *self.dt(d, t), f"f{mention(self.files, file)}")

    def define_absolute(self, words):
        want(len(words) >= 3, "count")
        d, t, *definitions = words
        parts = [definition.partition(b"=") for definition in definitions]
        want(is_name(d) and is_name(t) and all(is_symbol(p[0]) for p in parts), "name")
        want(all(p[1] and is_address(p[2]) for p in parts), "number")
        want(len({p[0] for p in parts}) == len(parts), "taken")
        self.known(d, t)
        text = [f"{self.name(p[0])}@{p[2].decode()}" for p in parts]
        self.write("setup absolute", *self.dt(d, t), *text)

    def define_alias(self, words):
        want(len(words) == 3, "count")
        d, t, definition = words
        name, equals, rest = definition.partition(b"=")
        source, colon, target = rest.partition(b":")
        want(is_name(d) and is_name(t) and is_symbol(name) and equals, "name")
        want(is_name(source) and colon and is_symbol(target), "name")
        self.known(d, t)
        want(source in self.dylibs, "unknown")
        name = self.name(name)
        text = f"{name}=d{self.dylibs[source]}:{self.name(target)}"
        self.write("setup alias", *self.dt(d, t), text)

    def look_up(self, words, watch):
        want(len(words) >= 3, "count")
        level, order, *wanted = words
        plain = [w[:-1] if w.endswith(b"?") else w for w in wanted]
        want(all(map(is_symbol, plain)), "name")
        want(level in LEVELS, "order")
        items = order.split(b",")
        text = self.items(items)
        want(not watch or self.watches < self.notes, "nonote")
        want(len(items) <= 64 and len(wanted) <= 65536, "toomany")
        head = ["call lookup"]
        if watch:
            head = ["call watch", str(self.watches)]
            self.watches += 1
        names = [self.name(p) + ("?" if w != p else "") for w, p in zip(wanted, plain)]
        self.write(*head, level.decode(), *text(), *names)

    def move(self, words):
        want(len(words) == 2, "count")
        want(all(map(is_name, words)), "name")
        want(all(t in self.trackers for t in words), "unknown")
        self.write("call move", *(f"t{self.trackers[t]}" for t in words))

    def remove(self, words):
        want(len(words) == 1, "count")
        want(is_name(words[0]), "name")
        want(words[0] in self.trackers, "unknown")
        self.write("call remove", f"t{self.trackers[words[0]]}")

    def run(self, words):
        want(2 <= len(words) <= 10, "count")
        name, fuel, *arguments = words
        want(is_symbol(name), "name")
        want(decimal(fuel, 1 << 40), "number")
        want(all(decimal(a, (1 << 64) - 1) for a in arguments), "number")
        self.write("call run", self.name(name), *(w.decode() for w in [fuel, *arguments]))

    def peek(self, words):
        want(len(words) == 1, "count")
        want(is_symbol(words[0]), "name")
        self.write("call peek", self.name(words[0]))

    def begin_client(self, words):
        want(not words, "count")
        want(self.clients < 16, "toomany")
        self.clients += 1
        self.write("client")

    def line(self, text):
        if not text or text.startswith(b"#"):
            return
        want(not any(b < 0x20 or b == 0x7F for b in text), "bytes")
        want(b"  " not in text and text[:1] != b" " and text[-1:] != b" ", "bytes")
        word, *words = text.split(b" ")
        if word == b"client":
            return self.begin_client(words)
        setup = {
            b"dylib": self.declare_dylib,
            b"order": self.set_order,
            b"tracker": self.make_tracker,
            b"object": lambda w: self.name_file("setup object", w),
            b"absolute": self.define_absolute,
            b"generator": lambda w: self.name_file("setup generator", w),
            b"alias": self.define_alias,
        }
        calls = {
            b"define": lambda w: self.name_file("call define", w),
            b"lookup": lambda w: self.look_up(w, False),
            b"watch": lambda w: self.look_up(w, True),
            b"move": self.move,
            b"remove": self.remove,
            b"run": self.run,
            b"peek": self.peek,
        }
        lines = calls if self.clients else setup
        want(word in lines, "word")
        return lines[word](words)


def lines_of(data):
    """The lines, each with its newline; the last may lack it."""
    return re.findall(rb"[^\n]*\n|[^\n]+", data)


def answer(data, notes):
    reader = Reader(notes)
    end = 0
    for number, line in enumerate(lines_of(data), 1):
        end += len(line)
        try:
            want(number <= 4096 and end <= 1048576, "toolong")
            reader.line(line.removesuffix(b"\n"))
        except Refused as refused:
            return [f"refused {number} {refused}"]
    files = [f"file {text.hex()}" for text in reader.files]
    return reader.written + files + [f"name {text.hex()}" for text in reader.names]
