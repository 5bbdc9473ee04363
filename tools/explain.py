#!/usr/bin/env python3
"""Says in words how a log ended, and why; of a session what each line of its clients came to, and why.

    tools/explain.py LOG [FILE ..] [--script SCRIPT]

LOG is what `orc run` wrote on standard error, or `orc session` on standard output (`-` is standard input). FILE .. are
the files of the command in order, of a session those of its script in the order of their first mention, which
--script SCRIPT tells too: with them sections, symbols, relocations and instances are called by their names, and an
address by the symbol that it lies in. Of `orc as` FILE is the text. Where a common variable is taken that is smaller
than another file's, or a weak definition over a common one, which other linkers don't do, that is said. Nothing else is
read, and a file that can't be read is called by its name alone."""
import bisect
import math
import sys

from journal import OBJECT, Fail, LogError, Remove, read_file, refusal
from object_names import EXTENSIONS, RUN, extension_of, extensions, object_of, objects_of, session_of, type_name, without_versions
from result_lines import Results, joined
from script_text import oddity, quoted, read_script
from tool_words import Parser, end_with_reader

MIB = 1 << 20
STACK = range(0x7FFF0000 - MIB, 0x7FFF0000)
NOT_BUILT = {
    "group": "it has a section group",
    "rel": "it has relocations without addends",
    "tls": "it has thread-local sections",
    "compressed": "it has compressed sections",
    "sectionkind": "it has a placed section of a type that isn't built",
    "xindex": "it keeps a section number elsewhere",
    "bind": "it has a symbol of a binding that isn't built",
}
USAGE = {
    "no command": "No command was named.",
    "unknown command": "The command is none that is built.",
    "bad words": "The words don't fit the command, or one is no UTF-8 text. A script comes on standard input (`orc session <SCRIPT`), and a command names at most 1,024 files.",
    "bad number": "The words fit the command, and a number among them is malformed or out of its range.",
}
# the ranges of the relocation types that have one
RANGES = {
    1: "-2^31 to 2^32-1", 16: "even, -4096 to 4094", 17: "even, -2^20 to 2^20-2", 57: "-2^31 to 2^31-1", 59: "-2^31 to 2^31-1",
    **dict.fromkeys([18, 19, 20, 23, 26], "-2^31-2^11 to 2^31-2^11-1"),
}
LOST = ("failed", "removed", "replaced")
SETUP_REFUSALS = ("taken", "toomany", "nodylib", "gone", "duplicate")
FLOATS = ["soft float", "floating point of 32 bits", "floating point of 64 bits", "floating point of 128 bits"]
SCRIPT = {
    "toolong": "it is past the limits of lines and bytes",
    "bytes": "it has a byte that no line has, as a tab or the carriage return of Windows, or a space too many",
    "word": "its first word is none that may stand there: a client's line before the first `client`, a line of the set-up after it, or no word of a script",
    "count": "it has too many or too few words",
    "name": "a name is malformed",
    "number": "a number is malformed or out of its range",
    "order": "an item of its order, or its level, is malformed",
    "taken": "what it declares was declared before, or an `absolute` line has a name twice",
    "unknown": "it names what wasn't declared",
    "nonote": "it is one `watch` line more than there are notes, which are 16",
    "toomany": "it is one more than a script may have",
}
ASSEMBLY = {
    "word": "its first word is no instruction or directive",
    "operands": "its operands aren't those of its word",
    "number": "a number is malformed or out of its range",
    "label": "its label is malformed or defined before",
    "name": "a name is too long, or was defined before",
    "section": "its section is not allowed, or doesn't take it",
}


def told_flags(flags):
    """What the flags of a file's header say, by the RISC-V ELF psABI."""
    said = ["compressed code"] * (flags & 1) + [FLOATS[flags >> 1 & 3]] * bool(flags & 6) + ["16 registers"] * bool(flags & 8)
    return f" ({joined(said)})" if said else ""


class Explanation:
    def __init__(self, log, objects, script=None):
        self.log, self.objects, self.script = log, objects, script
        self.session = session_of(log, objects, script)
        self.placed = sorted((it.base, it.number) for it in self.session.units if it.base is not None)
        self.widest = max((it.need for it in self.session.units if it.base is not None), default=0)
        # the instances of each name in each dylib, and the dylibs of which not all names are known
        self.named, self.unsure = {}, set()
        for row in self.session.instances:
            dylib = self.session.units[row.unit].dylib
            if row.name is None:
                self.unsure.add(dylib)
            else:
                self.named.setdefault((dylib, row.name), []).append(row)
        # the names of each unit that weren't taken, since another unit has them
        self.passed = {}
        for unit, offer, _ in self.session.discarded:
            self.passed.setdefault(unit.number, set()).add(offer.name)

    # -- what numbers are called

    def object(self, number):
        return self.objects[number] if number < len(self.objects) else None

    def file(self, number):
        return self.objects[number].name if number < len(self.objects) else f"file {number}"

    def subject(self, number):
        """A file at the beginning of a sentence."""
        return self.objects[number].name if number < len(self.objects) else f"File {number}"

    def source(self, name):
        """What a unit is of: a file, or a line of a script."""
        kind, number = name[0], int(name[1:])
        return self.file(number) if kind == "o" else f"{'absolute' if kind == 'a' else 'alias'} line {number}"

    def unit_name(self, unit):
        return self.source(unit.name)

    def dylib(self, number):
        return self.session.dylibs[number] if number < len(self.session.dylibs) else f"d{number}"

    def tracker(self, number):
        name = self.script.tracker(number) if self.script else None
        return f"tracker {name} (t{number})" if name else f"tracker t{number}"

    def unit_of(self, instance):
        rows = self.session.instances
        return self.session.units[rows[instance].unit] if instance < len(rows) else None

    def instance(self, number):
        """An instance by its name and its unit."""
        unit = self.unit_of(number)
        name = self.session.instances[number].name if unit else None
        return f"{name or f'instance {number}'} of {self.unit_name(unit)}" if unit else f"instance {number}"

    def block(self, it, number):
        return it.block(number) if it else f"placed section {number}"

    def units_at(self, at):
        """The units that are or were placed over an address."""
        for k in range(bisect.bisect_right(self.placed, (at, math.inf)) - 1, -1, -1):
            base, number = self.placed[k]
            if base + self.widest <= at:
                return
            if at < base + self.session.units[number].need:
                yield self.session.units[number]

    def address(self, at, entry=None):
        """An address, with what lies there after an entry, or after the last: a symbol and its file."""
        entry = len(self.log.entries) if entry is None else entry
        if at in STACK:
            return f"0x{at:x} (in the stack)"
        freed = []
        for unit in self.units_at(at):
            if unit.lies_at(at, entry):
                inside = self.place(unit, at)
                return f"0x{at:x} ({inside + ' of ' if inside else 'in '}{self.unit_name(unit)})"
            if unit.freed is not None and unit.freed <= entry:
                freed.append(unit)
        if freed:
            unit = max(freed, key=lambda it: it.freed)
            inside = self.place(unit, at)
            return f"0x{at:x} (where {inside + ' of ' if inside else ''}{self.unit_name(unit)} was, until entry {unit.freed} freed that)"
        return f"0x{at:x}"

    def place(self, unit, at):
        """What of a unit's object lies at an address."""
        it = object_of(self.objects, unit)
        rows = [self.session.instances[number] for number in unit.rows()]
        replaced = {row.name for row in rows if row.phase == "replaced"} | self.passed.get(unit.number, set())
        return it.place(at - unit.base, replaced) if it else None

    # -- why units are given up

    def edge(self, unit, block, offset, kind, value):
        it = object_of(self.objects, unit) if unit else None
        what, at = it.edge(block, offset, kind) if it else (type_name(kind), offset)
        inside = it.symbol_in(block, offset) if it else None
        where = f"at {at} of {self.block(it, block)}" + (f", {inside}," if inside else "")
        whose = f" of {self.unit_name(unit)}" if unit else ""
        allowed = f" ({RANGES[kind]})" if kind in RANGES else ""
        return f"{what} {where}{whose} has the value {value}, which is out of its range{allowed}"

    def reason(self, unit):
        """Why a unit was given up: what it needed, and the first cause of that."""
        first = self.cause(unit)
        if first is unit:
            return self.own_reason(unit)
        needs = f"{self.unit_name(unit)} needs {self.instance(unit.why.values[0])}"
        return f"{needs}; {self.own_reason(first) if first else self.why_lost(unit.why.values[0], unit.end)}"

    def cause(self, unit):
        """The unit that was given up for a reason of its own, by the instances that units lacked; none if it was removed."""
        seen = set()
        while unit and unit.why.word in ("inerror", "baddep") and unit.number not in seen:
            seen.add(unit.number)
            unit = self.loser(unit.why.values[0])
        return unit if unit and unit.number not in seen else None

    def loss(self, instance, entry=None):
        """The entry by which an instance was lost, up to an entry, and how: it failed, was removed or replaced."""
        rows = self.session.instances
        changes = rows[instance].changes if instance < len(rows) else []
        return next(((at, how) for at, how in changes if how in LOST and (entry is None or at <= entry)), (None, None))

    def loser(self, instance):
        """The unit that was given up and took the instance along, which may be of another unit."""
        at, how = self.loss(instance)
        event = self.log.entries[at - 1].event if how == "failed" else None
        return self.session.units[event.unit] if isinstance(event, Fail) else None

    def reached(self, instance, entry, is_wanted):
        """The first instance that satisfies a condition of those that an instance reaches, as it depended on them."""
        seen, left = {instance}, [instance]
        for number in left:
            for dep in self.session.instances[number].deps:
                if dep not in seen and dep < len(self.session.instances):
                    if is_wanted(self.session.instances[dep]):
                        return dep
                    seen.add(dep)
                    left.append(dep)
        return None

    def why_lost(self, instance, entry=None):
        """How an instance was lost, and why."""
        at, how = self.loss(instance, entry)
        own = self.unit_of(instance)
        if at is None:
            return "something that it needs failed or was removed"
        if how == "replaced":
            return f"entry {at} replaced it by a strong definition"
        event = self.log.entries[at - 1].event
        if how == "removed":
            return f"entry {at} removed it, with {self.tracker(event.tracker)}" if isinstance(event, Remove) else f"entry {at} removed it"
        if isinstance(event, Remove):
            gone = self.reached(instance, at, lambda row: (at, "removed") in row.changes)
            needs = f"it needs {self.instance(gone)}, which" if gone is not None else "it needs what"
            return f"{needs} wasn't ready when entry {at} removed {self.tracker(event.tracker)}"
        failed = self.session.units[event.unit]
        if failed is own:
            return self.reason(failed)
        needed = self.reached(instance, at, lambda row: row.unit == failed.number)
        return f"it needs {self.instance(needed)}; {self.reason(failed)}" if needed is not None else self.reason(failed)

    def is_offered(self, name, dylib, entry):
        """Whether a dylib's units find a name after an entry."""
        for number, sees_hidden in self.session.order_at(dylib, entry):
            for row in self.named.get((number, name), ()):
                if row.phase_at(entry) not in (None, "replaced", "removed") and (sees_hidden or row.offer is None or row.offer.is_exported):
                    return True
        return False

    def undefined(self, unit):
        """The names that a unit's object needs and that nothing offers, the one that the log tells first."""
        first, it = unit.why.values[0], object_of(self.objects, unit)
        dylibs = {number for number, _ in self.session.order_at(unit.dylib, unit.end)}
        if it is None or dylibs & self.unsure or dylibs & {dylib for dylib, *_ in self.session.generators}:
            return [first]
        others = (name for name, is_weak in it.wanted() if not is_weak and name != first)
        return [first, *(name for name in others if not self.is_offered(name, unit.dylib, unit.end))]

    def own_reason(self, unit):
        why, named = unit.why, self.unit_name(unit)
        first = why.values[0] if why.values else None
        if why.word == "refused":
            return self.edge(unit, *why.values)
        if why.word == "missing":
            return self.why_missing(unit)
        return {
            "aliascycle": f"{named} leads back to itself by instance {first}",
            "noroom": f"code memory has no room for the {first} bytes of {named}",
            "nomemory": f"memory ran out while {named} was linked",
            "full": f"the journal was full while {named} was linked",
        }[why.word]

    def why_missing(self, unit):
        """An alias looks its target up in one dylib, any other unit what it needs in its dylib's link order."""
        if unit.name.startswith("l"):
            return f"the dylib that {self.unit_name(unit)} names has no definition of {unit.why.values[0]}"
        names = joined(self.undefined(unit))
        nobody = "no object defines" if self.log.is_run else f"no dylib in the link order of {self.dylib(unit.dylib)} defines"
        return f"{nobody} {names}, which {self.unit_name(unit)} needs"

    def why_gone(self, tracker, dylib, entry):
        """Why a call under a tracker was refused."""
        what = self.session.gone.get(tracker)
        if what and what.entry < entry:
            return f"{self.tracker(tracker)} was removed by entry {what.entry}" if what.how == "removed" else f"all that {self.tracker(tracker)} had was moved to {self.tracker(what.to)} by entry {what.entry}"
        if dylib is not None and tracker < len(self.session.trackers) and self.session.trackers[tracker] != dylib:
            return f"{self.tracker(tracker)} is one of {self.dylib(self.session.trackers[tracker])}, and not of {self.dylib(dylib)}"
        return f"there is no {self.tracker(tracker)}"

    # -- objects

    def graph_refusal(self, it, why, values):
        if why == "g3":
            return f"{it.symbol(values[0]) if it else f'symbol {values[0]}'} is thread-local or an indirect function"
        if why == "g6":
            return "it has more than 16,384 sections, 65,536 symbols, 262,144 relocations or 16 MiB"
        if why == "g7":
            return "memory ran out"
        block, offset = values[-2:]
        what = it.relocation(block, offset) if it else None
        what = what or (type_name(values[0]) if why == "g1" else "the relocation")
        where = f"at {offset} of {self.block(it, block)}"
        return {
            "g1": f"{what} {where} is of a type that isn't linked",
            "g2": f"{what} {where} lies outside its section, or meets padding that is deleted, or stands in a section without bytes, or names a symbol of a section that isn't placed",
            "g4": f"{what} {where} is the lower part of a pair, and has an addend or a label without an upper part",
            "g5": f"the padding {where} isn't in its section, starts inside that of the one before it, is for a boundary above 4096, or is shorter than its place needs",
        }[why]

    def file_refusal(self, it, why, values):
        n = values[0] if values else 0
        section = f"section {n}" if n else "the section table"
        if it and why in ("e8", "e10", "e11"):
            section = it.section(n)
        length = f"; it has {it.length} bytes" if it else ""
        return {
            "e1": f"it ends before a range that it names, at {n}{length}",
            "e2": "it doesn't begin as an ELF file",
            "e3": "it is no file of 64 bits",
            "e4": "it is not little endian",
            "e5": "it is not relocatable: link no further than an object (`-c`)",
            "e6": "it is not for RISC-V",
            "e7": f"its flags are {n}{told_flags(n) if why == 'e7' else ''}, and not those of `-march=rv64im -mabi=lp64`",
            "e8": f"the entry of {section} is malformed",
            "e9": f"{it.symbol(n) if it and why == 'e9' else f'symbol {n}'} is malformed, or an earlier symbol has its name",
            "e10": f"{section} refers to a section or symbol that isn't there, or isn't of the right kind",
            "e11": f"the bytes of {section} are also another part of the file",
            "e12": NOT_BUILT.get(n),
            "e13": "memory ran out",
        }[why]

    # -- one function for each end line

    def end_done(self):
        if self.log.results or self.log.entries:
            return "The session was run to its end."
        return "The command was done and its output is whole. What the lines of a session came to stands in its standard output, which can be explained as this log."

    def end_exited(self, code):
        return f"The program exited with {code}" + (f", which the exit status says modulo 256: {code % 256}." if code > 255 else ".")

    def end_usage(self, kind):
        return USAGE[kind]

    def end_read(self):
        return "Reading the script failed, which comes on standard input."

    def end_file(self, number):
        return f"{self.subject(number)} is missing, or reading it failed."

    def end_script(self, line, why):
        lines = self.script.lines if self.script else []
        return f"Line {line} of the script is refused: {self.odd_line(lines, line, why == 'bytes') or SCRIPT[why]}."

    def odd_line(self, lines, number, tabs_are_odd):
        """The line as it stands, and what is odd about its bytes, if something is."""
        if not 0 < number <= len(lines):
            return None
        line = lines[number - 1]
        what = oddity(line, tabs_are_odd)
        return what and f"{quoted(line)}: {what}"

    def end_object(self, number, why, *values):
        refusal = self.graph_refusal if why.startswith("g") else self.file_refusal
        return f"{self.subject(number)} can't be linked: {refusal(self.object(number), why, values)}."

    def end_long(self, number):
        it = self.object(number)
        if it and it.length > 16 * MIB:
            return f"{it.name} has {it.length} bytes, which is more than 16 MiB."
        return f"{self.subject(number)} has more than 16 MiB, or the files up to it have more than 256 MiB together."

    def end_missing(self, name):
        local = [it.name for it in self.objects if it.is_local(name)]
        hint = f" (it is local in {', '.join(local)})" if local else ""
        return f"No object defines a symbol {name} that is not local{hint}: name another entry, or mark it `.globl`."

    def end_link(self, *values):
        """The edge is in the unit of the instance by which the entry's lookup was lost."""
        lost = [it.reply.instance for it in self.log.entries if it.reply.word == "lost"]
        edge = self.edge(self.unit_of(lost[-1]) if lost else None, *values)
        return f"{edge[0].upper()}{edge[1:]}."

    def end_dependency(self, number):
        unit = self.loser(number)
        reason = self.reason(unit) if unit else self.why_lost(number)
        return f"The entry, {self.instance(number)}, couldn't be made ready: {reason}.{self.others_given_up(unit)}"

    def others_given_up(self, unit):
        """The units that were given up for reasons of their own, beside the one that is told already."""
        told = self.cause(unit) if unit else None
        others = [it for it in self.session.units if it.why and it is not told and self.cause(it) is it]
        return "".join(f" And {self.own_reason(it)}." for it in others)

    def end_trap(self, pc, cause):
        told = self.trap(pc, cause)
        return f"{told[0].upper()}{told[1:]}."

    def trap(self, pc, cause, entry=None):
        """Why a run of the memory after an entry, or after the last, was trapped."""
        word, at = cause[0], int(cause[1], 16) if len(cause) > 1 else 0
        if pc == 0 and word == "fetch":
            return "the program jumped to address 0, where nothing is mapped: perhaps it called a weak function that nothing defines"
        what = {
            "fetch": lambda: "its bytes are not all mapped",
            "illegal": lambda: self.illegal(pc, at, entry),
            "misaligned": lambda: f"it is at, or jumps to, {self.address(at, entry)}, which is no multiple of 4",
            "load": lambda: f"it loads from {self.address(at, entry)}, which is not all mapped",
            "store": lambda: f"it stores to {self.address(at, entry)}, which is not all mapped",
            "break": lambda: "it is a breakpoint (`ebreak`)",
        }[word]()
        return f"the instruction at {self.address(pc, entry)} couldn't be done: {what}"

    def illegal(self, pc, word, entry):
        """What a word is that isn't run, and whether its file says that it was compiled for more."""
        what = f"the word 0x{word:08x} is no instruction of RV64IM"
        extension = extension_of(word)
        if not extension:
            return what
        what += f", but perhaps one of the extension {EXTENSIONS[extension]}"
        entry = len(self.log.entries) if entry is None else entry
        unit = next((it for it in self.units_at(pc) if it.lies_at(pc, entry)), None)
        it = object_of(self.objects, unit) if unit else None
        if it and extensions(it.architecture) - RUN:
            what += f": {it.name} was compiled for {without_versions(it.architecture)}, as its attributes say, and has to be for rv64im"
        return what

    def end_fuel(self):
        return "The program did all the instructions that it may, and had not ended: give it more with --fuel, or look for a loop without end."

    def end_output(self):
        return "A write would have made the output longer than 1 MiB."

    def end_journal(self, length):
        return f"The journal had no place for another entry after {length}."

    def end_memory(self):
        return "Memory ran out."

    def end_assembly(self, line, why):
        it = self.object(0)
        lines = it.data.split(b"\n") if it and not it.data.startswith(OBJECT) else []
        shown = f"{quoted(lines[line - 1])}: " if 0 < line <= len(lines) else ""
        return f"Line {line} of the assembly text is refused: {self.odd_line(lines, line, False) or shown + ASSEMBLY[why]}."

    def end_define(self, number):
        """The journal's last entry is the definition that was refused."""
        last = self.log.entries[-1].reply if self.log.entries else None
        if last and last.word == "duplicate":
            unit = self.unit_of(last.instance)
            other = self.unit_name(unit) if unit else "another object"
            if unit and unit.name == f"o{number}":
                return f"{self.subject(number)} is named twice, and so defines {last.name} twice."
            return f"{self.subject(number)} defines {last.name}, which {other} defines too."
        if last and last.word == "toomany":
            return f"{self.subject(number)} would make more than 262,144 definitions."
        return f"{self.subject(number)} has a strong definition of a name that a file before it has one of, or there are more than 262,144 definitions."

    # -- the whole log

    def words(self):
        """How the log ended."""
        log = self.log
        if log.end is None and log.rest:
            return f"The log is cut off in the middle of a line: {log.rest}"
        if log.end is None and log.results:
            return "This is the journal of a session and the results of its clients; its end line stands on standard error."
        if log.end is None and not log.entries:
            return "The log is empty. Everything is written at the end, so perhaps the program was interrupted or killed, or this isn't its log: of a session with lines standard output has them."
        if log.end is None:
            return "The log has no end line: writing failed before it, memory ran out, or this is the output of a session without clients."
        words = getattr(self, f"end_{log.end.word}")(*log.end.values)
        return words if log.rest is None else f"{words} (No line break ends the log: it may be cut off here.)"

    def refused_setup(self):
        """The calls of a session's set-up that were refused, which no result line tells."""
        results = Results(self)
        for entry in self.log.entries:
            if entry.seat == 0 and not self.log.is_run and entry.reply.word in SETUP_REFUSALS:
                yield f"set-up, entry {entry.number}: {results.refusal(entry)}."

    def warnings(self):
        """Definitions that were taken where another linker takes another one; and files that don't fit the log."""
        if not self.session.is_known:
            yield "Warning: the files don't fit the definitions of the log, so symbols aren't named. Are they those of the command, in order?"
        smaller = {}
        for unit, offer, number in self.session.discarded:
            taken = self.session.instances[number].offer
            if taken and offer.is_common and not taken.is_strong:
                smaller.setdefault(number, []).append((unit, offer))
        for number, rows in smaller.items():
            yield from self.warning(self.session.instances[number].offer, number, rows)

    def warning(self, taken, number, rows):
        """A weak definition that is taken over a common one, and a common one that is below another in size or alignment."""
        if not taken.is_common:
            others = joined([*dict.fromkeys(self.unit_name(unit) for unit, _ in rows)])
            yield f"Warning: the weak {self.instance(number)} is taken, and not the common one of {others}. A C linker takes the common one, which has zeros."
            return
        for unit, it in rows:
            if it.size > taken.size or it.align > taken.align:
                yield (
                    f"Warning: the common {self.instance(number)} is taken, with {taken.size} bytes aligned to {taken.align}, and {self.unit_name(unit)} has one of "
                    f"{it.size} bytes aligned to {it.align}. What it writes behind the {taken.size} bytes lies in other variables or in code. A C linker takes the largest."
                )

    def text(self):
        """All that is said of the log, in lines."""
        return [self.words(), *self.refused_setup(), *(f"{it.text}." for it in Results(self).told()), *self.warnings()]


def inputs(parser):
    """The words of a tool that reads a log with the files of its command; what it gives reads them."""
    parser.add_argument("log", metavar="LOG")
    parser.add_argument("files", nargs="*", metavar="FILE")
    parser.add_argument("--script", metavar="SCRIPT")


def explanation_of(arguments):
    """The log, the files and the script that a tool's words name."""
    script = read_script(arguments.script) if arguments.script else None
    files = arguments.files or (list(script.files) if script else [])
    return Explanation(read_file(arguments.log), objects_of(files), script)


def main():
    parser = Parser(__doc__)
    inputs(parser)
    arguments = parser.parse_args()
    sys.stdout.reconfigure(errors="backslashreplace")
    end_with_reader()
    try:
        print("\n".join(explanation_of(arguments).text()))
    except (LogError, OSError) as error:
        sys.exit(refusal(arguments.log, error))


if __name__ == "__main__":
    main()
