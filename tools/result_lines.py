"""What the lines of a session's clients came to, in words: each result line with the entry that it tells of.

A client's seat makes the calls of its lines, one line after the other, and jobs between them. So the results of a
client are joined with its entries from the first on: a definition, a move or a removal is one entry, a lookup ends with
its `collect`, or with the `ask` that was refused, and a run begins with its `image`.
"""
import json
from dataclasses import dataclass

from journal import Ask, Attach, Define, Move

# what a line asked for
GOOD = ("found", "defined", "moved", "removed", "exited", "ready")
CALLS = ("define", "move", "remove")
LONGEST = 60


def joined(names):
    """Names as a sentence has them."""
    return names[0] if len(names) == 1 else f"{', '.join(names[:-1])} and {names[-1]}"


def counted(count, word):
    return f"{count} {word}" + ("" if count == 1 else "s")


def wrote(output):
    """What a run wrote, by its hexadecimal digits."""
    data = b"" if output == "-" else bytes.fromhex(output)
    if not data:
        return "wrote nothing"
    text = data.decode("utf-8", errors="backslashreplace")
    shown = text if len(text) <= LONGEST else text[: LONGEST - 1] + "…"
    return f"wrote {counted(len(data), 'byte')}, {json.dumps(shown, ensure_ascii=False)}"


@dataclass(frozen=True)
class Told:
    result: object
    is_good: bool
    text: str


def is_entry_of(result, entry):
    """Whether an entry of the client is the last one of the line that came to this."""
    word, reply = entry.word, entry.reply.word
    if result.word in ("found", "failed"):
        return word == "collect" and reply == ("found" if result.word == "found" else "lost")
    if result.word in ("inerror", "missing"):
        return word in ("ask", "watch") and reply == result.word
    if result.word in ("exited", "trap", "fuel", "outputfull"):
        return word == "image"
    return word in CALLS and reply == result.word


class Results:
    def __init__(self, explanation):
        self.explanation, self.log, self.session = explanation, explanation.log, explanation.session
        # the units that each removal took
        self.removed = {}
        for unit in self.session.units:
            if unit.removed is not None:
                self.removed.setdefault(unit.removed, []).append(unit)

    def entries(self):
        """The entry of each result line, or none where it has none."""
        seats = {}
        for entry in self.log.entries:
            if entry.seat:
                seats.setdefault(entry.seat, []).append(entry)
        places = {}
        for result in self.log.results:
            own, at = seats.get(result.client, []), places.get(result.client, 0)
            found = None
            if result.word not in ("unfound", "ready", "notyet", "full", "nomemory", "skipped"):
                found = next((k for k in range(at, len(own)) if is_entry_of(result, own[k])), None)
            places[result.client] = at if found is None else found + 1
            yield result, None if found is None else own[found]

    def told(self):
        """Each result line in words; the first says how many came to what they asked for."""
        rows = [Told(it, it.word in GOOD, f"c{it.client} l{it.number}: {self.words(it, entry)}") for it, entry in self.entries()]
        if rows:
            good, count = sum(it.is_good for it in rows), len(rows)
            rows.insert(0, Told(None, good == count, f"Of the clients' lines {good} of {count} came to what they asked for"))
        return rows

    def words(self, result, entry):
        line = self.explanation.script.line(result.client, result.number) if self.explanation.script else None
        say = getattr(self, f"say_{result.word}", None)
        return say(result, entry, line) if say else self.refusal(entry) if entry else result.text.split(" ", 2)[2]

    # -- lookups

    def asked(self, entry):
        """The lookup that an entry is, or ends."""
        event = entry.event if entry else None
        return event if isinstance(event, Ask) or event is None else self.session.queries.get(event.query)

    def names(self, entry):
        """The names of a lookup, as a sentence has them."""
        asked = self.asked(entry)
        names = asked.words() if isinstance(asked, Ask) else []
        return joined(names if len(names) < 6 else [*names[:4], f"{len(names) - 4} more"]) if names else "names"

    def say_found(self, result, entry, line):
        return "; ".join(self.found(it, k, entry) for k, it in enumerate(result.values[0])) or "nothing was looked up"

    def found(self, text, place, entry):
        name, _, at = text.rpartition("@")
        if at == "none":
            return f"{name} has no definition, and needs none"
        match = entry.reply.matches[place] if entry and place < len(entry.reply.matches) else None
        whose = self.explanation.instance(match[0]) if match else name
        whose = whose if whose.startswith(f"{name} ") else f"{name} ({whose})"
        is_ready = match is None or self.session.instances[match[0]].phase_at(entry.number) == "ready"
        return f"{whose} was found at 0x{at}" + ("" if is_ready else ", which can't be run yet, since it isn't ready")

    def say_failed(self, result, entry, line):
        number = result.values[0]
        at = entry.reply.number if entry else None
        return f"the lookup of {self.names(entry)} failed with {self.explanation.instance(number)}: {self.explanation.why_lost(number, at)}"

    def say_inerror(self, result, entry, line):
        number = result.values[0]
        at, _ = self.explanation.loss(number)
        own = self.explanation.unit_of(number)
        again = f", and is so until {self.explanation.tracker(own.tracker)} is removed" if own else ""
        return f"the lookup of {self.names(entry)} was refused: {self.explanation.instance(number)} had failed{f' by entry {at}' if at else ''}{again}: {self.explanation.why_lost(number)}"

    def say_missing(self, result, entry, line):
        name, asked = result.values[0], self.asked(entry)
        where = ",".join(self.item(it) for it in asked.items) if asked else "the order"
        return f"no definition of {name} is seen in {where}{self.hint(name, asked, entry)}"

    def item(self, text):
        dylib, _, scope = text.partition(":")
        return f"{self.explanation.dylib(int(dylib[1:]))}:{scope}"

    def hint(self, name, asked, entry):
        """Why a name that is somewhere isn't seen."""
        rows = [(dylib, row) for dylib in range(len(self.session.dylibs)) for row in self.explanation.named.get((dylib, name), ())]
        at = entry.number if entry else len(self.log.entries)
        items = dict(it.split(":") for it in asked.items) if asked else {}
        for dylib, row in rows:
            whose, phase = self.explanation.instance(row.number), row.phase_at(at)
            if phase == "removed":
                return f": {whose} was removed by entry {self.explanation.loss(row.number, at)[0]}"
            if phase not in (None, "replaced"):
                scope = items.get(f"d{dylib}")
                return f": {whose} is hidden" if scope == "exported" else f": {whose} is in {self.explanation.dylib(dylib)}" if scope is None else ""
        local = [it.name for it in self.explanation.objects if it.is_local(name)]
        return f": it is local in {joined(local)}" if local else ""

    # -- definitions, moves and removals

    def say_defined(self, result, entry, line):
        number, first, count = result.values
        names = [row.name for row in self.session.instances[first : first + count]]
        known = f": {joined(names)}" if names and all(names) and count < 6 else ""
        return f"{self.defined(entry)} was defined as unit u{number} with {counted(count, 'name')}{known}"

    def defined(self, entry):
        return self.explanation.source(entry.event.unit) if entry and hasattr(entry.event, "unit") else "the unit"

    def say_moved(self, result, entry, line):
        return f"all that {self.explanation.tracker(entry.event.tracker)} had belongs to {self.explanation.tracker(entry.event.to)}" if entry else "moved"

    def say_removed(self, result, entry, line):
        if not entry:
            return "removed"
        units = [self.explanation.unit_name(it) for it in self.removed.get(entry.number, ())]
        had = joined(units if len(units) < 6 else [*units[:4], f"{len(units) - 4} more"]) if units else "no unit"
        return f"{self.explanation.tracker(entry.event.tracker)} was removed, which had {had}"

    def refusal(self, entry):
        """Why a call of a line, or of the set-up, was refused."""
        event, reply, number = entry.event, entry.reply, entry.number
        if reply.word == "duplicate":
            unit = self.explanation.unit_of(reply.instance)
            other = self.explanation.unit_name(unit) if unit else "another unit"
            offer = self.session.instances[reply.instance].offer if unit else None
            searched = self.session.instances[reply.instance].phase_at(number) != "defined" if unit else False
            there = f"a lookup has asked for the weak one of {other}" if offer and not offer.is_strong and searched else f"{other} defines it already"
            return f"{self.defined(entry)} wasn't defined: its definition of {reply.name} is strong, and {there}"
        if reply.word == "gone":
            tracker = reply.tracker
            dylib = event.dylib if not isinstance(event, Move) and hasattr(event, "dylib") else None
            done = {Define: "defined", Attach: "attached"}.get(type(event))
            what = f"{self.defined(entry)} wasn't {done}" if done else "nothing was done"
            return f"{what}: {self.explanation.why_gone(tracker, dylib, number)}"
        if reply.word == "otherdylib":
            return f"nothing was moved: {self.explanation.tracker(event.tracker)} and {self.explanation.tracker(event.to)} are of two dylibs"
        return {
            "toomany": "the session has no room for it",
            "nodylib": f"there is no dylib d{reply.dylib}",
            "taken": "there is a dylib of this name",
        }.get(reply.word, entry.text)

    # -- runs

    def run(self, line):
        return f"the run of {line.words[1]}" if line and len(line.words) > 1 else "the run"

    def say_exited(self, result, entry, line):
        code, output = result.values
        return f"{self.run(line)} exited with {code} and {wrote(output)}"

    def say_trap(self, result, entry, line):
        pc, cause, output = result.values
        told = self.explanation.trap(pc, cause, entry.number if entry else None)
        return f"{self.run(line)} ended in a trap and {wrote(output)}: {told}"

    def say_fuel(self, result, entry, line):
        return f"{self.run(line)} did all the instructions that it may and had not ended, and {wrote(result.values[0])}"

    def say_outputfull(self, result, entry, line):
        return f"{self.run(line)} would have written more than 1 MiB, and {wrote(result.values[0])}"

    def say_ready(self, result, entry, line):
        return f"{self.subject(line)} is ready at 0x{result.values[0]:x}"

    def say_notyet(self, result, entry, line):
        return f"nobody had told that {self.subject(line)} is ready"

    def subject(self, line):
        """The name that a line runs from, or peeks at."""
        return line.words[1] if line and len(line.words) > 1 else "the name"

    def say_unfound(self, result, entry, line):
        name = self.subject(line)
        why = f"no lookup of the client that was found gave {name} an instance{self.last_lookup(result, name)}"
        return f"nothing was run, since {why}" if line and line.words[0] == "run" else why

    def last_lookup(self, result, name):
        """What the last lookup of the name by the client came to."""
        script, found = self.explanation.script, ""
        for it in self.log.results if script else ():
            line = script.line(it.client, it.number)
            if it.client == result.client and it.number < result.number and line and line.words[0] in ("lookup", "watch"):
                if name in (word.removesuffix("?") for word in line.words[3:]):
                    found = f": l{it.number} came to `{it.text.split(' ', 2)[2]}`"
        return found or (f": none of its lines before looks {name} up" if script else "")

    # -- lines that were stopped

    def say_full(self, result, entry, line):
        return "a call of the line found no place in the journal"

    def say_nomemory(self, result, entry, line):
        return "a call of the line wanted memory that wasn't there"

    def say_skipped(self, result, entry, line):
        return "it wasn't done, since a line of the client before it, or the set-up, was stopped"
