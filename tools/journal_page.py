#!/usr/bin/env python3
"""Makes one page of a log, on which the link can be looked at.

    tools/journal_page.py LOG [FILE ..] [--script SCRIPT] -o PAGE.html

LOG is what `orc run` wrote on standard error, or `orc session` on standard output (`-` is standard input), and the page is
PAGE.html, or standard output without -o. PAGE.html#15 opens at entry 15. It needs nothing beside it. It has a lane for each seat with its entries, a bar for each unit from its first job to its
end, how far the instances have come over time, and the graph of instances at the entry that a slider chooses. FILE ..
are the files of the command in order, of a session those of its script in the order of their first mention, which
--script SCRIPT tells too: with them units and instances have the names of files and symbols, where the log alone tells
few. Of a log too long to be drawn at once, the page draws the part around the chosen entry."""
import html
import json
import pathlib
import re
import sys

from explain import explanation_of, inputs
from journal import PHASES, REFUSALS, LogError, refusal
from journal_dot import COLOURS
from object_names import object_of
from result_lines import Results
from tool_words import Parser, end, end_with_reader

TEMPLATE = pathlib.Path(__file__).resolve().parent / "journal_page.html"
# more than this isn't drawn at once, but a unit with its neighbours
MOST_INSTANCES, MOST_EDGES, MOST_UNITS = 240, 1500, 90
TALLEST = 9


def unit_of(entry):
    """The unit that an entry speaks of, if it speaks of one."""
    unit = getattr(entry.event, "unit", None)
    return unit if isinstance(unit, int) else entry.reply.unit


def needs(session):
    """The units that each unit needs, without itself, in the order in which they were told."""
    found = {unit.number: {} for unit in session.units}
    for unit in session.units:
        rows = [dep for number in unit.rows() for dep in session.instances[number].deps] + unit.needs
        found[unit.number] = dict.fromkeys(session.instances[it].unit for it in rows if it < len(session.instances))
        found[unit.number].pop(unit.number, None)
    return found


def distances(session, needed):
    """How many steps each started unit is away from one that a lookup began with."""
    found = {}
    for unit in sorted((it for it in session.units if it.spans), key=lambda it: it.spans[0].first):
        if unit.number in found:
            continue
        found[unit.number], left = 0, [unit.number]
        for number in left:
            for other in needed[number]:
                if other not in found:
                    found[other] = found[number] + 1
                    left.append(other)
    return found


def columns(session):
    """The units in columns: by their distance, each near those that need it, and what was never started last."""
    needed = needs(session)
    far = distances(session, needed)
    layers, height = {}, {}
    for unit in session.units:
        layers.setdefault(far.get(unit.number, len(session.units)), []).append(unit.number)
    made = []
    for _, layer in sorted(layers.items()):
        users = {it: [height[other] for other in height if it in needed[other]] for it in layer}
        layer.sort(key=lambda it: (sum(users[it]) / len(users[it]) if users[it] else 0, it))
        height.update((it, place / len(layer)) for place, it in enumerate(layer))
        made += [layer[at : at + TALLEST] for at in range(0, len(layer), TALLEST)]
    return made


def is_small(session):
    edges = sum(len(members) * len(deps) for _, members, deps in session.groups)
    return len(session.instances) <= MOST_INSTANCES and edges <= MOST_EDGES and len(session.units) <= MOST_UNITS


def unit_data(explanation, unit):
    why = explanation.reason(unit) if unit.why else None
    return {
        "name": unit.name,
        "file": explanation.unit_name(unit) if object_of(explanation.objects, unit) else unit.name,
        "rows": [*unit.rows()],
        "spans": [[span.seat, span.first, span.last] for span in unit.spans],
        "phase": unit.phase,
        "end": unit.end,
        "removed": unit.removed,
        "defined": unit.defined,
        "base": None if unit.base is None else f"{unit.base:x}",
        "need": unit.need,
        "freed": unit.freed,
        "why": why,
    }


def data_of(explanation):
    log, session = explanation.log, explanation.session
    small, told = is_small(session), Results(explanation)
    return {
        "entries": [[it.seat, it.word, it.reply.word, unit_of(it), it.text] for it in log.entries],
        "refusals": sorted(REFUSALS),
        "units": [unit_data(explanation, it) for it in session.units],
        "instances": [[it.unit, it.name, [[at, PHASES.index(phase)] for at, phase in it.changes]] for it in session.instances],
        "groups": session.groups,
        "told": {it.number: f"Refused: {told.refusal(it)}." for it in log.entries if it.reply.word == "gone"},
        "phases": [[phase, COLOURS[phase]] for phase in PHASES],
        "columns": columns(session) if small else None,
    }


def notes(explanation):
    """What is to be said of the log itself, and of definitions that other linkers take otherwise."""
    log = explanation.log
    if log.rest:
        yield f"The log is cut off in the middle of a line. What stands there: {log.rest[:400]}"
    elif log.rest == "" and log.end:
        yield "No line break ends the log: its last line may be cut off."
    if not log.end and not log.rest and not log.results:
        yield explanation.words()
    if not log.entries:
        yield "The log has no journal: no session was begun, or nothing of it was written."
    yield from (f"{it[0].upper()}{it[1:]}" for it in explanation.refused_setup())
    yield from explanation.warnings()


def counted(count, word):
    return f"{count:,} {word}" if count == 1 else f"{count:,} {word}s".replace("entrys", "entries")


def summary(explanation):
    """What the log has, in numbers."""
    log, session = explanation.log, explanation.session
    ends = {phase: sum(it.phase == phase for it in session.units) for phase in ("emitted", "failed", "removed")}
    idle = sum(not it.spans for it in session.units)
    told = [f"{count:,} {phase}" for phase, count in [*ends.items(), ("never started", idle)] if count]
    yield counted(len(log.entries), "entry")
    yield counted(len({it.seat for it in log.entries}), "seat")
    yield counted(len(session.units), "unit") + (f": {', '.join(told)}" if told else "")
    yield counted(len(session.instances), "instance")


def paragraphs(kind, lines):
    return "\n".join(f'<p class="{kind}">{html.escape(line)}</p>' for line in lines)


def results(explanation):
    """Each result line, with what it says in words."""
    rows = Results(explanation).told()
    if not rows:
        return ""
    lines = "\n".join(
        f'<li><code>{html.escape(it.result.text)}</code><span{"" if it.is_good else " class=bad"}>{html.escape(it.text.split(": ", 1)[1])}</span></li>'
        for it in rows[1:]
    )
    return f'<section><h2>Results <small>{html.escape(rows[0].text)}</small></h2><ul class="results">{lines}</ul></section>'


def page(name, explanation, text):
    log = explanation.log
    parts = {
        "TITLE": html.escape(name),
        "END": html.escape(log.end.text) if log.end else "results of a session" if log.results else "no end line",
        "WORDS": html.escape(explanation.words()) if log.end else "",
        "KIND": "good" if (log.end and log.end.word in ("exited", "done")) or (log.results and not log.end) else "bad",
        "NOTES": paragraphs("note", notes(explanation)),
        "SUMMARY": "".join(f"<li>{html.escape(it)}</li>" for it in summary(explanation)) if log.entries else "",
        "RESULTS": results(explanation),
        "TEXT": html.escape(text),
        "HIDDEN": "" if log.entries else "hidden",
        "DATA": json.dumps(data_of(explanation), separators=(",", ":")).replace("<", "\\u003c"),
    }
    template = TEMPLATE.read_text(encoding="utf-8")
    return re.sub("@([A-Z]+)@", lambda found: parts[found[1]], template)


def log_text(log):
    """The log as it was read."""
    lines = [it.text for it in [*log.entries, *log.results, *([log.end] if log.end else [])]]
    return "\n".join([*lines, *([log.rest] if log.rest else [])])


def main():
    parser = Parser(__doc__)
    inputs(parser)
    parser.add_argument("-o", dest="page", metavar="PAGE.html")
    arguments = parser.parse_args()
    end_with_reader()
    try:
        explanation = explanation_of(arguments)
        name = "standard input" if arguments.log == "-" else pathlib.Path(arguments.log).name
        made = page(name, explanation, log_text(explanation.log)).encode("utf-8", errors="backslashreplace")
        if not arguments.page and sys.stdout.isatty():
            end("the page would fill the terminal: -o PAGE.html says where it is to stand")
        if arguments.page:
            pathlib.Path(arguments.page).write_bytes(made)
        else:
            sys.stdout.buffer.write(made)
    except (LogError, OSError) as error:
        sys.exit(refusal(arguments.log, error))


if __name__ == "__main__":
    main()
