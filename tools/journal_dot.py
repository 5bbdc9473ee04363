#!/usr/bin/env python3
"""Writes the graph of a journal's instances for graphviz.

    tools/journal_dot.py LOG [--at ENTRY] | dot -Tsvg -o graph.svg

LOG is what `orc run` wrote on standard error, or `orc session` on standard output (`-` is standard input). The graph is that after entry ENTRY, or after
the last: a box for each unit, in it an ellipse for each instance, coloured by its phase, and an arrow to each
instance that it depends on. An instance has its symbol's name where the log tells it."""
import sys

from journal import LogError, Session, read_file, refusal
from tool_words import Parser, end_with_reader

COLOURS = {
    "defined": "#e6e8eb", "started": "#f5dfa6", "resolved": "#a9cdf0", "emitted": "#cbbcec", "ready": "#a3d6ae",
    "failed": "#f0a59d", "replaced": "#fafafa", "removed": "#fafafa",
}
GONE = ("replaced", "removed")


def quoted(text):
    return '"' + text.replace("\\", "\\\\").replace('"', '\\"').replace("\n", "\\n") + '"'


def node(row, phase):
    label = f"i{row.number}\n{row.name}" if row.name else f"i{row.number}"
    style = "filled,dashed" if phase in GONE else "filled"
    return f'    i{row.number} [label={quoted(label)}, style="{style}", fillcolor="{COLOURS[phase]}", tooltip="{phase}"];'


def cluster(session, unit, at):
    """A unit's box, with its instances."""
    rows = [session.instances[number] for number in unit.rows()]
    label = quoted(f"u{unit.number} {unit.name}")
    return [f"  subgraph cluster_u{unit.number} {{", f"    label={label};", *[node(row, row.phase_at(at)) for row in rows], "  }"]


def graph(session, at):
    """The lines of the graph after an entry."""
    lines = ["digraph session {", "  rankdir=LR;", '  fontname="Helvetica";', '  node [shape=ellipse, fontname="Helvetica", color="#8a929c"];']
    lines.append('  edge [color="#8a929c"];')
    for unit in session.units:
        lines += cluster(session, unit, at) if unit.defined <= at else []
    for told, members, deps in session.groups:
        lines += [f"  i{number} -> i{dep};" for number in members for dep in deps if told <= at]
    return [*lines, "}"]


def main():
    parser = Parser(__doc__)
    parser.add_argument("log", metavar="LOG")
    parser.add_argument("--at", type=int, metavar="ENTRY")
    arguments = parser.parse_args()
    sys.stdout.reconfigure(errors="backslashreplace")
    end_with_reader()
    try:
        log = read_file(arguments.log)
        if arguments.at is not None and not 1 <= arguments.at <= len(log.entries):
            parser.error(f"the log has entries 1 to {len(log.entries)}" if log.entries else "the log has no entries")
        print("\n".join(graph(Session(log), arguments.at or len(log.entries))))
    except (LogError, OSError) as error:
        sys.exit(refusal(arguments.log, error))


if __name__ == "__main__":
    main()
