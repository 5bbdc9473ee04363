#!/usr/bin/env python3
"""Plays random lists of calls on sessions, each answer of which is judged by the definitions.

    tools/random_sessions.py LAB [COUNT [SEED]]

LAB is the built program of the crate session_lab. It makes COUNT lists (100,000) of the random numbers of
SEED (1). Prints how often each event got each answer, which answers of the event table never came, and in how
many lists an answer differed from what the definitions give; the status is 1 where one did."""

import subprocess
import sys

from tool_words import arguments, built, integers

ANSWERS = {
    "dylib": "NameTaken TooMany Made",
    "set_order": "NoDylib Set",
    "attach": "NoDylib TrackerGone TooMany Generator",
    "define": "NoDylib TrackerGone TooMany Duplicate Defined",
    "generate": "NoGen Spent TooMany Duplicate Defined",
    "ask": "NoDylib Offer InError Missing Done Pending",
    "collect": "Unknown Open Lost Found",
    "take": "Idle Start Bound FinishLost",
    "place": "Defunct WrongPhase NoRoom Placed",
    "resolve": "Defunct WrongPhase Resolved",
    "link": "Defunct WrongPhase Offer InError Missing AliasCycle Done Pending",
    "emit": "Defunct WrongPhase BadDep Emitted",
    "tracker": "NoDylib TooMany Tracker",
    "move_tracker": "TrackerGone OtherDylib Moved",
    "remove": "TrackerGone Removed",
    "image": "Image",
}

# a unit is given up for each of these causes
CAUSES = "Refused Missing InError AliasCycle BadDep NoRoom NoMemory Full"

# by design of the lists these don't come: they take 65,536 things of one kind
FAR = {"attach TooMany", "define TooMany", "generate TooMany", "tracker TooMany"}


def pairs():
    for event, answers in ANSWERS.items():
        for answer in answers.split() + ["JournalFull"]:
            yield f"{event} {answer}"
    for cause in CAUSES.split():
        yield f"fail({cause}) Failed"
    for answer in ("Defunct", "WrongPhase", "JournalFull"):
        yield f"fail {answer}"


def main():
    lab, *numbers = arguments(__doc__, 1, 3)
    count, seed = map(str, integers(numbers, 100000, 1))
    done = subprocess.run([built(lab), seed, count], stdout=subprocess.PIPE, text=True, check=True)
    *lines, last = done.stdout.splitlines()
    came = {}
    for line in lines:
        event, rest = line.split(" ", 1)
        answer, number = rest.rsplit(" ", 1)
        came[f"{event} {answer}"] = int(number)
        if event.startswith("fail("):
            came[f"fail {answer}"] = came.get(f"fail {answer}", 0) + int(number)
    for line in lines:
        print(line)
    never = [pair for pair in pairs() if pair not in came]
    print("never came:", ", ".join(never) or "none")
    print("of these not for want of things:", ", ".join(p for p in never if p not in FAR) or "none")
    print(last)
    lists, differ = last.replace(",", "").split()[0:3:2]
    sys.exit(0 if lists == count and differ == "0" else 1)


if __name__ == "__main__":
    main()
