#!/usr/bin/env python3
"""Compares two traces actor by actor, up to handles and to the order across actors.

    python3 tools/trace_diff.py OLD NEW

Each actor's calls stand with their last answers, in its own order. A connection is named c1, c2 and so on, and a message
m1, m2, by the least number that its actor has free; one that was closed or answered is c1(gone). So one more request of
a client adds lines to the client and to the service, and changes no other. Writes what differs, and ends with the status
1 where something does, and with 2 where a file can't be read. A handle that a script loads from memory stays a number."""

import argparse
import difflib
import pathlib
import re
import sys

MESSAGE_CALLS = ("set_rhandle", "read", "skip", "write", "reply")
CONNECTION_CALLS = ("call", "close")
VERDICT = re.compile(r"(quiet|stalled|full) [0-9]+")


class Names:
    """The names of the handles that an actor has and had."""

    def __init__(self, letter):
        self.letter, self.numbers, self.gone = letter, {}, {}

    def give(self, handle):
        self.numbers[handle] = min(set(range(1, len(self.numbers) + 2)) - set(self.numbers.values()))
        return self.name(handle)

    def name(self, handle):
        if handle in self.numbers:
            return f"{self.letter}{self.numbers[handle]}"
        return f"{self.letter}{self.gone[handle]}(gone)" if handle in self.gone else handle

    def drop(self, handle):
        if handle in self.numbers:
            self.gone[handle] = self.numbers.pop(handle)


class Calls:
    """The calls of an actor with their answers, as they come."""

    def __init__(self):
        self.lines, self.connections, self.messages = [], Names("c"), Names("m")
        self.call = []

    def take(self, call, outcome):
        if call == ["resume"]:
            self.lines.pop()
        else:
            self.call = call
        self.lines.append(" ".join([*self.named_call(), "->", *self.named_outcome(outcome)]))
        self.drop_gone(outcome)

    def named_call(self):
        word, *operands = self.call
        if word in CONNECTION_CALLS:
            operands[0] = self.connections.name(operands[0])
        elif word in MESSAGE_CALLS:
            operands[0] = self.messages.name(operands[0])
        return [word, *operands]

    def named_outcome(self, outcome):
        if self.call[0] == "connect" and outcome[0] == "value" and not outcome[1].startswith("-"):
            return ["value", self.connections.give(outcome[1])]
        if outcome[0] == "message":
            return [*outcome[:2], self.messages.give(outcome[2]), *outcome[3:]]
        return outcome

    def drop_gone(self, outcome):
        if self.call[0] == "reply" and outcome == ["done"]:
            self.messages.drop(self.call[1])
        elif self.call[0] == "close" and outcome == ["done"]:
            self.connections.drop(self.call[1])


def calls_of(text):
    """The calls of each actor, and the verdicts of the runs."""
    lines, verdicts, now = {}, [], {}
    for line in text.splitlines():
        if VERDICT.fullmatch(line):
            verdicts.append(line.split()[0])
        elif line.startswith("restart "):
            now = {}
            for found in lines.values():
                found.append(line)
        elif " -> " in line:
            (actor, *call), outcome = (part.split() for part in line.split(" -> ", 1))
            if actor not in now:
                now[actor] = Calls()
                now[actor].lines = lines.setdefault(actor, [])
            now[actor].take(call, outcome)
    return lines, verdicts


def differences(old, new, names=None):
    """What differs between two traces, a text for each actor. `names` says what an actor is called."""
    (before, old_verdicts), (after, new_verdicts) = calls_of(old), calls_of(new)
    for actor in sorted(before.keys() | after.keys(), key=lambda name: (name[0], len(name), name)):
        lines = list(difflib.unified_diff(before.get(actor, []), after.get(actor, []), n=1, lineterm=""))[2:]
        if lines:
            changed = sum(line[0] in "+-" for line in lines)
            head = f"{(names or {}).get(actor, actor)}: {changed} lines differ"
            yield "\n".join([head, *("  " + line for line in lines)])
    if old_verdicts != new_verdicts:
        yield f"ends {' and '.join(new_verdicts)}, and {' and '.join(old_verdicts)} was wanted"


def main():
    parser = argparse.ArgumentParser(description=__doc__, formatter_class=argparse.RawDescriptionHelpFormatter)
    parser.add_argument("old", metavar="OLD", type=pathlib.Path)
    parser.add_argument("new", metavar="NEW", type=pathlib.Path)
    arguments = parser.parse_args()
    try:
        found = list(differences(arguments.old.read_text(), arguments.new.read_text()))
    except OSError as error:
        sys.exit(print(f"{error.filename}: {error.strerror}", file=sys.stderr) or 2)
    print("\n".join(found), end="\n" if found else "")
    sys.exit(1 if found else 0)


if __name__ == "__main__":
    main()
