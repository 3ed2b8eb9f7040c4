"""Follows a trace by the scripts of its scenario: which line of which script made each call, and what came of it.

The traces of several runs stand one after the other with a line `restart K` between them, as `ffm run` writes them."""

import re
from dataclasses import dataclass

from plain_machine import CALLS, OUTCOMES, PANICKED, Machine, read_trace
from plain_run import after_reset, words_of_entry
from plain_script import RESUME, plans_of


class NotFollowed(Exception):
    """A trace that isn't one of these scripts, and why."""


@dataclass
class Event:
    """A call with what came of it at last, the script and the line that made it, or None, and the lines of the trace."""
    actor: int
    call: tuple
    outcome: tuple
    place: tuple | None
    lines: list

    def text(self):
        return words_of_entry(self.call, CALLS)

    def answer(self):
        return words_of_entry(self.outcome, OUTCOMES)


@dataclass
class Followed:
    """The calls of a run in the order of their first lines, its verdict, and which partitions are panicked at its end."""
    events: list
    verdict: str
    panicked: list


def parts_of(text):
    """The traces of the runs, each with the number of lines before it."""
    parts, before = re.split(r"^restart [0-9]+\n", text, flags=re.MULTILINE), 0
    for part in parts:
        yield before, part
        before += part.count("\n") + 1


def follow(system, plans, memory, text, before):
    """Follows the trace of one run, whose first line stands after `before` others."""
    read = read_trace(system, text.encode())
    if isinstance(read, int):
        raise NotFollowed(f"line {before + read} is no line of a trace")
    entries, verdict = read
    machine, names = Machine(system, memory), list(system.actors())
    events, last = [], {}
    for line, entry in enumerate(entries, before + 1):
        actor, call, outcome = entry
        due = plans[actor].next_call()
        if due != call:
            made, wanted = words_of_entry(call, CALLS), words_of_entry(due, CALLS)
            raise NotFollowed(f"line {line}: {names[actor]} makes `{made}`, and its script `{wanted}`")
        if not machine.step(entry):
            raise NotFollowed(f"line {line}: the plain machine doesn't answer so")
        if call == RESUME:
            last[actor].outcome = outcome
            last[actor].lines.append(line)
        else:
            last[actor] = Event(actor, call, outcome, plans[actor].place, [line])
            events.append(last[actor])
        plans[actor].answered(outcome)
    return Followed(events, verdict, [k for k, phase in enumerate(machine.phases) if phase == PANICKED]), machine.memory


def follow_all(system, tree, manifests, scenario, memory, text):
    """Follows each run of a text."""
    opening, followed = memory, []
    for before, part in parts_of(text):
        run, memory = follow(system, plans_of(system, tree, manifests, scenario), memory, part, before)
        followed.append(run)
        memory = after_reset(system, opening, memory)
    return followed
