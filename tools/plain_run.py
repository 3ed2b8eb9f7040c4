#!/usr/bin/env python3
"""A plain reading of a run, to compare `ffm run` with.

    python3 tools/plain_run.py SYSTEM SCENARIO

Writes the trace that `ffm run` has to write for these files, and ends with the status that it has to give. Like
plain_machine.py, on which it rests, it is a model for readers that shares nothing with the program, and it takes files
that hold by the rules of the formats: it looks for no broken rule and no wrong script line. `run --threads` it hasn't."""

import argparse
import itertools
import json
import pathlib
import sys

from plain_machine import CALLS, OUTCOMES, PANICKED, Machine, NotTaken, read_scenario, read_system, taken
from plain_script import plans_of

STATUS = {"quiet": 0, "stalled": 4, "full": 5}
INDICES, FIRST_MESSAGE = 1024, 512


class Names:
    """The names of the connections, or of the messages, that were made so far: those that a run of the program gives
    as handles. `first` is that of the index 0 in the first generation."""

    def __init__(self, first):
        self.first = first
        self.indices, self.generations, self.names = {}, {}, {}

    def follow(self, objects):
        """Takes in the objects that are there after an event, in the order of their making."""
        self.indices = {made: index for made, index in self.indices.items() if made in objects}
        for made in objects:
            if made not in self.indices:
                index = min(set(range(len(self.indices) + 1)) - set(self.indices.values()))
                self.indices[made] = index
                self.generations[index] = self.generations.get(index, 0) + 1
                self.names[made] = self.first + (self.generations[index] - 1) * INDICES + index


class Run:
    """A run of a system from a memory, whose actors follow plans."""

    def __init__(self, system, memory, plans):
        self.machine, self.plans = Machine(system, memory), plans
        self.connections, self.messages = Names(INDICES), Names(INDICES + FIRST_MESSAGE)
        self.entries = []

    def due_handle(self, actor, call):
        """The handle that the event gives, if it gives one."""
        machine = self.machine
        if call[0] == "resume" and machine.phases[actor][0] == "connected":
            return self.connections.names[machine.phases[actor][1]]
        if call[0] == "get":
            served = [k for k in machine.system.services_of(actor) if machine.system.services[k].signal == call[1]]
            waiting = [message for message in machine.messages if message.service in served and not message.handle]
            return self.messages.names[waiting[0]] if waiting else 0
        return 0

    def turn(self, actor):
        """The event of an enabled actor."""
        call = self.plans[actor].next_call()
        outcome = self.machine.answer(actor, call, self.due_handle(actor, call))
        self.plans[actor].answered(outcome)
        self.entries.append((actor, call, outcome))
        self.connections.follow(self.machine.connections)
        self.messages.follow(self.machine.messages)

    def to_its_end(self, schedule, limit):
        """Gives the turns until there is a verdict."""
        turns = itertools.chain(schedule, itertools.cycle(range(len(self.plans))))
        while (verdict := self.machine.verdict(len(self.entries), limit)) is None:
            actor = next(turns)
            if self.machine.enabled(actor):
                self.turn(actor)
        return verdict


def text_of(field, value):
    return f"0x{value:08x}" if field == "h" else str(value)


def words_of_entry(part, forms):
    return " ".join([part[0], *(text_of(field, value) for field, value in zip(forms[part[0]], part[1:]))])


def trace_of(system, entries, verdict):
    """The text of a trace."""
    names = list(system.actors())
    lines = [f"{names[actor]} {words_of_entry(call, CALLS)} -> {words_of_entry(outcome, OUTCOMES)}" for actor, call, outcome in entries]
    return "\n".join([*lines, f"{verdict} {len(entries)}"]) + "\n"


def after_reset(system, opening, memory):
    """The memory of the next run: that of device registers stays, and all other is as at first."""
    def is_register(address):
        return any(base <= address < base + size for regions in system.mmio for base, size, _ in regions)
    kept = {address: byte for address, byte in memory.items() if is_register(address)}
    return {address: byte for address, byte in opening.items() if not is_register(address)} | kept


def runs(system, tree, manifests, scenario, limit, memory):
    """The trace of each run, and the verdict of the last."""
    names = [manifest["name"] for manifest in manifests] + tree.get("clients", []) + ["device"]
    schedule = [names.index(name) for name in scenario.get("schedule", [])]
    opening, left = memory, scenario.get("restarts", 0)
    while True:
        run = Run(system, memory, plans_of(system, tree, manifests, scenario))
        verdict = run.to_its_end(schedule, limit)
        yield trace_of(system, run.entries, verdict), verdict
        if verdict == "full" or left == 0 or PANICKED not in run.machine.phases:
            return
        memory, left = after_reset(system, opening, run.machine.memory), left - 1


def answer_of_files(system, scenario, stand=pathlib.Path()):
    """What `ffm run` answers for the files of these names, as seen from the folder `stand`: the status and the text."""
    said = taken(system, lambda name: read_system(name, stand))
    limit, memory = taken(scenario, lambda name: read_scenario(stand / name))
    tree = json.loads((stand / system).read_text())
    manifests = [json.loads((stand / item).read_text()) if isinstance(item, str) else item for item in tree["manifests"]]
    text, verdict = "", "quiet"
    for place, (trace, verdict) in enumerate(runs(said, tree, manifests, json.loads((stand / scenario).read_text()), limit, memory)):
        text += (f"restart {place}\n" if place else "") + trace
    return STATUS[verdict], text


def main():
    parser = argparse.ArgumentParser(description=__doc__, formatter_class=argparse.RawDescriptionHelpFormatter)
    parser.add_argument("system", metavar="SYSTEM")
    parser.add_argument("scenario", metavar="SCENARIO")
    arguments = parser.parse_args()
    try:
        status, text = answer_of_files(arguments.system, arguments.scenario)
    except NotTaken as wrong:
        status, told = wrong.args
        sys.exit(print(told, file=sys.stderr) or status)
    sys.stdout.write(text)
    sys.exit(status)


if __name__ == "__main__":
    main()
