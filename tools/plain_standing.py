#!/usr/bin/env python3
"""A second reading of the last part of `ffm_view state`: what each script calls next, after the first entries of a trace.

    python3 tools/plain_standing.py SYSTEM SCENARIO TRACE PLACE [--json]

With --json it prints the member `scripts` of `ffm_view state --json`. Written from docs/view.md alone: it shares nothing
with the program. The scripts are those of plain_script.py. Functions of the model SFN are not told: of a scenario that has
some, nothing is."""

import argparse
import json
import pathlib

from plain_machine import BLOCKED, PANICKED, read_scenario, read_system, read_trace
from plain_script import RESUME, SPENT, Functions, Threads, plans_of

HEADING = "scripts, each with what it calls next and its registers that aren't 0\n"
ENDS = {("stop", "end"): "ended", SPENT: "ended, its local lines spent"}


class FunctionsToldNowhere(Exception):
    """A partition has functions."""


def line_of(script, lines):
    """What a script calls next, from one of these lines of the scenario: the members that tell it."""
    call = script.next_call() if not script.blocked else script.call
    if script.at >= len(script.lines):
        return {"ended": "ended"}
    registers = [{"register": f"r{k}", "value": value} for k, value in enumerate(script.registers) if value]
    return {"line": script.at, "text": lines[script.at], "registers": registers, "is_spent": call == SPENT}


def rows_of(plan, lines):
    """The contexts of a client, or the script of a partition: which it is, with whether it calls next, and what is told."""
    if not isinstance(plan, Threads):
        return [(None, line_of(plan, lines[0]))]
    if len(plan.scripts) == 1:
        return [(None, line_of(plan.scripts[0], lines[0]))]
    plan.next_call()
    going = any([plan.blocked or script.next_call()[0] != "stop" for script in plan.scripts])
    contexts = [{"number": k, "calls_next": going and k == plan.caller} for k in range(len(plan.scripts))]
    return [(context, line_of(script, lines[k])) for k, (context, script) in enumerate(zip(contexts, plan.scripts))]


def told_of(entries, plan, actor, lines):
    """What is told of an actor after these entries."""
    for place, (by, call, outcome) in enumerate(entries, 1):
        if by != actor:
            continue
        if plan.next_call() != call:
            return [(None, {"left_at": place})]
        plan.answered(outcome)
        if outcome[0] == "panicked":
            return [(None, {"ended": "panicked"})]
        if call in ENDS:
            return [(None, {"ended": ENDS[call]})]
    return rows_of(plan, lines)


def standings(system, scenario, trace, place, stand=pathlib.Path()):
    """The actors with a script after so many entries of a trace, each with its word and its name, and what is told; and how
    wide the widest name is."""
    said = read_system(system, stand)
    entries, _ = read_trace(said, (stand / trace).read_bytes())
    tree, told = json.loads((stand / system).read_text()), json.loads((stand / scenario).read_text())
    manifests = [json.loads((stand / item).read_text()) if isinstance(item, str) else item for item in tree["manifests"]]
    partitions, clients = [manifest["name"] for manifest in manifests], tree.get("clients", [])
    names = partitions + clients
    words = [f"p{k}" for k in range(1, len(partitions) + 1)] + [f"n{k}" for k in range(1, len(clients) + 1)]
    rows = []
    for actor, (word, name, plan) in enumerate(zip(words, names, plans_of(said, tree, manifests, told))):
        lines = [script["lines"] for script in told.get("scripts", []) if script["actor"] == name]
        if lines and isinstance(plan, Functions):
            raise FunctionsToldNowhere(name)
        rows += [(word, name, *row) for row in told_of(entries[:place], plan, actor, lines)] if lines else []
    return rows, max(map(len, names + (["device"] if said.sources else [])), default=0)


def words_of(row):
    """What is told, in a line's words."""
    if "left_at" in row:
        return f"left its script at entry {row['left_at']}"
    if "ended" in row:
        return row["ended"]
    registers = [f"  {item['register']} {value if (value := item['value']) < 65536 else f'0x{value:08x}'}" for item in row["registers"]]
    spent = "  its local lines are spent" if row["is_spent"] else ""
    return f"line {row['line']:<4}{row['text']:<44}{''.join(registers) or '  -'}{spent}"


def section(*place_and_files):
    """The last part of the state after so many entries of a trace, as seen from the folder `stand`; None where a partition
    has functions."""
    try:
        rows, width = standings(*place_and_files)
    except FunctionsToldNowhere:
        return None
    text = HEADING if rows else ""
    for _, name, context, row in rows:
        mark, number = ("> " if context["calls_next"] else "  ", f".{context['number']}") if context else ("  ", "")
        text += f"{mark}{name + number:<{width + 4}}{words_of(row)}\n"
    return text


NOTHING_TOLD = {"line": None, "text": None, "call": None, "registers": [], "is_spent": False, "ended": None, "left_at": None}


def member(*place_and_files):
    """The member `scripts` of the same state as JSON; False where a partition has functions."""
    try:
        rows, _ = standings(*place_and_files)
    except FunctionsToldNowhere:
        return False
    told = [{**NOTHING_TOLD, "actor": {"id": word, "name": name}, "context": context, **row} for word, name, context, row in rows]
    return told or None


def main():
    parser = argparse.ArgumentParser(description=__doc__, formatter_class=argparse.RawDescriptionHelpFormatter)
    for name in ("system", "scenario", "trace"):
        parser.add_argument(name, metavar=name.upper())
    parser.add_argument("place", metavar="PLACE", type=int)
    parser.add_argument("--json", action="store_true", help="print the member `scripts`")
    asked = parser.parse_args()
    files = asked.system, asked.scenario, asked.trace, asked.place
    if not asked.json:
        print(section(*files) or "", end="")
    elif (told := member(*files)) is not False:
        print(json.dumps(told, separators=(",", ":"), sort_keys=True, ensure_ascii=False))


if __name__ == "__main__":
    main()
