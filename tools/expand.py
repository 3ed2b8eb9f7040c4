#!/usr/bin/env python3
"""Makes a scenario file of one that is written for people, with names in place of numbers; runs it, and holds the trace
against what its lines expect.

    python3 tools/expand.py SYSTEM SCENARIO                  writes the scenario as ffm reads it
    python3 tools/expand.py SYSTEM SCENARIO --run            runs it, and tells which expectations fail
    python3 tools/expand.py SYSTEM SCENARIO --trace TRACE    the same of a trace that is there
    python3 tools/expand.py SYSTEM SCENARIO --place /scripts/0/lines/3

A scenario that ffm takes is written unchanged. docs/firmware_tests.md says what else may stand there: names, comments
behind a call, `# expect -> value -129`, scripts in files, `repeat` in a schedule, vectors. Where ffm refuses a scenario,
the file and the line are told where the person wrote it. The status is 1 where the scenario is wrong, 2 where a file
can't be read, 3 where an expectation fails, and else that of ffm."""

import argparse
import json
import pathlib
import sys
import tempfile
from dataclasses import dataclass

from expansion import Expansion, Scenario, Wrong, read_json, read_text
from expectations import differences, wanted_end
from ffm_program import NoProgram, program, run, stand_of
from followed import NotFollowed, follow_all
from json_places import line_of, place_of
from plain_machine import NotTaken, read_system, scenario_of, taken
from scenario_names import Names


def manifests_of(tree, stand):
    return [read_json(stand / item)[1] if isinstance(item, str) else item for item in tree["manifests"]]


@dataclass
class Case:
    """A system with its scenario as ffm reads it; the folder from which the names of manifests lead to their files."""
    system: pathlib.Path
    stand: pathlib.Path
    tree: dict
    manifests: list
    scenario: Scenario

    @classmethod
    def read(cls, system, scenario):
        _, tree = read_json(system)
        stand = taken(system, lambda _: stand_of(system, tree))
        manifests = taken(system, lambda _: manifests_of(tree, stand))
        names = taken(system, lambda _: Names(tree, manifests))
        source, written = read_json(scenario)
        expanded = taken(scenario, lambda _: Expansion(source, written, names).whole())
        return cls(pathlib.Path(system), stand, tree, manifests, expanded)

    def text(self):
        """The scenario's text; that of the person where nothing was to be expanded."""
        tree, text = self.scenario.tree, self.scenario.source.text
        return text if tree == json.loads(text) else json.dumps(tree, indent=2) + "\n"

    def actors(self):
        return [manifest["name"] for manifest in self.manifests] + self.tree.get("clients", []) + ["device"]

    def names_in_traces(self):
        """What each actor of a trace is called."""
        partitions, clients = [manifest["name"] for manifest in self.manifests], self.tree.get("clients", [])
        named = [(f"p{k}", name) for k, name in enumerate(partitions, 1)] + [(f"n{k}", name) for k, name in enumerate(clients, 1)]
        return {word: f"{name} ({word})" for word, name in named}

    def run(self, program):
        """The status and the text of `ffm run`."""
        with tempfile.NamedTemporaryFile("w", suffix=".json") as file:
            file.write(self.text())
            file.flush()
            return run(program, ["run", self.system.resolve(), file.name], self.stand)

    def follow(self, trace):
        """The runs of a trace, followed by the scripts."""
        said = taken(self.system.resolve(), lambda name: read_system(name, self.stand))
        scenario = self.scenario
        _, memory = taken(scenario.source.path, lambda _: scenario_of(scenario.tree))
        return follow_all(said, self.tree, self.manifests, scenario.tree, memory, trace)

    def failures(self, runs):
        """The expectations that fail."""
        def origin(place):
            return self.scenario.origin(("scripts", place[0], "lines", place[1]))
        return list(differences(self.scenario.expected, runs, origin, self.actors()))

    def refused(self, line):
        """The file and the line of a refusal, as the person wrote them; nothing for another text."""
        words = line.split()
        if words[:1] != ["refused"]:
            return ""
        place = place_of(words[4] if len(words) > 4 else "")
        return self.scenario.origin(place) if words[3] == "scenario" else self.origin(place)

    def origin(self, place):
        """The file and the line of a place of the system, which may lie in a manifest in a file of its own."""
        path, named = self.system, self.tree["manifests"]
        if place[:1] == ("manifests",) and place[1:] and isinstance(named[place[1]], str):
            path, place = self.stand / named[place[1]], place[2:]
        source, _ = read_json(path)
        return source.at(line_of(source.text, place))


def wanted_failures(case, trace):
    """The expectations of lines that fail, and what differs from the end that the scenario wants."""
    runs = case.follow(trace)
    return case.failures(runs) + list(wanted_end(case.scenario.wanted, runs, case.actors()))


def judge(case, trace):
    """Tells the expectations of lines that fail; the status."""
    failed = case.failures(case.follow(trace))
    print("\n".join(failed), file=sys.stderr, end="\n" if failed else "")
    return 3 if failed else 0


def run_case(case, given):
    """Runs a case, writes the trace, and tells what fails; the status."""
    status, text = case.run(program(given=given))
    sys.stdout.write(text)
    place = case.refused(text)
    if place:
        print(place, file=sys.stderr)
    return judge(case, text) or status if status in (0, 4, 5) else status


def asked():
    parser = argparse.ArgumentParser(description=__doc__, formatter_class=argparse.RawDescriptionHelpFormatter)
    parser.add_argument("system", metavar="SYSTEM")
    parser.add_argument("scenario", metavar="SCENARIO")
    parser.add_argument("--out", metavar="FILE", type=pathlib.Path, help="write the scenario there")
    parser.add_argument("--run", action="store_true", help="run it, write the trace, and tell which expectations fail")
    parser.add_argument("--trace", metavar="FILE", type=pathlib.Path, help="tell which expectations fail in this trace")
    parser.add_argument("--place", metavar="PLACE", help="tell the file and line of a place that ffm told")
    parser.add_argument("--ffm", metavar="PROGRAM", help="the program; else the one that ffm_program.py finds")
    return parser.parse_args()


def work(arguments):
    case = Case.read(arguments.system, arguments.scenario)
    if arguments.place is not None:
        return print(case.scenario.origin(place_of(arguments.place))) or 0
    if arguments.run:
        return run_case(case, arguments.ffm)
    if arguments.trace is not None:
        return judge(case, read_text(arguments.trace))
    if arguments.out is not None:
        arguments.out.write_text(case.text())
    else:
        sys.stdout.write(case.text())
    return 0


def main():
    try:
        status = work(asked())
    except (Wrong, NotFollowed) as wrong:
        sys.exit(print(wrong, file=sys.stderr) or 1)
    except NotTaken as wrong:
        sys.exit(print(wrong.args[1], file=sys.stderr) or (2 if wrong.args[0] == 7 else 1))
    except NoProgram as wrong:
        sys.exit(print(wrong, file=sys.stderr) or 2)
    sys.exit(status)


if __name__ == "__main__":
    main()
