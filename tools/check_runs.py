#!/usr/bin/env python3
"""Runs every scenario in a folder and tells which aren't as wanted.

    python3 tools/check_runs.py DIR [--junit FILE] [--accept] [--ffm PROGRAM]

A test is a file `scenario.json` or `NAME.scenario.json` anywhere below DIR, as ffm takes it or as expand.py does. Its
system is the `system.json` beside it, or else the nearest one in the folders above it. A test fails where

- ffm refuses a file, or ends otherwise than with a trace: the file and the line are told;
- an expectation behind a line of a script fails: the actor, the line and both values are told;
- the run doesn't end `quiet`, or a partition panicks, where the scenario doesn't want it. Its attribute `expect` says
  what is wanted: { "verdict": "stalled", "panics": ["NAME"] };
- a trace stands beside it, `trace.txt` or `NAME.trace.txt`, and the run differs from it in more than handles and the
  order across actors: what differs is told actor by actor.

--accept writes the trace of each test where it differs. The status is 0 where all tests pass, 1 where one fails, and 2
where there is no test or no program."""

import argparse
import pathlib
import sys
import time
import xml.etree.ElementTree as xml
from dataclasses import dataclass, field

import trace_diff
from expand import Case, Wrong, wanted_failures
from ffm_program import NoProgram, program
from followed import NotFollowed
from plain_machine import NotTaken

ENDS = (0, 4, 5)


@dataclass
class Test:
    """A scenario with its system, what came of it, and how long it took."""
    name: str
    scenario: pathlib.Path
    system: pathlib.Path | None
    failures: list = field(default_factory=list)
    seconds: float = 0.0

    def trace(self):
        return self.scenario.with_name(self.scenario.name.removesuffix("scenario.json") + "trace.txt")


def system_of(scenario, top):
    """The nearest system file, from the scenario's folder up to the top."""
    folders = [folder for folder in scenario.parents if folder == top or top in folder.parents]
    return next((folder / "system.json" for folder in folders if (folder / "system.json").is_file()), None)


def tests_below(top):
    found = sorted(path for path in top.rglob("*scenario.json") if path.name == "scenario.json" or path.name.endswith(".scenario.json"))
    for path in found:
        name = str(path.relative_to(top)).removesuffix("scenario.json").strip("/.") or top.name
        yield Test(name, path, system_of(path, top))


def failures_of(test, path, accepts):
    """What isn't as wanted in a test."""
    if test.system is None:
        return ["there is no system.json beside it or above it"]
    case = Case.read(test.system, test.scenario)
    status, text = case.run(path)
    if status not in ENDS:
        return [f"ffm ended with the status {status}: {text.strip() or 'nothing was written'}", *filter(None, [case.refused(text)])]
    failures = wanted_failures(case, text)
    old = test.trace().read_text() if test.trace().is_file() else None
    if accepts and old != text:
        test.trace().write_text(text)
    elif old is not None:
        failures += trace_diff.differences(old, text, case.names_in_traces())
    return failures


def run_test(test, path, accepts):
    begin = time.monotonic()
    try:
        test.failures = failures_of(test, path, accepts)
    except (Wrong, NotFollowed) as wrong:
        test.failures = [str(wrong)]
    except NotTaken as wrong:
        test.failures = [wrong.args[1]]
    test.seconds = time.monotonic() - begin


def tell(test):
    print(("FAILED  " if test.failures else "ok      ") + test.name)
    for line in "\n".join(test.failures).splitlines():
        print("  " + line)


def junit(tests, file):
    """Writes what came in the form that continuous integration reads."""
    failed, seconds = sum(bool(test.failures) for test in tests), sum(test.seconds for test in tests)
    suite = xml.Element("testsuite", name="ffm", tests=str(len(tests)), failures=str(failed), errors="0", time=f"{seconds:.3f}")
    for test in tests:
        words = {"classname": "ffm", "name": test.name, "file": str(test.scenario), "time": f"{test.seconds:.3f}"}
        case = xml.SubElement(suite, "testcase", words)
        if test.failures:
            xml.SubElement(case, "failure", message=test.failures[0].splitlines()[0]).text = "\n".join(test.failures)
    xml.ElementTree(suite).write(file, encoding="utf-8", xml_declaration=True)


def asked():
    parser = argparse.ArgumentParser(description=__doc__, formatter_class=argparse.RawDescriptionHelpFormatter)
    parser.add_argument("folder", metavar="DIR", type=pathlib.Path)
    parser.add_argument("--junit", metavar="FILE", type=pathlib.Path, help="write the results there as JUnit XML")
    parser.add_argument("--accept", action="store_true", help="write the traces that came as those that are wanted")
    parser.add_argument("--ffm", metavar="PROGRAM", help="the program; else the one that ffm_program.py finds")
    return parser.parse_args()


def main():
    arguments = asked()
    try:
        path = program(given=arguments.ffm)
    except NoProgram as wrong:
        sys.exit(print(wrong, file=sys.stderr) or 2)
    tests = list(tests_below(arguments.folder))
    if not tests:
        sys.exit(print(f"{arguments.folder}: no scenario.json below it", file=sys.stderr) or 2)
    for test in tests:
        run_test(test, path, arguments.accept)
        tell(test)
    if arguments.junit is not None:
        junit(tests, arguments.junit)
    failed = sum(bool(test.failures) for test in tests)
    print(f"{len(tests) - failed} passed, {failed} failed")
    sys.exit(1 if failed else 0)


if __name__ == "__main__":
    main()
