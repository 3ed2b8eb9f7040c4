#!/usr/bin/env python3
"""Times the search of ffm_explore, a step of it against an event that `ffm replay` judges. Run by hand; no test uses it.

    python3 tools/benchmark_explore.py crates/ffm_explore/out/ffm_explore crates/ffm/out/ffm

Explores the interleavings of examples, one case of stored_cases each, up to so many states, and judges the longest trace
of benchmark_run.py, each several times. Prints one row for each: the states, the steps or events, the least and the
middle processor time in milliseconds, the microseconds of one step or event by the least time, and the most memory in
MB. The last line says how many events of the trace are judged in the time of one step of the first example."""

import argparse
import json
import os
import pathlib
import subprocess
import tempfile

from benchmark_run import EVENTS, scenario, system

TOP = pathlib.Path(__file__).resolve().parents[1]
CASES = ("guided/serial_driver",)
STATES = 1_000_000


def measured(command, output):
    """The processor time of a run in milliseconds and its most memory in MB."""
    with open(output, "wb") as out:
        child = subprocess.Popen(command, stdout=out, stderr=subprocess.DEVNULL)
        used = os.wait4(child.pid, 0)[2]
    child.returncode = 0
    return (used.ru_utime + used.ru_stime) * 1000, used.ru_maxrss / 1000


def row(name, states, count, runs):
    """Prints what some runs took, and returns the microseconds of one of the `count` steps or events."""
    times, memory = sorted(time for time, _ in runs), max(memory for _, memory in runs)
    each = times[0] * 1000 / count
    print(f"{name:>24} {states:>8} {count:>8} {times[0]:9.1f} {times[len(times) // 2]:9.1f} {each:8.3f} {memory:6.1f}")
    return each


def explored(program, case, states, repeats, output):
    """The microseconds of a step of the search through a case's interleavings."""
    folder = TOP / "crates/stored_cases/data" / case
    files = [str(folder / name) for name in ("system.json", "scenario.json")]
    runs = [measured([program, "all", *files, "--states", str(states)], output) for _ in range(repeats)]
    with open(output, encoding="utf-8") as text:
        words = text.readline().split()
    if words[::2] != ["states", "steps"]:
        raise SystemExit(f"{case}: not explored")
    return row(case, int(words[1]), int(words[3]), runs)


def judged(program, repeats, folder):
    """The microseconds of an event of a long trace."""
    files = [os.path.join(folder, name) for name in ("system.json", "scenario.json", "trace")]
    for path, value in zip(files, (system(), scenario(EVENTS[-1]))):
        with open(path, "w", encoding="utf-8") as file:
            json.dump(value, file)
    measured([program, "run", *files[:2]], files[2])
    runs = [measured([program, "replay", *files], os.path.join(folder, "judged")) for _ in range(repeats)]
    return row("replay", 0, EVENTS[-1], runs)


def main():
    arguments = argparse.ArgumentParser(description=__doc__.splitlines()[0])
    arguments.add_argument("explore", help="the proved program ffm_explore")
    arguments.add_argument("ffm", help="the proved program ffm")
    arguments.add_argument("--states", type=int, default=STATES, help=f"the most states of a search, by default {STATES}")
    arguments.add_argument("--repeats", type=int, default=3, help="how often each is run, by default 3 times")
    arguments.add_argument("--cases", nargs="+", default=CASES, metavar="AREA/CASE", help=f"by default {' '.join(CASES)}")
    options = arguments.parse_args()
    with tempfile.TemporaryDirectory() as folder:
        output = os.path.join(folder, "told")
        steps = [explored(options.explore, case, options.states, options.repeats, output) for case in options.cases]
        event = judged(options.ffm, options.repeats, folder)
    print(f"a step of {options.cases[0]} takes the time of {steps[0] / event:.1f} events")


if __name__ == "__main__":
    main()
