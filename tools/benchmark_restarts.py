#!/usr/bin/env python3
"""Measures the memory of runs that follow each other. Run by hand; no test uses it.

    python3 tools/benchmark_restarts.py crates/ffm/out/ffm

Makes a logger with a flash and a client that sends it requests until the logger panics. The run then ends by
itself, with exactly 262,144 events: as many as a run may have, and another one follows. Runs it with 0, 1, 3, 7 and
15 restarts, several times each, into a file. Prints one row for each: the runs, the events of all of them, the bytes
of the text, the least and the middle time in milliseconds, the most memory in MB, and the last line."""

import argparse
import json
import os
import subprocess
import tempfile

from benchmark_run import timed

EVENTS = 262_144
RESTARTS = (0, 1, 3, 7, 15)
# call, and its return; the logger's return from its wait, its get and reply, and its next wait
EVENTS_OF_A_REQUEST = 6

SYSTEM = {
    "isolation_level": 3,
    "manifests": [
        {
            "psa_framework_version": 1.0,
            "name": "LOG",
            "type": "PSA-ROT",
            "priority": "NORMAL",
            "entry_point": "log_main",
            "stack_size": "0x400",
            "mmio_regions": [{"name": "FLASH", "permission": "READ-WRITE"}],
            "services": [{"name": "LOG", "sid": "0x40", "non_secure_clients": True}],
        }
    ],
    "regions": [{"name": "FLASH", "base": "0x40000000", "size": "0x100"}],
    "clients": ["NS"],
}


def logger_lines(loads):
    """The flash counts the starts. At a request of type 7 the logger looks at its flash so many times, and then writes
    to a client that gave no output vector, which is a PROGRAMMER ERROR."""
    return [
        "load 0x40000000 4",
        "add r0 1",
        "store 0x40000000 4 r0",
        "next:",
        "wait 0xffffffff 0x80000000",
        "get r0 0x30000000",
        "jeq r1 7 mistake",
        "reply r2 0",
        "jmp next",
        "mistake:",
        *["load 0x40000000 4"] * loads,
        "write r2 0 0x30000100 4",
    ]


def client_lines(requests):
    return [
        "connect 0x40 1",
        "set r5 r0",
        "again:",
        "call r5 1 0 0 0 0",
        "add r6 1",
        f"jlt r6 {requests} again",
        "call r5 7 0 0 0 0",
    ]


def scenario(requests, loads, restarts):
    return {
        "event_limit": EVENTS,
        "scripts": [
            {"actor": "LOG", "lines": logger_lines(loads)},
            {"actor": "NS", "lines": client_lines(requests)},
        ],
        "restarts": restarts,
    }


def write_json(name, tree):
    with open(name, "w", encoding="utf-8") as file:
        json.dump(tree, file)


def longest(command, name):
    """How many requests and loads make a run of exactly the most events: those of one request, and the rest."""
    write_json(name, scenario(1, 0, 0))
    last = subprocess.run(command, capture_output=True, check=True, text=True).stdout.splitlines()[-1]
    more = EVENTS - int(last.removeprefix("quiet "))
    return 1 + more // EVENTS_OF_A_REQUEST, more % EVENTS_OF_A_REQUEST


def check_runs(name, restarts):
    """Each run ended by itself with the most events, and all runs are there."""
    with open(name, encoding="ascii") as text:
        ends = [line.rstrip("\n") for line in text if line.startswith(("quiet", "stalled", "full", "restart"))]
    wanted = [f"quiet {EVENTS}"]
    for k in range(1, restarts + 1):
        wanted += [f"restart {k}", f"quiet {EVENTS}"]
    assert ends == wanted, ends


def main():
    arguments = argparse.ArgumentParser(description=__doc__.splitlines()[0])
    arguments.add_argument("program")
    arguments.add_argument("--repeats", type=int, default=5)
    options = arguments.parse_args()
    with tempfile.TemporaryDirectory() as folder:
        system, given, trace = (os.path.join(folder, name) for name in ("system.json", "scenario.json", "trace"))
        command = [options.program, "run", system, given]
        write_json(system, SYSTEM)
        requests, loads = longest(command, given)
        for restarts in RESTARTS:
            write_json(given, scenario(requests, loads, restarts))
            times, memory, last = timed(command, trace, options.repeats)
            check_runs(trace, restarts)
            runs = restarts + 1
            size = os.path.getsize(trace)
            print(
                f"{runs:>3} {runs * EVENTS:>8} {size:>10} {times[0]:8.1f} {times[len(times) // 2]:8.1f} {memory:6.1f}  {last}"
            )


if __name__ == "__main__":
    main()
