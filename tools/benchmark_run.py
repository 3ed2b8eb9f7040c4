#!/usr/bin/env python3
"""Times whole runs of the program, and the judging of their traces. Run by hand; no test uses it.

    python3 tools/benchmark_run.py crates/ffm/out/ffm

Makes a system of 16 partitions with a service each and 16 clients, each of which sends requests with
a vector of four bytes each way to its own service without end, and runs it for 65,536, 131,072 and
262,144 events, several times each, into a file; then the trace is judged and audited as often, and then the
same runs are made with a thread for each actor. Prints one row for each command: the events, the bytes of the
trace, the least and the middle time in milliseconds, the most memory in MB, and the last line. At the end it
times the judging and auditing of the longest run where the first partition also has 15 MiB of registers, so that
the memory of all regions is near its limit (rows replay+ and audit+), and then the largest generated run."""

import argparse
import json
import os
import subprocess
import tempfile
import time

ACTORS = 16
# MMIO regions of 1 MiB each, for a memory near the limit of 16 MiB
LARGE_REGIONS = 15
EVENTS = (65_536, 131_072, 262_144)


def hexadecimal(number):
    return f"0x{number:08x}"


def system(large=0):
    """The system, whose first partition has so many MMIO regions of 1 MiB."""
    names = [f"R{i}" for i in range(large)]
    manifests = [
        {
            "psa_framework_version": "1.0",
            "name": f"P{i}",
            "type": "APPLICATION-ROT",
            "priority": "NORMAL",
            "entry_point": "main",
            "stack_size": "0x400",
            "services": [{"name": f"S{i}", "sid": hexadecimal(0x1000 + i), "non_secure_clients": True}],
        }
        for i in range(1, ACTORS + 1)
    ]
    manifests[0]["mmio_regions"] = [{"name": name, "permission": "READ-WRITE"} for name in names]
    regions = [
        {"name": name, "base": hexadecimal(0x40000000 + 0x100000 * i), "size": "0x100000"} for i, name in enumerate(names)
    ]
    clients = [f"N{i}" for i in range(1, ACTORS + 1)]
    return {"isolation_level": 3, "manifests": manifests, "clients": clients, "regions": regions}


def client_lines(i, base):
    vectors = f"{hexadecimal(base)} 1 {hexadecimal(base + 8)} 1"
    return [f"connect {hexadecimal(0x1000 + i)} 1", "set r5 r0", "again:", f"call r5 0 {vectors}", "jmp again"]


def partition_lines(base):
    return [
        "top:",
        "wait 0xffffffff 0x80000000",
        f"get r0 {hexadecimal(base)}",
        "jeq r1 0 request",
        "reply r2 0",
        "jmp top",
        "request:",
        f"read r2 0 {hexadecimal(base + 0x100)} 4",
        f"write r2 0 {hexadecimal(base + 0x100)} 4",
        "reply r2 0",
        "jmp top",
    ]


def little_endian(*words):
    return "".join(word.to_bytes(4, "little").hex() for word in words)


def scenario(events):
    scripts, memory = [], []
    for i in range(1, ACTORS + 1):
        base = 0x20000000 + 0x100 * (i - 1)
        scripts.append({"actor": f"N{i}", "lines": client_lines(i, base)})
        scripts.append({"actor": f"P{i}", "lines": partition_lines(0x30000000 + 0x400 * (i - 1))})
        memory.append({"address": base, "bytes": little_endian(base + 0x20, 4, base + 0x30, 4)})
    return {"event_limit": events, "scripts": scripts, "memory": memory}


def most_memory(command, output):
    """The most memory of a run in MB. `/usr/bin/time` starts it: by a child of its own the script would count, too."""
    with open(output, "wb") as out:
        told = subprocess.run(["/usr/bin/time", "-f", "%M", *command], stdout=out, stderr=subprocess.PIPE, check=False)
    return int(told.stderr.split()[-1]) / 1000


def timed(command, output, repeats):
    """The times of some runs of a command in milliseconds, the most memory of one more in MB, and its last line."""
    times = []
    for _ in range(repeats):
        with open(output, "wb") as out:
            start = time.perf_counter()
            subprocess.run(command, stdout=out, check=False)
            times.append((time.perf_counter() - start) * 1000)
    memory = most_memory(command, output)
    with open(output, "rb") as text:
        return sorted(times), memory, text.read().splitlines()[-1].decode()


def row(name, events, size, measured):
    times, memory, last = measured
    print(f"{name:>7} {events:>8} {size:>10} {times[0]:8.1f} {times[len(times) // 2]:8.1f} {memory:6.1f}  {last}")


def main():
    arguments = argparse.ArgumentParser(description=__doc__.splitlines()[0])
    arguments.add_argument("program")
    arguments.add_argument("--repeats", type=int, default=9)
    options = arguments.parse_args()
    with tempfile.TemporaryDirectory() as folder:
        files = [os.path.join(folder, name) for name in ("system.json", "scenario.json", "trace")]
        judged = os.path.join(folder, "judged")
        with open(files[0], "w", encoding="utf-8") as file:
            json.dump(system(), file)
        for events in EVENTS:
            with open(files[1], "w", encoding="utf-8") as file:
                json.dump(scenario(events), file)
            ran = timed([options.program, "run", *files[:2]], files[2], options.repeats)
            size = os.path.getsize(files[2])
            row("run", events, size, ran)
            for word in ("replay", "audit"):
                row(word, events, size, timed([options.program, word, *files], judged, options.repeats))
            threaded = timed([options.program, "run", "--threads", *files[:2]], files[2], options.repeats)
            row("threads", events, os.path.getsize(files[2]), threaded)
        with open(files[0], "w", encoding="utf-8") as file:
            json.dump(system(LARGE_REGIONS), file)
        with open(files[2], "wb") as file:
            subprocess.run([options.program, "run", *files[:2]], stdout=file, check=False)
        for word in ("replay", "audit"):
            large = timed([options.program, word, *files], judged, options.repeats)
            row(f"{word}+", EVENTS[-1], os.path.getsize(files[2]), large)
        made = timed([options.program, "make", "2000"], judged, options.repeats)
        row("make", int(made[2].split()[3]), 0, made)


if __name__ == "__main__":
    main()
