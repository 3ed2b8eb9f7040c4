#!/usr/bin/env python3
"""Times the look-ups of large systems: regions by their addresses, and budgets by client and service.

    python3 tools/benchmark_lookups.py [--repeats N] crates/ffm/out/ffm

Makes the files in a folder of their own, runs all of the works in turn, N times (3), and prints for each the
processor seconds, the least, the middle and the most. A system has 576,000 regions in 32 manifest files: a scenario
of one load of the last region, one of 4,096 loads of it, and one of 20,000 pieces of opening memory in it. The one
load also in a system of half as many of these files, and in one with files of half as many regions. Another system
has 14,336 permitted pairs of count 0, and 16 clients that connect and ask for versions, 65,584 events in all, which
are run and judged."""

import argparse
import pathlib
import resource
import statistics
import subprocess
import tempfile

from timing import compact

REGIONS = 18_000
PARTITIONS, SERVICES, CLIENTS = 32, 28, 16
FIRST, STEP = 0x40000000, 8


def manifest(name, **more):
    return {"psa_framework_version": "1.0", "name": name, "type": "APPLICATION-ROT", "priority": "NORMAL",
            "entry_point": "main", "stack_size": "0x100", **more}


def write(folder, name, value):
    (folder / name).write_text(compact(value))
    return name


def regions(folder, name, partitions=PARTITIONS, each=REGIONS):
    """A system with so many regions in each of its manifest files, and the address of the last region."""
    names = []
    for p in range(partitions):
        first = FIRST + p * each * STEP
        items = [{"base": first + k * STEP, "size": 4, "permission": "READ-WRITE"} for k in range(each)]
        names.append(write(folder, f"{name}_{p}.json", manifest(f"P{p}", mmio_regions=items)))
    write(folder, f"{name}.json", {"isolation_level": 1, "manifests": names, "clients": ["NS"]})
    return FIRST + partitions * each * STEP - STEP


def loads(folder, name, partitions, last, count, **more):
    """A scenario in which the last partition loads from the last region so many times."""
    scripts = [{"actor": f"P{partitions - 1}", "lines": [f"load {last} 4"] * count}]
    return write(folder, name, {"event_limit": 5000, "scripts": scripts, **more})


def pairs(folder):
    """A system of many permitted pairs, and a scenario that asks for them."""
    names = []
    for p in range(PARTITIONS):
        services = [{"name": f"S{p}_{k}", "sid": p * SERVICES + k + 1, "non_secure_clients": True} for k in range(SERVICES)]
        names.append(write(folder, f"services_{p}.json", manifest(f"P{p}", services=services)))
    clients = [f"N{c}" for c in range(CLIENTS)]
    counts = [{"client": c, "service": f"S{p}_{k}", "count": 0}
              for c in clients for p in range(PARTITIONS) for k in range(SERVICES)]
    write(folder, "pairs.json", {"isolation_level": 1, "manifests": names, "clients": clients, "connections": counts})
    total = PARTITIONS * SERVICES
    lines = [line for i in range(2048) for line in (f"connect {total - i % total} 1", f"version {total - i % total}")]
    write(folder, "asking.json", {"event_limit": 262144, "scripts": [{"actor": c, "lines": lines} for c in clients]})


def works(folder):
    """What is timed, with its words."""
    last = regions(folder, "all")
    half = regions(folder, "fewer", partitions=PARTITIONS // 2)
    short = regions(folder, "shorter", each=REGIONS // 2)
    pieces = [{"address": last, "bytes": "0102"}] * 20_000
    pairs(folder)
    return {
        "one load": ["run", "all.json", loads(folder, "one.json", PARTITIONS, last, 1)],
        "one load, half as many files": ["run", "fewer.json", loads(folder, "half.json", PARTITIONS // 2, half, 1)],
        "one load, files of half the length": ["run", "shorter.json", loads(folder, "short.json", PARTITIONS, short, 1)],
        "4,096 loads of the last region": ["run", "all.json", loads(folder, "many.json", PARTITIONS, last, 4096)],
        "20,000 pieces of opening memory": ["run", "all.json", loads(folder, "pieces.json", PARTITIONS, last, 1, memory=pieces)],
        "connect and version over 14,336 pairs": ["run", "pairs.json", "asking.json"],
        "their trace judged": ["replay", "pairs.json", "asking.json", "trace.txt"],
    }


def timed(program, folder, words):
    """The processor seconds of one run, and what it wrote."""
    before = resource.getrusage(resource.RUSAGE_CHILDREN)
    done = subprocess.run([program, *words], cwd=folder, stdout=subprocess.PIPE, check=True)
    after = resource.getrusage(resource.RUSAGE_CHILDREN)
    return after.ru_utime + after.ru_stime - before.ru_utime - before.ru_stime, done.stdout


def main():
    parser = argparse.ArgumentParser()
    parser.add_argument("--repeats", type=int, default=3)
    parser.add_argument("program", type=pathlib.Path)
    given = parser.parse_args()
    with tempfile.TemporaryDirectory() as name:
        folder = pathlib.Path(name)
        times, said = {}, {}
        labelled = works(folder)
        for _ in range(given.repeats):
            for label, words in labelled.items():
                seconds, text = timed(str(given.program.resolve()), folder, words)
                times.setdefault(label, []).append(seconds)
                said[label] = text.decode().splitlines()[-1]
                if words[1] == "pairs.json" and words[0] == "run":
                    (folder / "trace.txt").write_bytes(text)
        for label, seconds in times.items():
            least, middle, most = min(seconds), statistics.median(seconds), max(seconds)
            print(f"{label:38} {least:6.2f} {middle:6.2f} {most:6.2f} s   {said[label]}")


if __name__ == "__main__":
    main()
