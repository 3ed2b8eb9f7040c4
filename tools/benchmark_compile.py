#!/usr/bin/env python3
"""Times how long the program takes to compile systems near the limits. Run by hand; no test uses it.

    python3 tools/benchmark_compile.py crates/ffm/out/ffm

Makes system files of up to 1 MiB in a temporary folder, and runs `compile` several times on each.
Prints one row per file: its bytes, the least and the middle time in milliseconds, the status, and
the line that the program wrote last. Each kind comes in half and in whole size; with near linear
work the second row of a pair takes about twice the time of the first."""

import argparse
import os
import tempfile

from timing import MAX_FILE_BYTES, compact, timed


def manifest(name, **more):
    return {
        "psa_framework_version": "1.0",
        "name": name,
        "type": "APPLICATION-ROT",
        "priority": "NORMAL",
        "entry_point": "main",
        "stack_size": 1024,
        **more,
    }


def services(start, count, nonsecure):
    return [{"name": f"S{start + i}", "sid": start + i, "non_secure_clients": nonsecure} for i in range(count)]


def pairs(clients, partitions):
    """As many permitted pairs as there may be: each client and each service, with no connection but one."""
    names = [f"N{k}" for k in range(clients)]
    counts = [{"client": n, "service": f"S{s}", "count": 0} for n in names for s in range(partitions * 28)]
    counts[0]["count"] = 256
    manifests = [manifest(f"P{k}", services=services(28 * k, 28, True)) for k in range(partitions)]
    return {"isolation_level": 3, "manifests": manifests, "clients": names, "connections": counts}


def mmio(items):
    """MMIO regions of one byte each, of 32 partitions, from the highest address down."""
    per = items // 32
    manifests = []
    for k in range(32):
        mine = [{"base": 0x7000_0000 - 2 * (k * per + i), "size": 1, "permission": "READ-ONLY"} for i in range(per)]
        manifests.append(manifest(f"P{k}", mmio_regions=mine))
    return {"isolation_level": 3, "manifests": manifests}


def named(items):
    """MMIO items by the names of as many regions; the last two items name one region."""
    regions = [{"name": f"R{i}", "base": 0x7000_0000 + 16 * i, "size": 16} for i in range(items)]
    mine = [{"name": f"R{i}", "permission": "READ-WRITE"} for i in range(items)]
    mine[-1] = mine[-2]
    return {"isolation_level": 3, "manifests": [manifest("P", mmio_regions=mine)], "regions": regions}


def dependencies(partitions):
    """Partitions that depend on a service of each partition in front, and the last one on itself."""
    manifests = []
    for k in range(partitions):
        on = [f"S{j}" for j in range(k)]
        manifests.append(manifest(f"P{k}", services=services(k, 1, False), dependencies=on))
    manifests[0]["dependencies"] = [f"S{partitions - 1}"]
    return {"isolation_level": 3, "manifests": manifests}


def interrupts(sources):
    """Interrupts of 255 partitions, of which the last one repeats an earlier one's SID, or is one too many."""
    per = sources // 255
    manifests = [manifest(f"P{k}", irqs=[{"source": k * per + i, "signal": "A"} for i in range(per)]) for k in range(255)]
    return {"isolation_level": 3, "manifests": manifests}


KINDS = [
    ("pairs of a client and a service", lambda part: pairs(16 if part == 2 else 8, 32)),
    ("MMIO regions by addresses", lambda part: mmio(8_700 * part)),
    ("MMIO regions by names, the last one twice", lambda part: named(5_500 * part)),
    ("dependencies with a circle", lambda part: dependencies(128 * part)),
    ("interrupts of too many partitions", lambda part: interrupts(3_500 * part)),
]


def main():
    words = argparse.ArgumentParser(description=__doc__.splitlines()[0])
    words.add_argument("program")
    words.add_argument("--repeats", type=int, default=5)
    asked = words.parse_args()
    program = os.path.abspath(asked.program)
    for name, make in KINDS:
        for part in (1, 2):
            text = compact(make(part))
            if len(text) > MAX_FILE_BYTES:
                raise SystemExit(f"{name}: {len(text)} bytes")
            with tempfile.TemporaryDirectory() as folder:
                path = os.path.join(folder, "system.json")
                with open(path, "w") as file:
                    file.write(text)
                times, status, last = timed(program, ["compile", path], asked.repeats)
            middle = times[len(times) // 2]
            print(f"{name:45} {len(text):9} {times[0]:8.1f} {middle:8.1f} {status} {last[:70]}")


if __name__ == "__main__":
    main()
