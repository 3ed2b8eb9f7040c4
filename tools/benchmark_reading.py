#!/usr/bin/env python3
"""Times how long the program takes to read files near their limit. Run by hand; no test uses it.

    python3 tools/benchmark_reading.py crates/ffm/out/ffm

Makes system files and scenario files of half and of the whole limit of 1 MiB in a temporary
folder, and runs the program several times on each. Prints one row per file: its bytes, the
least and the middle time in milliseconds, the status, and the line that the program wrote last.
With linear reading, the second row of each pair takes about twice the time of the first."""

import argparse
import os
import tempfile

from timing import MAX_FILE_BYTES, compact, timed

MOST_LINES = 4096
MOST_MANIFESTS = 256


def padded(text, size):
    """The text with spaces after it, up to a size."""
    if len(text) > size:
        raise SystemExit(f"a made file has {len(text)} bytes and not {size}")
    return text + " " * (size - len(text))


def manifest(name, services):
    return {
        "psa_framework_version": "1.0",
        "name": name,
        "type": "APPLICATION-ROT",
        "priority": "NORMAL",
        "entry_point": "main",
        "stack_size": "0x400",
        "services": services,
    }


def service(number):
    return {"name": f"S{number}", "sid": f"0x{number:08x}", "non_secure_clients": True}


def region(number):
    return {"name": f"R{number}", "base": f"0x{number * 16:08x}", "size": 16}


def system_of(size):
    """A system file of about so many bytes: manifests of 28 services each, then regions."""
    tree = {"isolation_level": 3, "manifests": [], "regions": []}
    used, number = len(compact(tree)), 0
    while len(tree["manifests"]) < MOST_MANIFESTS * size // MAX_FILE_BYTES:
        one = manifest(f"P{number}", [service(number + i) for i in range(28)])
        used += len(compact(one)) + 1
        if used > size:
            break
        tree["manifests"].append(one)
        number += 28
    used = len(compact(tree))
    for k in range(size):
        one = region(k)
        used += len(compact(one)) + 1
        if used > size:
            break
        tree["regions"].append(one)
    return padded(compact(tree), size)


def small_system(clients):
    names = [f"N{k}" for k in range(clients)]
    return compact({"isolation_level": 3, "manifests": [manifest("P", [service(1)])], "clients": names})


def line(number):
    return "or r1 7" if number % 2 else "end"


def scenario_of(size, clients):
    """A scenario file of so many bytes: as many lines as the actors may have, then memory."""
    actors = ["P"] + [f"N{k}" for k in range(clients)]
    share = size * 3 // (5 * len(actors))
    scripts = []
    for actor in actors:
        lines, used = [], 0
        while len(lines) < MOST_LINES and used < share:
            lines.append(line(len(lines)))
            used += len(lines[-1]) + 3
        scripts.append({"actor": actor, "lines": lines})
    tree = {"event_limit": 262144, "scripts": scripts, "memory": []}
    used = len(compact(tree))
    for k in range(size):
        one = {"address": f"0x{0x20000000 + k % 0x10000:08x}", "bytes": f"{k % 256:02x}"}
        used += len(compact(one)) + 1
        if used > size:
            break
        tree["memory"].append(one)
    return padded(compact(tree), size)


def main():
    parser = argparse.ArgumentParser(description=__doc__, formatter_class=argparse.RawDescriptionHelpFormatter)
    parser.add_argument("program")
    parser.add_argument("--repeats", type=int, default=5)
    parser.add_argument("--clients", type=int, default=16, help="non-secure clients of the system of the scenario files")
    given = parser.parse_args()
    program = os.path.abspath(given.program)
    with tempfile.TemporaryDirectory() as folder:
        def put(name, text):
            with open(os.path.join(folder, name), "w") as file:
                file.write(text)
            return os.path.join(folder, name)

        empty = put("empty.json", "{}")
        small = put("small.json", small_system(given.clients))
        rows = [("start alone", len(small_system(given.clients)), [small, empty])]
        for size in (MAX_FILE_BYTES // 2, MAX_FILE_BYTES):
            rows.append(("system", size, [put(f"system{size}.json", system_of(size)), empty]))
        for size in (MAX_FILE_BYTES // 2, MAX_FILE_BYTES):
            rows.append(("scenario", size, [small, put(f"scenario{size}.json", scenario_of(size, given.clients))]))
        print(f"{'file':12} {'bytes':>8} {'least ms':>9} {'middle ms':>9} {'status':>6}  last line")
        for what, size, files in rows:
            times, status, last = timed(program, ["run", *files], given.repeats)
            print(f"{what:12} {size:8} {times[0]:9.1f} {times[len(times) // 2]:9.1f} {status:6}  {last}")


if __name__ == "__main__":
    main()
