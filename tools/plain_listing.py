#!/usr/bin/env python3
"""A plain reading of a listing, to compare `ffm compile` with.

    python3 tools/plain_listing.py SYSTEM

Writes the listing that `ffm compile` has to write of a system file. Like plain_machine.py, on which it rests, it is a
model for readers that shares nothing with the program, and it takes files that hold by the rules of the formats."""

import argparse
import json
import pathlib
import sys

from plain_machine import NON_SECURE_RAM, STATELESS_HANDLE, NotTaken, domains, is_later, number, read_system, rounded, taken


def hexadecimal(value):
    return f"0x{value:08x}"


def service_line(item, service):
    policy = "STRICT" if service.strict else "RELAXED"
    non_secure = "yes" if item["non_secure_clients"] else "no"
    handle = f" handle {hexadecimal(STATELESS_HANDLE + service.index)}" if service.index else ""
    return (f"service {item['name']} sid {hexadecimal(service.sid)} version {service.version} {policy} "
            f"nonsecure {non_secure} signal {hexadecimal(service.signal)}{handle}")


def irq_line(manifest, item, source):
    name, handling = (f"{item['name']}_SIGNAL", f" {item['handling']}") if is_later(manifest) else (item["signal"], "")
    return f"irq {item['source']} {name} {hexadecimal(source.signal)}{handling}"


def partition_lines(system, manifest, place, domain):
    """The line of a partition with those of its services, interrupts and registers."""
    base, size = map(hexadecimal, system.own_ram[place])
    yield f"partition {place + 1} {manifest['name']} {manifest['type']} {manifest['priority']} domain {domain} ram {base} {size}"
    services = [service for service in system.services if service.owner == place]
    yield from map(service_line, manifest.get("services", []), services)
    sources = [source for source in system.sources if source.owner == place]
    yield from (irq_line(manifest, item, source) for item, source in zip(manifest.get("irqs", []), sources))
    for base, size, is_written in system.mmio[place]:
        yield f"mmio {hexadecimal(base)} {hexadecimal(size)} {'READ-WRITE' if is_written else 'READ-ONLY'}"


def pair_lines(system, manifests, clients):
    """The lines of the permitted pairs, and the last line."""
    actors = [manifest["name"] for manifest in manifests] + clients
    services = [item["name"] for manifest in manifests for item in manifest.get("services", [])]
    for (actor, place), count in sorted(system.budgets.items()):
        is_stateless = system.services[place].index
        yield f"{'stateless' if is_stateless else 'connections'} {actors[actor]} {services[place]}" + ("" if is_stateless else f" {count}")
    yield f"admitted {len(manifests)} partitions {len(services)} services {sum(system.budgets.values())} connections"


def lines_of(system, tree, manifests):
    yield f"isolation {tree['isolation_level']}"
    for place, domain in enumerate(domains(tree["isolation_level"], manifests)):
        yield from partition_lines(system, manifests[place], place, domain)
    size = rounded(number(tree.get("non_secure_ram", 65536)))
    yield f"nonsecure ram {hexadecimal(NON_SECURE_RAM)} {hexadecimal(size)}"
    clients = tree.get("clients", [])
    yield from (f"client -{place} {name}" for place, name in enumerate(clients, 1))
    yield from pair_lines(system, manifests, clients)


def listing_of_file(name, stand=pathlib.Path()):
    """What `ffm compile` writes of the file of that name, as seen from the folder `stand`."""
    system = taken(name, lambda _: read_system(name, stand))
    tree = json.loads((stand / name).read_text())
    manifests = [json.loads((stand / item).read_text()) if isinstance(item, str) else item for item in tree["manifests"]]
    return "".join(f"{line}\n" for line in lines_of(system, tree, manifests))


def main():
    parser = argparse.ArgumentParser(description=__doc__, formatter_class=argparse.RawDescriptionHelpFormatter)
    parser.add_argument("system", metavar="SYSTEM")
    try:
        sys.stdout.write(listing_of_file(parser.parse_args().system))
    except NotTaken as wrong:
        status, told = wrong.args
        print(told, file=sys.stderr)
        sys.exit(status)


if __name__ == "__main__":
    main()
