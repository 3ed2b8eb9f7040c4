#!/usr/bin/env python3
"""Compares `ffm replay`, or `ffm audit`, with the plain machine, on altered traces and on runs made at random.

    python3 tools/replay_agree.py --cmd crates/ffm/out/ffm [--audit] [--count N] [--walks N]

Takes the trace of each example and of some systems that stand below, and alters it: numbers, words, lines,
layout, verdict, bytes, prefixes, the event limit, and single calls with the answer that the plain machine
gives them. Then it walks each system at random, as the plain machine allows it, and alters these runs too.
`--count` says about how many altered traces of one trace are tried, `--walks` how many walks there are of each
system; `--seed` chooses others. Prints how many traces agreed and each one that differs, and ends with the
status 1 where one does. `--keep DIR` writes those traces into a folder."""

import argparse
import concurrent.futures
import itertools
import json
import os
import pathlib
import random
import subprocess
import sys
import tempfile
import threading
from dataclasses import dataclass

import plain_machine
from example_files import examples
from plain_machine import BLOCK, CALLS, MOST_STATELESS, OUTCOMES, STATELESS_HANDLE, VERDICTS

PROCESSES = 3
WALK = 250
WALK_PLACES, WALK_ALTERED = 3, 20
OTHER_CALLS = 40
RANDOM_BYTES = 200
TIMEOUT = 60


# The systems that aren't among the examples


def manifest(name, services=(), **others):
    services = [{"name": service, "sid": sid, "non_secure_clients": True} for service, sid in services]
    return {
        "psa_framework_version": "1.0", "name": name, "type": "APPLICATION-ROT", "priority": "NORMAL",
        "entry_point": "main", "stack_size": "0x400", "services": services, **others,
    }


def stateless(name, sid, index="auto", open_to_all=True):
    return {"name": name, "sid": sid, "non_secure_clients": open_to_all, "connection_based": False, "stateless_handle": index}


def system(*manifests, **others):
    return {"isolation_level": 3, "manifests": list(manifests), **others}


def scenario(**scripts):
    return {"scripts": [{"actor": actor, "lines": lines.split("; ")} for actor, lines in scripts.items()]}


VECTORS = [
    {"address": "0x20000000", "bytes": "20000020050000003000002008000000"},
    {"address": "0x20000020", "bytes": "68656c6c6f"},
]
VAULT = manifest("VAULT", [("VAULT", "0x40")])
VAULT["services"].append({"name": "ADMIN", "sid": "0x41", "non_secure_clients": False, "version": 2})
CHIP = manifest(
    "CHIP", [("STORE", "0x42")], psa_framework_version=1.1,
    irqs=[{"source": 5, "name": "TIMER", "handling": "FLIH"}, {"source": "DMA", "name": "DMA", "handling": "SLIH"}],
)
CHIP["services"] += [stateless("DIGEST", "0x43"), stateless("RANDOM", "0x44", 1), stateless("KEYS", "0x45", 32, open_to_all=False)]
SERVES = "top:; wait 0xffffffff 0x80000000; get r0 0x30000000; jeq r1 0 req; reply r2 0; jmp top; req:; "
READS = "read r2 0 0x30000100 3; "
CALL = "connect 0x40 1; set r5 r0; call r5 0 0x20000000 1 0x20000008 1; "

BUILT_IN = {
    "request": (
        system(VAULT, clients=["NS"]),
        scenario(
            VAULT=SERVES + 3 * READS + "write r2 0 0x30000100 4; reply r2 7; jmp top",
            NS=CALL + "close r5; load 0x2000000c 4",
        ) | {"memory": VECTORS},
    ),
    "declared_connections": (
        system(VAULT, clients=["NS"], connections=[{"client": "NS", "service": "VAULT", "count": 2}]),
        scenario(
            VAULT=SERVES + "reply r2 0; jmp top",
            NS="connect 0x40 1; set r5 r0; connect 0x40 1; connect 0x40 1; close r5; connect 0x40 1",
        ),
    ),
    "write_past_the_end": (
        system(VAULT, clients=["NS"]),
        scenario(
            VAULT=SERVES + "write r2 0 0x30000100 8; write r2 0 0x30000100 1",
            NS=CALL + "call r5 0 0 0 0 0; close r5; connect 0x40 1",
        ) | {"memory": VECTORS},
    ),
    "panicked_client": (
        system(
            manifest("SRV", [("S", "0x40")]), manifest("CLI", dependencies=["S"]),
            clients=["NS"], connections=[{"client": "CLI", "service": "S", "count": 3}],
        ),
        scenario(
            SRV=SERVES + "reply r2 -129; jmp top",
            CLI="connect 0x40 1; connect 0x40 1; connect 0x40 1; call r0 0 0 0 0 0",
            NS="connect 0x40 1",
        ),
    ),
    "two_interrupts": (
        system(manifest("TICKER", irqs=[{"source": 17, "signal": "TICK_SIGNAL"}])),
        scenario(TICKER="wait 0x10 0; eoi 0x10; wait 0x10 0; eoi 0x10; wait 0x10 0")
        | {"interrupts": [17, 17], "schedule": ["device", "device"]},
    ),
    "one_domain": (
        system(
            manifest("FRONT", [("F", "0x50")], dependencies=["B"], mmio_regions=[{"name": "R", "permission": "READ-ONLY"}]),
            manifest("BACK", [("B", "0x51"), ("C", "0x52")], irqs=[{"source": "TICK", "signal": "TICK_SIGNAL"}],
                     mmio_regions=[{"base": "0x40001000", "size": 64, "permission": "READ-WRITE"}]),
            isolation_level=1, clients=["NS", "NS2"], regions=[{"name": "R", "base": "0x40000000", "size": 32}],
            connections=[{"client": "FRONT", "service": "B", "count": 2}, {"client": "NS2", "service": "C", "count": 0}],
        ),
        {"memory": VECTORS + [{"address": "0x30000000", "bytes": "00010030080000000401003008000000" + "00000000" * 2}]},
    ),
    "manifests_of_1_1": (
        system(
            CHIP, manifest("APP", [("APP", "0x50")], dependencies=["DIGEST", "KEYS", "STORE"], irqs=[{"source": 6, "signal": "KEY_SIGNAL"}]),
            clients=["NS", "NS2"],
        ),
        scenario(
            CHIP="irq_enable 0x200; wait 0x200 0x80000000; eoi 0x200; irq_enable 0x100; wait 0x300 0; reset_signal 0x100; "
            "wait 0x100 0; irq_disable 0x100; irq_disable 0x100; wait 0x20 0x80000000; get 0x20 0x30000000; reply r2 -129; "
            "get 0x20 0x30000000; read r2 0 0x30000100 3; write r2 0 0x30000100 2; reply r2 7; wait 0x40 0x80000000; "
            "get 0x40 0x30000000; set_rhandle r2 1",
            APP="call 0x40000002 0 0 0 0 0",
            NS="call 0x40000002 0 0x20000000 1 0x20000008 1; call 0x40000001 0 0 0 0 0; call 0x40000001 0 0 0 0 0; connect 0x43 1; close 0x40000002",
            NS2="call 0x40000020 0 0 0 0 0; connect 0x45 1; version 0x43; version 0x45",
        ) | {"memory": VECTORS, "interrupts": ["DMA", 5, {"source": 5, "result": 1}, {"source": 5, "result": 0}, 6, "DMA"]},
    ),
}


@dataclass
class Case:
    """A trace with its system and scenario, as files and as the plain machine reads them. The name of the system's file
    is as seen from the folder `stand`, in which the program runs."""
    name: str
    stand: pathlib.Path
    system_file: str
    scenario: pathlib.Path
    text: bytes

    def __post_init__(self):
        self.system = plain_machine.read_system(self.system_file, self.stand)
        self.limit, self.memory = plain_machine.read_scenario(self.scenario)

    def changed(self, name, place, text, **attributes):
        """The same system with another trace and a changed scenario, which is written at `place`."""
        place.write_text(json.dumps(json.loads(self.scenario.read_text()) | attributes))
        return Case(name, self.stand, self.system_file, place, text)

    def lines(self):
        return self.text.decode("latin-1").split("\n")[:-1]


@dataclass
class Trial:
    case: Case
    change: str
    text: bytes


def cases(program, work):
    """Each example of one run and each system from above, with its trace."""
    for name, example in sorted(examples().items()):
        scenario_file = (example.folder / "scenario.json").resolve()
        if json.loads(scenario_file.read_text()).get("restarts", 0) > 0:
            continue  # several runs, and a trace is of one
        yield Case(name, example.stand, *example.words("system.json"), scenario_file, example.trace.read_bytes())
    for name, (system_tree, scenario_tree) in BUILT_IN.items():
        folder = work / name
        folder.mkdir()
        (folder / "system.json").write_text(json.dumps(system_tree))
        (folder / "scenario.json").write_text(json.dumps(scenario_tree))
        words = [program, "run", "system.json", "scenario.json"]
        run = subprocess.run(words, cwd=folder, capture_output=True, timeout=TIMEOUT)
        if run.returncode not in (0, 4, 5):
            sys.exit(f"{name}: the run ended with the status {run.returncode}")
        yield Case(name, folder, "system.json", folder / "scenario.json", run.stdout)


# Texts


def form_text(forms, form):
    numbers = [f"0x{number:08x}" if field == "h" else str(number) for field, number in zip(forms[form[0]], form[1:])]
    return " ".join([form[0], *numbers])


def entry_text(system_read, entry):
    actor, call, outcome = entry
    return f"{list(system_read.actors())[actor]} {form_text(CALLS, call)} -> {form_text(OUTCOMES, outcome)}"


def whole(lines):
    return ("\n".join(lines) + "\n").encode("latin-1")


def is_number(word):
    return word.lstrip("-")[:1].isdigit()


# Altered traces


def other_numbers(word):
    """Other numbers for one of a trace, and the same number and others in forms that don't count."""
    if word.startswith("0x"):
        number = int(word, 16)
        for other in (number + 1, number - 1, 0, 0x10, 0xFFFFFFFF, number ^ BLOCK):
            yield f"0x{other % (1 << 32):08x}"
        yield from (str(number), word.upper(), "0x" + word[2:].upper(), "0X" + word[2:], "0x0" + word[2:])
        yield from ("0x" + word[3:], word[2:], f"0x{number:x}", "0x", "-" + word, word + "h", word[:6] + "_" + word[7:])
        return
    number = int(word)
    yield from (str(number + 1), str(number - 1), str(-number), "0", "1", "4", "2147483647", "2147483648")
    yield from ("-2147483648", "-2147483649", "4294967295", "4294967296", str(number + (1 << 32)), str(number - (1 << 32)))
    yield from (f"0x{number % (1 << 32):08x}", hex(number), "0" + word, "-0", "+" + word, "-" + word, word + ".0")
    yield from (word + "e0", "1_0", "00", "", "-", "99999999999999999999", "1" + "0" * 300, "\xb2")


def other_words(actors, word):
    if is_number(word):
        yield from other_numbers(word)
    elif word == "->":
        yield from ("=>", ">", "", "-> ->", "\u00bb")
    else:
        yield from (other for other in ("end", "spent", *OUTCOMES, *CALLS, *VERDICTS, *actors) if other != word)
        yield from (word.upper(), word.capitalize(), word[:-1], word + word[-1:], "", "p0", "p", "p01", "p-1", "p33")
        yield from ("n0", "n01", "n17", "p99999999999", "dev", "dev0", "device", "p\xb9", "#")


def altered_words(actors, lines, places):
    """Each word by others, by those of the same trace that look like it, and by its neighbour."""
    numbers = sorted({word for line in lines for word in line.split(" ") if is_number(word)})
    for place in places:
        words = lines[place].split(" ")
        for k, word in enumerate(words):
            same = [other for other in numbers if is_number(word) and other.startswith("0x") == word.startswith("0x")]
            for other in sorted({*other_words(actors, word), *same} - {word}):
                yield f"line {place + 1}: {word!r} to {other!r}", replaced(lines, place, exchanged(words, k, other))
            for j in range(k + 1, len(words)):
                swapped = exchanged(words, k, words[j]).split(" ")
                yield f"line {place + 1}: words {k} and {j} swapped", replaced(lines, place, exchanged(swapped, j, word))
            yield f"line {place + 1}: without word {k}", replaced(lines, place, " ".join(words[:k] + words[k + 1 :]))


def exchanged(words, place, word):
    return " ".join([*words[:place], word, *words[place + 1 :]])


def replaced(lines, place, *others):
    return whole([*lines[:place], *others, *lines[place + 1 :]])


def counted(lines):
    """The lines with the right number in the verdict, where the last one is a verdict."""
    word = lines[-1].partition(" ")[0] if lines else ""
    return [*lines[:-1], f"{word} {len(lines) - 1}"] if word in VERDICTS else lines


def altered_lines(lines):
    for k, line in enumerate(lines):
        rest = lines[:k] + lines[k + 1 :]
        yield f"line {k + 1}: dropped", whole(rest)
        yield f"line {k + 1}: dropped, and counted again", whole(counted(rest))
        yield f"line {k + 1}: doubled", replaced(lines, k, line, line)
        yield f"line {k + 1}: doubled, and counted again", whole(counted(lines[:k] + [line] + lines[k:]))
        for place in range(len(lines)):
            yield f"line {k + 1}: moved to {place + 1}", whole(rest[:place] + [line] + rest[place:])


def altered_layout(lines):
    for k, line in enumerate(lines):
        others = ("", " ", "\t", "\r", "\0", line + " ", " " + line, line + "\t", line + "\r", line + "\0", line + ".")
        others += (line.replace(" ", "  ", 1), line.replace(" ", "\t", 1), line.replace(" -> ", "  -> "), line.upper())
        others += (line.replace(" ", "\xa0", 1), line.replace(" -> ", "->"), line.replace(" ", ""), "\xef\xbb\xbf" + line)
        for other in others:
            yield f"line {k + 1}: to {other!r}", replaced(lines, k, other)
        yield f"line {k + 1}: a blank line after", replaced(lines, k, line, "")
        yield f"line {k + 1}: a blank line before", replaced(lines, k, "", line)
        yield f"line {k + 1}: joined with the next", whole(lines[:k] + [line + "".join(lines[k + 1 : k + 2])] + lines[k + 2 :])
    text = whole(lines)
    for rest in (b"\n", b" ", b"\0", b"x", b"x\n", lines[-1].encode(), whole(lines[-1:]), whole(lines[:1]), b"\n\n", b"\r\n"):
        yield f"after the verdict: {rest!r}", text + rest
        yield f"in place of the last line end: {rest!r}", text[:-1] + rest
    yield "all line ends as on another system", text.replace(b"\n", b"\r\n")
    yield "twice", text + text


def altered_verdict(lines):
    """Each verdict after each number of entries, and with wrong numbers."""
    for length in range(len(lines)):
        for word in VERDICTS:
            yield f"{length} entries, then {word}", whole(lines[:length] + [f"{word} {length}"])
    length = len(lines) - 1
    for word, count in itertools.product(VERDICTS, (length - 1, length + 1, f"0{length}", f"+{length}", f"{length}.", "", -1)):
        yield f"the verdict to {word} {count}", whole(lines[:-1] + [f"{word} {count}"])


def altered_bytes(text, chance):
    for length in range(len(text)):
        yield f"the first {length} bytes", text[:length]
    for _ in range(RANDOM_BYTES):
        k, byte = chance.randrange(len(text)), bytes([chance.choice((chance.randrange(256), chance.choice(text)))])
        yield f"byte {k} to {byte!r}", text[:k] + byte + text[k + 1 :]
        yield f"{byte!r} before byte {k}", text[:k] + byte + text[k:]
        yield f"without byte {k}", text[:k] + text[k + 1 :]


def altered_handles(case, lines):
    """Each handle that is given to another number, where it is given alone and wherever it stands."""
    entries, _ = plain_machine.read_trace(case.system, case.text)
    machine = plain_machine.Machine(case.system, case.memory)
    others = ["0", "1", "-1", "2147483647", *(str(plain_machine.LAST_HANDLE + k) for k in range(3))]
    for place, entry in enumerate(entries):
        before = set(machine.given)
        machine.step(entry)
        for handle in machine.given - before:
            for other in [*others, str(handle + 1), *map(str, before)]:
                renamed = [" ".join(other if word == str(handle) else word for word in line.split(" ")) for line in lines]
                yield f"line {place + 1}: handle {handle} to {other}", replaced(lines, place, renamed[place])
                yield f"line {place + 1}: handle {handle} to {other} from there on", whole(lines[:place] + renamed[place:])


def altered_calls(case, lines, places, chance):
    """Each entry to other calls of the same actor or another, with the answer that the machine gives there."""
    entries, _ = plain_machine.read_trace(case.system, case.text)
    for place in places:
        for k in range(OTHER_CALLS):
            machine = plain_machine.Machine(case.system, case.memory)
            for entry in entries[:place]:
                machine.step(entry)
            entry = next_entry(machine, chance, 1000 * (k % 2), entries[place][0] if k % 3 else None)
            if entry is not None:
                line = entry_text(case.system, entry)
                yield f"line {place + 1}: to {line}", replaced(lines, place, line)
                yield f"line {place + 1}: {line} before", whole(counted(lines[:place] + [line] + lines[place:]))
                panicked = line.partition(" -> ")[0] + " -> panicked"
                yield f"line {place + 1}: to {panicked}", replaced(lines, place, panicked)


def altered(case, work, chance):
    """The kinds of changes, each as the traces that it makes."""
    lines, actors = case.lines(), list(case.system.actors())
    kinds = [
        altered_words(actors, lines, range(len(lines))), altered_lines(lines), altered_layout(lines),
        altered_verdict(lines), altered_bytes(case.text, chance), altered_handles(case, lines),
        altered_calls(case, lines, range(len(lines) - 1), chance),
    ]
    return [[Trial(case, *change) for change in kind] for kind in kinds] + [list(altered_limits(case, work))]


def altered_limits(case, work):
    """The trace, and its beginnings with a full verdict, under limits about its length."""
    lines = case.lines()
    length = len(lines) - 1
    for limit in sorted({1, 2, length // 2, length - 1, length, length + 1, 262_144} - {0, -1}):
        name, place = f"{case.name}, event limit {limit}", work / f"{case.name}_{limit}.json"
        other = case.changed(name, place, case.text, event_limit=limit)
        yield Trial(other, "as it is", case.text)
        for count in sorted({limit - 1, limit, limit + 1, length} & set(range(length + 1))):
            for word in VERDICTS:
                yield Trial(other, f"{count} entries, then {word}", whole(lines[:count] + [f"{word} {count}"]))


# Walks


def fitting_calls(machine, actor, chance):
    """Calls that the actor has a use for in this state."""
    read = machine.system
    if not read.ram[actor : actor + 1]:
        source = chance.randrange(len(read.sources))
        yield ("fire", source, chance.choice((0, 1, 1))) if read.sources[source].flih else ("raise", source)
        return
    base, size = chance.choice(read.ram[actor] + [region[:2] for region in read.mmio[actor]])
    word = base + chance.choice((0, 4, 8, 0x10, 0x20, 0x28, 0x100)) if chance.randrange(2) else chance.choice((0, 4, 7))
    if not chance.randrange(3):
        yield ("store", base + 4 * chance.randrange(max(min(size, 64) // 4, 1)), chance.choice((1, 2, 4)), word)
    for offset in (chance.randrange(0x30), 0x40 + 4 * chance.randrange(12), 0x100 + chance.randrange(16)):
        if offset + 4 <= size:
            yield ("load", base + offset, chance.choice((1, 2, 4)))
    vectors = ((0, 0, 0, 0), (base, 1, base + 8, 1), (base, 2, 0, 0), (base + 8, 1, base, 3))
    for place, service in enumerate(read.services):
        if (actor, place) in read.budgets and service.index:
            yield from 2 * [("call", STATELESS_HANDLE + service.index, chance.choice((0, 0, 7)), *chance.choice(vectors))]
        elif (actor, place) in read.budgets:
            free = machine.in_use(actor, place) < read.budgets[actor, place]
            yield from (3 if free else not chance.randrange(6)) * [("connect", service.sid, service.version)]
        if (actor, place) in read.budgets:
            yield from (not chance.randrange(6)) * [("version", service.sid)]
    for connection in machine.connections:
        if connection.client == actor and connection.handle:
            yield from 8 * [("call", connection.handle, chance.choice((0, 0, 7)), *chance.choice(vectors))]
            yield from (not chance.randrange(3)) * [("close", connection.handle)]
    if machine.is_partition(actor):
        yield from fitting_partition_calls(machine, actor, chance)
    if not chance.randrange(40):
        yield from [("framework_version",), ("stop", chance.choice(("end", "spent")))]


def fitting_partition_calls(machine, actor, chance):
    base, word = machine.system.ram[actor][0][0], machine.signals(actor)
    bit = 1 << chance.randrange(3, 9)
    if bit & machine.assigned(actor):
        yield ("wait", bit, chance.choice((0, 0, 0, BLOCK)))
    yield from 2 * [("wait", chance.choice((0xFFFFFFFF, machine.assigned(actor))), chance.choice((5, BLOCK, BLOCK | 5)))]
    yield from (not chance.randrange(4)) * [("notify", chance.randrange(machine.system.partitions) + 1)]
    if word & plain_machine.DOORBELL:
        yield ("clear",)
    for place in machine.system.services_of(actor):
        if word & machine.system.services[place].signal:
            yield from 10 * [("get", machine.system.services[place].signal, base + 0x40)]
    for source, flags in zip(machine.system.sources, machine.flags):
        if source.owner == actor and flags.asserted:
            yield from 2 * [("reset_signal" if source.flih else "eoi", source.signal)]
        if source.owner == actor and not chance.randrange(4 if flags.enabled else 2):
            yield (chance.choice(("irq_enable", "irq_disable")) if flags.enabled else "irq_enable", source.signal)
    for message in own_messages(machine, actor):
        status = chance.choice((0, 0, 0, 0, 0, 0, -130, -131) if message.kind else (0, 0, 7, 7, -5, -129))
        yield from 3 * [("reply", message.handle, status)]
        if message.connection is not None:
            yield ("set_rhandle", message.handle, chance.getrandbits(32))
        if message.kind >= 0:
            yield from 4 * moving_calls(message, base + 0x100 + chance.randrange(9), chance)


def own_messages(machine, partition):
    services = machine.system.services_of(partition)
    return [message for message in machine.messages if message.handle and message.service in services]


def moving_calls(message, buffer, chance):
    index, length = chance.choice((0, 0, 0, 0, 1, 2, 3)), chance.choice((0, 1, 2, 3, 8))
    return [
        ("read", message.handle, index, buffer, length),
        ("skip", message.handle, index, length),
        ("write", message.handle, index, buffer, min(length, message.outputs[index].rest())),
    ]


def edge_calls(machine, actor, chance):
    """Calls at the edge of one rule, most of them just beyond it."""
    read, given = machine.system, list(machine.given) or [1]
    base, size = read.ram[actor][0] if read.ram[actor : actor + 1] else (0, 0)
    yield from [("raise", 0), ("close", chance.choice(given)), ("call", chance.choice(given), 0, 0, 0, 0, 0)]
    yield from [("fire", chance.randrange(len(read.sources) + 1), chance.randrange(3)), ("set_rhandle", chance.choice(given), 1)]
    for index in {0, MOST_STATELESS + 1, *(service.index for service in read.services)}:
        handle, count = STATELESS_HANDLE + index, chance.randrange(6)
        yield from [("call", handle, chance.choice((0, -1)), 0, 0, 0, 0), ("call", handle, 0, base, count, base, 5 - count)]
        yield ("close", handle)
    yield from [("connect", service.sid, service.version) for service in read.services if service.index]
    for connection in machine.connections:
        if connection.client == actor and connection.handle:
            count = chance.randrange(6)
            yield ("call", connection.handle, -1, 0, 0, 0, 0)
            yield ("call", connection.handle, 0, base, count, base, 5 - count)
            yield ("call", connection.handle, 0, base + size - 8, count % 3, base + size - 7, chance.randrange(2))
    if not machine.is_partition(actor):
        return
    services = [read.services[place] for place in read.services_of(actor)]
    yield from [("get", service.signal, base + size - 48 + chance.randrange(2)) for service in services]
    for source in read.sources:
        yield (chance.choice(("eoi", "reset_signal", "irq_enable", "irq_disable")), source.signal)
    for message in own_messages(machine, actor):
        rest = message.outputs[0].rest()
        yield from moving_calls(message, base, chance)
        yield from [("write", message.handle, 0, base, rest), ("write", message.handle, 0, base, rest + 1)]
        yield from 3 * [("write", message.handle, 0, base + size, rest), ("read", message.handle, 0, base + size - 1, 2)]
        yield ("reply", message.handle, chance.choice((1, -129, -131, -145)))
    for handle in given[-9:]:
        yield from [("read", handle, 0, base, 1), ("reply", handle, 0)]


def any_call(machine, actor, chance):
    """A call with numbers that some rule asks about, most often a programmer error."""
    read = machine.system
    ends = (0, 1, -1, -47, -48, -4, -3, -2)
    regions = sum(read.ram, []) + [region[:2] for region in sum(read.mmio, [])]
    edges = [base + size * side + end for base, size in regions for side in (0, 1) for end in ends]
    pool = {
        "h": [0, 8, 16, 32, 24, 4, 0xFFFFFFFF, *edges, *(service.sid for service in read.services)],
        "u": [0, 1, 2, 3, 4, 5, 8, 9, 0xFFFFFFFF],
        "d": [0, 1, 2, 3, -1, -2, -129, -130, -131, *machine.given, *range(STATELESS_HANDLE, STATELESS_HANDLE + 3)],
        "w": ["end"],
    }
    calls = [call for call in fitting_calls(machine, actor, chance) if call[0] != "stop"]
    kind = chance.randrange(3)
    if kind == 0:
        return chance.choice(list(edge_calls(machine, actor, chance)))
    if kind == 1 or not calls:
        name = chance.choice([name for name in CALLS if name != "resume"])
        return (name, *(chance.choice(pool[field]) for field in CALLS[name]))
    name, *numbers = chance.choice(calls)
    if numbers:
        k = chance.randrange(len(numbers))
        numbers[k] = chance.choice(pool[CALLS[name][k]])
    return (name, *numbers)


def next_entry(machine, chance, wild, actor=None):
    """An entry that is a step from this state; the machine makes it. None where no actor may act. So many of
    a thousand calls of a partition, which one programmer error ends, are any calls; of others always some."""
    able = [other for other in range(len(machine.phases)) if machine.enabled(other)]
    if not able:
        return None
    busy = [other for other in able if other < machine.system.partitions + machine.system.clients]
    actor = actor if actor in able else chance.choice(busy if busy and chance.randrange(8) else able)
    call = ("resume",)
    if machine.phases[actor] == plain_machine.RUNNING:
        wild = wild if machine.is_partition(actor) else max(wild, 100)
        calls = [] if chance.randrange(1000) < wild else list(fitting_calls(machine, actor, chance))
        call = chance.choice(calls) if calls else any_call(machine, actor, chance)
    handles = [max(machine.given, default=0) + 1, chance.randrange(1, 1 << 30), 1, plain_machine.LAST_HANDLE]
    fresh = [handle for handle in handles if handle not in machine.given and handle <= plain_machine.LAST_HANDLE]
    return actor, call, machine.answer(actor, call, chance.choice(fresh))


def opening(system, chance):
    """An opening memory with some descriptors and other bytes at the begin of each region."""
    for base, size in {region for regions in system.ram for region in regions}:
        words = [base + 0x20, 5, base + 0x30, 8, base + 0x108, 3, base + 0x110, 0]
        content = b"".join(word.to_bytes(4, "little") for word in words) + chance.randbytes(0x120)
        yield {"address": base, "bytes": content[:size].hex()}


def walk(case, place, chance):
    """A run made at random, with its verdict; its limit is its length where it could go on."""
    memory = list(opening(case.system, chance))
    case = case.changed(f"{case.name}, {place.stem}", place, b"", memory=memory)
    machine = plain_machine.Machine(case.system, case.memory)
    lines, wild = [], chance.choice((0, 0, 0, 20))
    for _ in range(chance.randrange(1, WALK)):
        entry = next_entry(machine, chance, wild)
        if entry is None:
            break
        lines.append(entry_text(case.system, entry))
    text = whole(lines + [f"{machine.verdict(len(lines), len(lines))} {len(lines)}"])
    return case.changed(case.name, place, text, event_limit=max(len(lines), 1))


def altered_walk(case, chance):
    """A walk as it is and with some changes at some places."""
    lines = case.lines()
    places = chance.sample(range(len(lines) - 1), min(WALK_PLACES, len(lines) - 1))
    calls = list(altered_calls(case, lines, places, chance))
    words = list(altered_words(list(case.system.actors()), lines, places))
    handles = list(altered_handles(case, lines))
    changes = [change for kind in (calls, words, handles) for change in chance.sample(kind, min(WALK_ALTERED, len(kind)))]
    return [Trial(case, *change) for change in [("as it is", case.text), *changes]]


# Comparing


class Comparer:
    """Asks the program and the plain machine; `audits` says whether for audits or for judgements."""

    def __init__(self, program, audits, work):
        self.program, self.audits, self.work, self.own = program, audits, work, threading.local()

    def place(self):
        """A file of this thread's own."""
        if not hasattr(self.own, "place"):
            self.own.place = self.work / f"trace_{threading.get_ident()}.txt"
        return self.own.place

    def answer(self, trial):
        place = self.place()
        place.write_bytes(trial.text)
        words = [self.program, "audit" if self.audits else "replay", trial.case.system_file, trial.case.scenario, place]
        try:
            run = subprocess.run(words, cwd=trial.case.stand, capture_output=True, timeout=TIMEOUT)
        except subprocess.TimeoutExpired:
            return "no answer", ""
        return run.returncode, run.stdout.decode("latin-1")

    def differs(self, trial):
        """None where the program and the plain machine agree; else the two answers."""
        scenario = (trial.case.limit, trial.case.memory)
        status, text = plain_machine.answer(trial.case.system, scenario, trial.text, self.audits)
        seen = self.answer(trial)
        return None if seen == (status, text + "\n") else (status, text, *seen)


def trials(case, arguments, work, chance):
    yield Trial(case, "as it is", case.text)
    kinds = altered(case, work, chance)
    for kind in kinds:
        yield from chance.sample(kind, min(arguments.count // len(kinds), len(kind))) if arguments.count else kind
    for k in range(arguments.walks):
        yield from altered_walk(walk(case, work / f"{case.name}_walk_{k + 1}.json", chance), chance)


def compare(case, arguments, work, pool, comparer):
    """The number of traces tried, and of those that differ, which are printed."""
    chosen = list(trials(case, arguments, work, random.Random(f"{arguments.seed} {case.name}")))
    different = 0
    for trial, found in zip(chosen, pool.map(comparer.differs, chosen)):
        if found is None:
            continue
        different += 1
        print(f"{trial.case.name}: {trial.change}: expected {found[0]} {found[1]!r}, got {found[2]} {found[3]!r}")
        if arguments.keep:
            keep(arguments.keep, f"{case.name}_{different}", trial)
    print(f"{case.name}: {len(chosen) - different} of {len(chosen)} agree", flush=True)
    return len(chosen), different


def keep(folder, name, trial):
    folder.mkdir(parents=True, exist_ok=True)
    (folder / f"{name}.txt").write_bytes(trial.text)
    (folder / f"{name}_scenario.json").write_bytes(trial.case.scenario.read_bytes())


def main():
    parser = argparse.ArgumentParser(description=__doc__.splitlines()[0])
    parser.add_argument("--cmd", required=True, help="the program ffm")
    parser.add_argument("--audit", action="store_true", help="compare audits, and not judgements")
    parser.add_argument("--count", type=int, default=2000, help="about so many altered traces of each trace; 0 for all")
    parser.add_argument("--walks", type=int, default=20, help="so many random runs of each system")
    parser.add_argument("--seed", type=int, default=0)
    parser.add_argument("--keep", type=pathlib.Path, help="a folder for the traces that differ")
    arguments = parser.parse_args()
    program = os.path.abspath(arguments.cmd)
    tried = different = 0
    with tempfile.TemporaryDirectory() as temporary, concurrent.futures.ThreadPoolExecutor(PROCESSES) as pool:
        work = pathlib.Path(temporary)
        comparer = Comparer(program, arguments.audit, work)
        for case in cases(program, work):
            counts = compare(case, arguments, work, pool, comparer)
            tried, different = tried + counts[0], different + counts[1]
    print(f"{tried - different} of {tried} agree")
    sys.exit(1 if different else 0)


if __name__ == "__main__":
    main()
