#!/usr/bin/env python3
"""A plain reading of the machine, to compare `ffm replay` and `ffm audit` with.

    python3 tools/plain_machine.py SYSTEM SCENARIO TRACE
    python3 tools/plain_machine.py audit SYSTEM SCENARIO TRACE

Prints what `ffm replay`, or `ffm audit`, has to print for these files, and ends with the status that it has to
give. Where the words are others it prints a usage line to standard error, and the status is 2.

This is a model for readers. It is written from the rules of the calls alone and shares nothing with the
program: one list of connections, one list of messages in order of arrival, and a map of bytes; signals are
computed where they are asked for. It takes system files and scenario files that hold by the rules of the
formats, and doesn't look for broken rules or wrong script lines, but for `restarts`. Where a file can't be read it says
which, status 7, and where it can't be used it says so, status 1. Traces it reads exactly, as the program has to. Manifests may be of 1.0 and of 1.1. What an entry changed it finds by comparing the whole memory before it
with that after it.

An actor is numbered from 0: the partitions, then the clients, then the device. A call is its word in the
trace with its numbers after it, as `("connect", 64, 1)`, and so is an outcome, as `("value", -130)`. An
entry is an actor, a call and an outcome."""

import json
import operator
import pathlib
import re
import sys
from dataclasses import dataclass

USAGE = "usage: plain_machine.py [audit] SYSTEM SCENARIO TRACE"
FRAMEWORK_VERSION = 0x0101
CONNECT, DISCONNECT = -1, -2
PROGRAMMER_ERROR, REFUSED, BUSY, FAILURE = -129, -130, -131, -145
BLOCK, DOORBELL = 0x80000000, 8
FIRST_SIGNAL = 4
LAST_HANDLE = 0x3FFFFFFF
STATELESS_HANDLE, MOST_STATELESS = 0x40000000, 32
SECURE_RAM, NON_SECURE_RAM = 0x30000000, 0x20000000
MAXIMUM_ENTRIES = 262_144
MAXIMUM_TRACE = 50_331_648

# The fields of each call and outcome in the trace: h is hexadecimal, u unsigned, d signed, and w the word
# that says how a script ended.
CALLS = {
    "framework_version": "", "version": "h", "connect": "hu", "call": "ddhuhu", "close": "d",
    "wait": "hh", "get": "hh", "set_rhandle": "dh", "read": "duhu", "skip": "duu", "write": "duhu",
    "reply": "dd", "notify": "d", "clear": "", "eoi": "h", "irq_enable": "h", "irq_disable": "h", "reset_signal": "h",
    "panic": "", "load": "hu", "store": "huh", "raise": "u", "fire": "uu", "stop": "w", "resume": "",
}
OUTCOMES = {
    "value": "d", "number": "u", "signals": "h", "message": "dddhuuuuuuuu",
    "blocked": "", "done": "", "panicked": "",
}
VERDICTS = ("quiet", "stalled", "full")

PARTITION_CALLS = set(CALLS) - {"raise", "fire"}
CLIENT_CALLS = {"framework_version", "version", "connect", "call", "close", "load", "store", "stop", "resume"}
DEVICE_CALLS = {"raise", "fire", "stop", "resume"}

RUNNING, BLOCKED, ENDED, PANICKED = ("running",), ("blocked",), ("ended",), ("panicked",)
PENDING = ("waiting", "ready", "connected")
DONE = ("done",)


# The system and the scenario


@dataclass
class Service:
    """`index` is that of its stateless handle, and 0 where clients connect to it."""
    sid: int
    owner: int
    version: int
    strict: bool
    signal: int
    index: int = 0


@dataclass
class Source:
    """`flih` says whether it has a first-level handler, `enabled` whether it starts enabled."""
    owner: int
    signal: int
    flih: bool = False
    enabled: bool = True


@dataclass
class System:
    """`ram` and `mmio` say for each actor which regions it reaches: (base, size) and (base, size, writable).
    `own_ram` is the region that is a partition's own, and for a client the non-secure one. `budgets` says for each
    permitted pair of an actor and a service how many connections are declared; none are for a stateless service."""
    partitions: int
    clients: int
    services: list
    sources: list
    own_ram: list
    ram: list
    mmio: list
    budgets: dict

    def actors(self):
        """The names of the actors in the trace, each with its number."""
        names = [f"p{i + 1}" for i in range(self.partitions)] + [f"n{i + 1}" for i in range(self.clients)]
        return {name: i for i, name in enumerate(names + (["dev"] if self.sources else []))}

    def client_id(self, actor):
        return actor + 1 if actor < self.partitions else self.partitions - actor - 1

    def service_at(self, sid):
        return next((i for i, service in enumerate(self.services) if service.sid == sid), None)

    def stateless_at(self, handle):
        """The service that has this stateless handle; None where none has."""
        index = handle - STATELESS_HANDLE
        return next((i for i, service in enumerate(self.services) if service.index == index > 0), None)

    def services_of(self, partition):
        return [i for i, service in enumerate(self.services) if service.owner == partition]


def number(value):
    return int(value, 16) if isinstance(value, str) else value


def rounded(size):
    return (size + 31) // 32 * 32


def domains(level, manifests):
    if level == 1:
        return [1 for _ in manifests]
    if level == 2:
        return [1 if manifest["type"] == "PSA-ROT" else 2 for manifest in manifests]
    return [i + 1 for i in range(len(manifests))]


def own_regions(tree, manifests):
    """The RAM of each partition, and for each client the non-secure RAM."""
    own, base = [], SECURE_RAM
    for manifest in manifests:
        size = rounded(number(manifest["stack_size"]) + number(manifest.get("heap_size", 0)))
        own.append((base, size))
        base += size
    return own + [(NON_SECURE_RAM, rounded(number(tree.get("non_secure_ram", 65536)))) for _ in tree.get("clients", [])]


def layout(tree, manifests, own):
    """The regions of each actor's RAM, and the device registers of each partition."""
    domain = domains(tree["isolation_level"], manifests)
    ram = [[own[k] for k in range(len(domain)) if domain[k] == domain[i]] for i in range(len(domain))]
    ram += [[region] for region in own[len(domain) :]]

    named = {}
    for region in tree.get("regions", []):
        named.setdefault(region["name"], region)
    mmio = []
    for manifest in manifests:
        mmio.append([])
        for item in manifest.get("mmio_regions", []):
            place = named[item["name"]] if "name" in item else item
            mmio[-1].append((number(place["base"]), number(place["size"]), item["permission"] == "READ-WRITE"))
    return ram, mmio + [[] for _ in tree.get("clients", [])]


def is_later(manifest):
    """Whether the manifest is of 1.1. Its attributes count in no other one."""
    return str(manifest["psa_framework_version"]) == "1.1"


def stated_index(manifest, item):
    """The index that a service states, `auto`, or 0 where clients connect to it."""
    stateless = is_later(manifest) and not item.get("connection_based", True)
    return item.get("stateless_handle", "auto") if stateless else 0


def give_indices(services):
    """Each service with `auto` gets the least index that no other one has so far."""
    taken = {service.index for service in services} - {"auto"}
    for service in services:
        if service.index == "auto":
            service.index = min(set(range(1, MOST_STATELESS + 1)) - taken)
            taken.add(service.index)


def read_services(manifests):
    """The services of all partitions, in manifest order; the first signals are theirs."""
    services = []
    for owner, manifest in enumerate(manifests):
        for bit, item in enumerate(manifest.get("services", []), FIRST_SIGNAL):
            strict = item.get("version_policy", "STRICT") == "STRICT"
            version, index = number(item.get("version", 1)), stated_index(manifest, item)
            services.append(Service(number(item["sid"]), owner, version, strict, 1 << bit, index))
    give_indices(services)
    return services


def read_sources(manifests):
    """The interrupt sources of all partitions. Those of 1.1 start disabled."""
    sources = []
    for owner, manifest in enumerate(manifests):
        first = FIRST_SIGNAL + len(manifest.get("services", []))
        for bit, item in enumerate(manifest.get("irqs", []), first):
            flih = is_later(manifest) and item["handling"] == "FLIH"
            sources.append(Source(owner, 1 << bit, flih, enabled=not is_later(manifest)))
    return sources


def permitted(tree, manifests):
    """The names of those who may use each service, by its name, in the order of all services."""
    items = [item for manifest in manifests for item in manifest.get("services", [])]
    users = {item["name"]: set(tree.get("clients", []) if item["non_secure_clients"] else []) for item in items}
    for manifest in manifests:
        for name in manifest.get("dependencies", []):
            users[name].add(manifest["name"])
    return users


def read_system(name, stand=pathlib.Path()):
    """The system of a file. Its name and those of its manifests are as seen from the folder `stand`."""
    tree = json.loads((stand / name).read_text())
    manifests = [
        json.loads((stand / item).read_text()) if isinstance(item, str) else item for item in tree["manifests"]
    ]
    names = [manifest["name"] for manifest in manifests] + tree.get("clients", [])
    services = read_services(manifests)
    counts = {(item["client"], item["service"]): item["count"] for item in tree.get("connections", [])}
    budgets = {
        (names.index(client), place): 0 if services[place].index else counts.get((client, name), 1)
        for place, (name, clients) in enumerate(permitted(tree, manifests).items())
        for client in clients
    }
    own = own_regions(tree, manifests)
    ram, mmio = layout(tree, manifests, own)
    return System(len(manifests), len(tree.get("clients", [])), services, read_sources(manifests), own, ram, mmio, budgets)


def scenario_of(tree):
    """The limit of events and the opening memory; a byte that isn't in the memory is 0."""
    memory = {}
    for item in tree.get("memory", []):
        for offset, byte in enumerate(bytes.fromhex(item["bytes"])):
            memory[number(item["address"]) + offset] = byte
    return operator.index(tree.get("event_limit", 4096)), memory


def read_scenario(path):
    return scenario_of(json.loads(pathlib.Path(path).read_text()))


# The machine


@dataclass(eq=False)
class Connection:
    """`phase` is opening, idle, busy, error, closing or dead. The handle is 0 until it is given."""
    client: int
    service: int
    phase: str = "opening"
    rhandle: int = 0
    handle: int = 0


@dataclass(eq=False)
class Vector:
    base: int = 0
    length: int = 0
    moved: int = 0

    def rest(self):
        return self.length - self.moved


NO_VECTORS = [Vector() for _ in range(4)]


@dataclass(eq=False)
class Message:
    """It is delivered where it has a handle. `descriptors` are the addresses of the output descriptors. It has
    no connection where it was sent by a stateless handle."""
    client: int
    service: int
    connection: Connection | None
    kind: int
    inputs: list
    outputs: list
    descriptors: list
    handle: int = 0


@dataclass
class Flags:
    enabled: bool
    pending: bool = False
    asserted: bool = False

    def forward(self, flih):
        if self.enabled and self.pending and (flih or not self.asserted):
            self.pending, self.asserted = False, True


class Fault(Exception):
    """The call is a programmer error. Nothing was changed yet."""


class NoStep(Exception):
    """The entry shows a handle that can't be given. Nothing was changed yet."""


def require(condition):
    if not condition:
        raise Fault


def lies_in(base, length, region):
    return region[0] <= base and base + length <= region[0] + region[1]


def is_one_bit(word):
    return word != 0 and word & (word - 1) == 0


class Machine:
    """The state of a run. `connections` stand in the order of their making, `messages` in order of arrival."""

    def __init__(self, system, memory):
        self.system = system
        self.connections, self.messages = [], []
        self.phases = [RUNNING for _ in system.actors()]
        self.doorbells = [False for _ in range(system.partitions)]
        self.flags = [Flags(source.enabled) for source in system.sources]
        self.memory = dict(memory)
        self.given = set()
        self.shown = 0

    # Steps

    def step(self, entry):
        """Makes the event of an entry. False where the entry is no step from here."""
        actor, call, outcome = entry
        resumes = self.phases[actor][0] in PENDING
        if not self.enabled(actor) or (call[0] == "resume") != resumes:
            return False
        handle = outcome[2] if outcome[0] == "message" else outcome[1] if outcome[0] == "value" else 0
        return self.answer(actor, call, handle) == outcome

    def answer(self, actor, call, handle):
        """The outcome of a call that an enabled actor makes; its effect takes place. Where the call gives a
        handle, it is `handle`; the outcome is None where that can't be given."""
        self.shown = handle
        try:
            require(call[0] in self.calls_of(actor))
            return getattr(self, "make_" + call[0])(actor, *call[1:])
        except Fault:
            return self.programmer_error(actor, call[0])
        except NoStep:
            return None

    def programmer_error(self, actor, call):
        if self.is_partition(actor):
            self.panic(actor)
            return ("panicked",)
        if self.is_client(actor) and call == "connect":
            return ("value", REFUSED)
        if self.is_client(actor) and call == "close":
            return DONE
        return ("value", PROGRAMMER_ERROR)

    def enabled(self, actor):
        phase = self.phases[actor]
        if phase[0] == "waiting":
            return self.signals(actor) & phase[1] != 0
        return phase[0] in ("running", "ready", "connected")

    def verdict(self, entries, limit):
        """The verdict of this state after so many entries; None where the run goes on."""
        if any(self.enabled(actor) for actor in range(len(self.phases))):
            return "full" if entries == limit else None
        return "stalled" if BLOCKED in self.phases else "quiet"

    # What the rules ask for

    def is_partition(self, actor):
        return actor < self.system.partitions

    def is_client(self, actor):
        return 0 <= actor - self.system.partitions < self.system.clients

    def calls_of(self, actor):
        if self.is_partition(actor):
            return PARTITION_CALLS
        return CLIENT_CALLS if self.is_client(actor) else DEVICE_CALLS

    def signals(self, partition):
        """A service's bit where a message of it waits, the doorbell, and the sources that are asserted."""
        word = DOORBELL if self.doorbells[partition] else 0
        for message in self.messages:
            service = self.system.services[message.service]
            if service.owner == partition and not message.handle:
                word |= service.signal
        for source, flags in zip(self.system.sources, self.flags):
            if source.owner == partition and flags.asserted:
                word |= source.signal
        return word

    def assigned(self, partition):
        word = DOORBELL
        for holder in self.system.services + self.system.sources:
            if holder.owner == partition:
                word |= holder.signal
        return word

    def valid_buffer(self, actor, base, length):
        return length == 0 or any(lies_in(base, length, region) for region in self.system.ram[actor])

    def may_access(self, actor, base, size, writes):
        registers = [region for region in self.system.mmio[actor] if region[2] or not writes]
        return self.valid_buffer(actor, base, size) or any(lies_in(base, size, region) for region in registers)

    def own_connection(self, actor, handle):
        for connection in self.connections:
            if connection.client == actor and connection.handle == handle != 0:
                return connection
        raise Fault

    def own_message(self, partition, handle):
        for message in self.messages:
            owner = self.system.services[message.service].owner
            if owner == partition and message.handle == handle != 0:
                return message
        raise Fault

    def own_request(self, partition, handle, index):
        message = self.own_message(partition, handle)
        require(message.kind >= 0 and index < 4)
        return message

    def in_use(self, client, service):
        return sum(1 for c in self.connections if c.client == client and c.service == service)

    def fresh_handle(self):
        """The handle that the entry shows, which is given now."""
        if not 0 < self.shown <= LAST_HANDLE or self.shown in self.given:
            raise NoStep
        self.given.add(self.shown)
        return self.shown

    # Memory

    def bytes_at(self, base, length):
        return bytes(self.memory.get(base + i, 0) for i in range(length))

    def put_bytes(self, base, content):
        for i, byte in enumerate(content):
            self.memory[base + i] = byte

    def word_at(self, base, size=4):
        return int.from_bytes(self.bytes_at(base, size), "little")

    def put_word(self, base, word, size=4):
        self.put_bytes(base, (word % (1 << 32)).to_bytes(4, "little")[:size])

    def vectors(self, actor, base, count):
        """The four vectors that the descriptors at `base` name. Those that aren't given are empty."""
        require(self.valid_buffer(actor, base, 8 * count))
        given = [Vector(self.word_at(base + 8 * i), self.word_at(base + 8 * i + 4)) for i in range(count)]
        require(all(self.valid_buffer(actor, vector.base, vector.length) for vector in given))
        return given + [Vector() for _ in range(4 - count)]

    # Effects that several calls share

    def send(self, connection, kind):
        """A message without vectors goes last."""
        client, service = connection.client, connection.service
        self.messages.append(Message(client, service, connection, kind, NO_VECTORS, NO_VECTORS, []))

    def close_connection(self, connection):
        connection.phase = "closing"
        self.send(connection, DISCONNECT)

    def ready(self, actor, outcome):
        self.phases[actor] = ("ready", outcome)

    def panic(self, partition):
        self.phases[partition] = PANICKED
        served = self.system.services_of(partition)
        for connection in [c for c in self.connections if c.service in served]:
            if connection.phase == "opening":
                self.connections.remove(connection)
                self.ready(connection.client, ("value", REFUSED))
            elif connection.phase == "busy":
                connection.phase = "dead"
                self.ready(connection.client, ("value", FAILURE))
            elif connection.phase in ("idle", "error"):
                connection.phase = "dead"
            elif connection.phase == "closing":
                self.remove_closed(connection)
        for message in self.messages:
            if message.service in served and message.connection is None:
                self.ready(message.client, ("value", FAILURE))
        self.messages = [message for message in self.messages if message.service not in served]
        for connection in [c for c in self.connections if c.client == partition]:
            if connection.phase == "dead":
                self.connections.remove(connection)
            else:
                self.close_connection(connection)

    def remove_closed(self, connection):
        self.connections.remove(connection)
        if self.phases[connection.client] == BLOCKED:
            self.ready(connection.client, DONE)

    # The calls of clients. A client may be a partition

    def make_framework_version(self, actor):
        return ("number", FRAMEWORK_VERSION)

    def make_version(self, actor, sid):
        service = self.system.service_at(sid)
        permitted = (actor, service) in self.system.budgets
        return ("number", self.system.services[service].version if permitted else 0)

    def make_connect(self, actor, sid, version):
        place = self.system.service_at(sid)
        require((actor, place) in self.system.budgets)
        service = self.system.services[place]
        require(not service.index)
        require(version == service.version if service.strict else version <= service.version)
        if self.phases[service.owner] == PANICKED:
            return ("value", REFUSED)
        if self.in_use(actor, place) == self.system.budgets[actor, place]:
            return ("value", BUSY)
        self.connections.append(Connection(actor, place))
        self.send(self.connections[-1], CONNECT)
        self.phases[actor] = BLOCKED
        return BLOCKED

    def make_call(self, actor, handle, kind, in_vec, in_len, out_vec, out_len):
        service = self.system.stateless_at(handle)
        require(service is None or (actor, service) in self.system.budgets)
        connection = self.own_connection(actor, handle) if service is None else None
        require(connection is None or connection.phase not in ("busy", "error"))
        require(kind >= 0 and in_len + out_len <= 4)
        inputs = self.vectors(actor, in_vec, in_len)
        outputs = self.vectors(actor, out_vec, out_len)
        if self.is_lost(service, connection):
            return ("value", FAILURE)
        if connection is not None:
            service, connection.phase = connection.service, "busy"
        descriptors = [out_vec + 8 * i for i in range(out_len)]
        self.messages.append(Message(actor, service, connection, kind, inputs, outputs, descriptors))
        self.phases[actor] = BLOCKED
        return BLOCKED

    def is_lost(self, service, connection):
        """Nobody takes a request of this connection, or of this stateless service, any more."""
        if connection is not None:
            return connection.phase == "dead"
        return self.phases[self.system.services[service].owner] == PANICKED

    def make_close(self, actor, handle):
        if handle == 0:
            return DONE
        connection = self.own_connection(actor, handle)
        require(connection.phase != "busy")
        if connection.phase == "dead":
            self.connections.remove(connection)
            return DONE
        self.close_connection(connection)
        self.phases[actor] = BLOCKED
        return BLOCKED

    def make_load(self, actor, address, size):
        require(size in (1, 2, 4) and self.may_access(actor, address, size, writes=False))
        return ("number", self.word_at(address, size))

    def make_store(self, actor, address, size, value):
        require(size in (1, 2, 4) and self.may_access(actor, address, size, writes=True))
        self.put_word(address, value, size)
        return DONE

    def make_stop(self, actor, end):
        self.phases[actor] = ENDED
        return DONE

    def make_resume(self, actor):
        phase = self.phases[actor]
        if phase[0] == "connected":
            phase[1].handle = self.fresh_handle()
            outcome = ("value", phase[1].handle)
        elif phase[0] == "waiting":
            outcome = ("signals", self.signals(actor) & phase[1])
        else:
            outcome = phase[1]
        self.phases[actor] = RUNNING
        return outcome

    # The calls of partitions

    def make_wait(self, actor, mask, timeout):
        require(mask & self.assigned(actor))
        if timeout & BLOCK:
            self.phases[actor] = ("waiting", mask)
            return BLOCKED
        return ("signals", self.signals(actor) & mask)

    def make_get(self, actor, signal, address):
        services = [i for i in self.system.services_of(actor) if self.system.services[i].signal == signal]
        require(is_one_bit(signal) and services)
        require(signal & self.signals(actor) and self.valid_buffer(actor, address, 48))
        message = next(m for m in self.messages if m.service == services[0] and not m.handle)
        message.handle = self.fresh_handle()
        client = self.system.client_id(message.client)
        rhandle = 0 if message.kind == CONNECT or message.connection is None else message.connection.rhandle
        sizes = [vector.length for vector in message.inputs + message.outputs]
        words = [message.kind, message.handle, client, rhandle, *sizes]
        for place, word in enumerate(words):
            self.put_word(address + 4 * place, word)
        return ("message", *words)

    def make_set_rhandle(self, actor, handle, value):
        connection = self.own_message(actor, handle).connection
        require(connection is not None)
        connection.rhandle = value
        return DONE

    def make_read(self, actor, handle, index, buffer, length):
        vector = self.own_request(actor, handle, index).inputs[index]
        require(self.valid_buffer(actor, buffer, length))
        count = min(length, vector.rest())
        self.put_bytes(buffer, self.bytes_at(vector.base + vector.moved, count))
        vector.moved += count
        return ("number", count)

    def make_skip(self, actor, handle, index, length):
        vector = self.own_request(actor, handle, index).inputs[index]
        count = min(length, vector.rest())
        vector.moved += count
        return ("number", count)

    def make_write(self, actor, handle, index, buffer, length):
        vector = self.own_request(actor, handle, index).outputs[index]
        require(self.valid_buffer(actor, buffer, length) and length <= vector.rest())
        self.put_bytes(vector.base + vector.moved, self.bytes_at(buffer, length))
        vector.moved += length
        return DONE

    def make_reply(self, actor, handle, status):
        message = self.own_message(actor, handle)
        require(message.kind != CONNECT or status in (0, REFUSED, BUSY))
        self.messages.remove(message)
        connection, client = message.connection, message.client
        if message.kind == CONNECT and status == 0:
            connection.phase = "idle"
            self.phases[client] = ("connected", connection)
        elif message.kind == CONNECT:
            self.connections.remove(connection)
            self.ready(client, ("value", status))
        elif message.kind == DISCONNECT:
            self.remove_closed(connection)
        else:
            self.answer_request(message, status)
        return DONE

    def answer_request(self, message, status):
        for descriptor, vector in zip(message.descriptors, message.outputs):
            self.put_word(descriptor + 4, vector.moved)
        client = message.client
        if message.connection is not None:
            message.connection.phase = "error" if status == PROGRAMMER_ERROR else "idle"
        if status == PROGRAMMER_ERROR and self.is_partition(client):
            self.panic(client)
        else:
            self.ready(client, ("value", status))

    def make_notify(self, actor, partition):
        require(1 <= partition <= self.system.partitions)
        self.doorbells[partition - 1] = True
        return DONE

    def make_clear(self, actor):
        require(self.doorbells[actor])
        self.doorbells[actor] = False
        return DONE

    def own_source(self, actor, signal):
        """The source of the partition that has the signal, with its flags."""
        require(is_one_bit(signal))
        for source, flags in zip(self.system.sources, self.flags):
            if source.owner == actor and source.signal == signal:
                return source, flags
        raise Fault

    def make_eoi(self, actor, signal):
        source, flags = self.own_source(actor, signal)
        require(flags.asserted and not source.flih)
        flags.asserted = False
        flags.forward(source.flih)
        return DONE

    def make_reset_signal(self, actor, signal):
        source, flags = self.own_source(actor, signal)
        require(flags.asserted and source.flih)
        flags.asserted = False
        return DONE

    def make_irq_enable(self, actor, signal):
        source, flags = self.own_source(actor, signal)
        flags.enabled = True
        flags.forward(source.flih)
        return DONE

    def make_irq_disable(self, actor, signal):
        _, flags = self.own_source(actor, signal)
        was_enabled, flags.enabled = flags.enabled, False
        return ("number", int(was_enabled))

    def make_panic(self, actor):
        raise Fault

    # The calls of the device

    def interrupt(self, number):
        source, flags = self.system.sources[number], self.flags[number]
        flags.pending = True
        flags.forward(source.flih)

    def make_raise(self, actor, number):
        require(number < len(self.flags) and not self.system.sources[number].flih)
        self.interrupt(number)
        return DONE

    def make_fire(self, actor, number, result):
        require(number < len(self.flags) and self.system.sources[number].flih and result <= 1)
        if result == 1:
            self.interrupt(number)
        return DONE


def judged(system, memory, limit, entries, verdict):
    """None where the entries are a run with this verdict; else the number of the first entry that is no
    step, or is above the limit; else one more than the entries, where the verdict is another."""
    machine = Machine(system, memory)
    for place, entry in enumerate(entries, 1):
        if place > limit or not machine.step(entry):
            return place
    return None if machine.verdict(len(entries), limit) == verdict else len(entries) + 1


def changed_bytes(before, after):
    """The addresses at which two memories differ."""
    return {address for address in before.keys() | after.keys() if before.get(address, 0) != after.get(address, 0)}


def outside_own_ram(system, actor, addresses):
    """Those that don't lie in the actor's own RAM; a device has none."""
    own = system.own_ram[actor : actor + 1]
    return {address for address in addresses if not any(lies_in(address, 1, region) for region in own)}


def changes(system, memory, entries):
    """For each entry of a run that changed a byte, its place, the least address, the number of bytes, and the least
    address outside of the actor's own RAM, or None."""
    machine = Machine(system, memory)
    for place, entry in enumerate(entries, 1):
        before = dict(machine.memory)
        machine.step(entry)
        addresses = changed_bytes(before, machine.memory)
        if addresses:
            yield place, min(addresses), len(addresses), min(outside_own_ram(system, entry[0], addresses), default=None)


# The text of a trace


def read_number(field, word):
    """The number that a word stands for in such a field; None where no number is written so."""
    if field == "w":
        return word if word in ("end", "spent") else None
    if field == "h":
        return int(word, 16) if re.fullmatch("0x[0-9a-f]{8}", word) else None
    sign, least, most = ("-?", -(1 << 31), (1 << 31) - 1) if field == "d" else ("", 0, (1 << 32) - 1)
    if not re.fullmatch(f"0|{sign}[1-9][0-9]{{0,9}}", word):
        return None
    return int(word) if least <= int(word) <= most else None


def read_form(forms, words):
    """The call or outcome that the words stand for; None where it isn't written so."""
    if not words or words[0] not in forms or len(words) != 1 + len(forms[words[0]]):
        return None
    numbers = [read_number(field, word) for field, word in zip(forms[words[0]], words[1:])]
    return None if None in numbers else (words[0], *numbers)


def read_entry(actors, line):
    words = line.split(" ")
    if words[0] not in actors or "->" not in words:
        return None
    arrow = words.index("->")
    call, outcome = read_form(CALLS, words[1:arrow]), read_form(OUTCOMES, words[arrow + 1 :])
    return None if call is None or outcome is None else (actors[words[0]], call, outcome)


def read_trace(system, text):
    """The entries and the verdict of a text; or the number of its first wrong line."""
    actors = system.actors()
    entries, verdict = [], None
    *lines, rest = text.decode("latin-1").split("\n")
    for place, line in enumerate(lines, 1):
        word, _, count = line.partition(" ")
        entry = read_entry(actors, line)
        if verdict is not None:
            return place
        if word in VERDICTS and count == str(len(entries)):
            verdict = word
        elif entry is not None and len(entries) < MAXIMUM_ENTRIES:
            entries.append(entry)
        else:
            return place
    return len(lines) + 1 if rest or verdict is None else (entries, verdict)


def change_line(place, lowest, count, outside):
    return f"{place} 0x{lowest:08x} {count} " + ("-" if outside is None else f"0x{outside:08x}")


def answer(system, scenario, text, audits):
    """What `ffm replay`, or where it `audits` `ffm audit`, answers: the status and the text."""
    if len(text) > MAXIMUM_TRACE:
        return 1, "refused 23 FileTooLong trace"
    trace = read_trace(system, text)
    if isinstance(trace, int):
        return 1, f"refused 24 TraceSyntax trace /{trace}"
    limit, memory = scenario
    entries, verdict = trace
    place = judged(system, memory, limit, entries, verdict)
    right = "clean" if audits else "legal"
    line = f"{right} {len(entries)}" if place is None else f"illegal {place}"
    legal = entries if place is None else entries[: place - 1]
    lines = [change_line(*change) for change in changes(system, memory, legal)] if audits else []
    return 0 if place is None else 6, "\n".join([*lines, line])


class NotTaken(Exception):
    """A file that can't be read, status 7, or that ffm doesn't take in a way that shows here, status 1, as it is told."""


def taken(name, read):
    """What a file says, read so."""
    try:
        return read(name)
    except OSError as error:
        raise NotTaken(7, f"{error.filename or name}: {error.strerror}") from error
    except (AttributeError, LookupError, RecursionError, TypeError, ValueError) as error:
        told = f"{name}: ffm doesn't take this file ({error!r}); tools/check_schemas.py may say more"
        raise NotTaken(1, told) from error


def answer_of_files(system, scenario, trace, audits, stand=pathlib.Path()):
    """The same for the files of these names, as seen from the folder `stand`, in the order in which ffm reads them. A
    scenario with restarts has several runs, and a trace is of one."""
    said = taken(system, lambda name: read_system(name, stand))
    if taken(scenario, lambda name: json.loads((stand / name).read_text()).get("restarts", 0) > 0):
        return 1, "refused 4 BadValue scenario /restarts"
    opening = taken(scenario, lambda name: read_scenario(stand / name))
    return answer(said, opening, taken(trace, lambda name: (stand / name).read_bytes()), audits)


def main():
    word, names = sys.argv[1:-3], sys.argv[1:][-3:]
    if names in (["-h"], ["--help"]):
        sys.exit(print(__doc__))
    if len(names) < 3 or word not in ([], ["audit"]):
        print(USAGE, file=sys.stderr)
        sys.exit(2)
    try:
        status, text = answer_of_files(*names, audits=bool(word))
    except NotTaken as wrong:
        status, text = wrong.args
        print(text, file=sys.stderr)
        sys.exit(status)
    print(text)
    sys.exit(status)


if __name__ == "__main__":
    main()
