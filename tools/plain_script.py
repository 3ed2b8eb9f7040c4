"""A plain reading of scripts: what each actor calls next, after the outcomes so far.

It is written from the rules of the formats alone and shares nothing with the program. It takes scripts whose lines are
right. Calls and outcomes are written as in plain_machine.py.

A *plan* of an actor has `next_call()`, `answered(outcome)` of the call that was made last, and `place`: the script and
the line, both from 0, that made this call, or None where no line did."""

from plain_machine import BLOCK, CALLS, is_later, number, rounded

REGISTERS = 16
MOST_LOCAL_LINES = 100_000
MESSAGE_VECTORS = 4
LOCAL_LINES = {
    "set": "rv", "add": "rv", "sub": "rv", "and": "rv", "or": "rv", "xor": "rv",
    "jmp": "l", "jeq": "rvl", "jne": "rvl", "jlt": "rvl",
}
MAP_LINES = {"map_in": "du", "unmap_in": "du", "map_out": "du", "unmap_out": "duu"}
RESULTS = {
    "set": lambda old, value: value, "add": lambda old, value: old + value, "sub": lambda old, value: old - value,
    "and": lambda old, value: old & value, "or": lambda old, value: old | value, "xor": lambda old, value: old ^ value,
}
TESTS = {
    "jmp": lambda: True, "jeq": lambda old, value: old == value,
    "jne": lambda old, value: old != value, "jlt": lambda old, value: old < value,
}
RESUME, END, SPENT, PANIC = ("resume",), ("stop", "end"), ("stop", "spent"), ("panic",)
BLOCKED = ("blocked",)


def words_of(line):
    """The words of a line; none where it is passed."""
    words = line.replace("\t", " ").split()
    return [] if words and words[0].startswith("#") else words


def is_label(words):
    return len(words) == 1 and words[0].endswith(":")


def unsigned(value):
    return value % (1 << 32)


def signed(value):
    return (value + (1 << 31)) % (1 << 32) - (1 << 31)


class Script:
    """A script as it runs, of an actor that isn't of the model SFN."""

    def __init__(self, lines, number=0, first=0):
        """`number` is the script's in the scenario, and `first` its first line there."""
        self.lines = [words_of(line) for line in lines]
        self.labels = {words[0][:-1]: k for k, words in reversed(list(enumerate(self.lines))) if is_label(words)}
        self.number, self.first = number, first
        self.at, self.registers, self.blocked = 0, [0] * REGISTERS, False
        self.call, self.most = None, MOST_LOCAL_LINES

    @property
    def place(self):
        return (self.number, self.first + self.at) if self.at < len(self.lines) else None

    def value(self, word):
        if word[0] == "r":
            return self.registers[int(word[1:])]
        return unsigned(int(word, 16 if word.startswith("0x") else 10))

    def next_call(self):
        if self.blocked:
            return RESUME
        if self.call is None:
            self.call = self.reached_call()
        return self.call

    def reached_call(self):
        """The call behind the local lines that come first."""
        local = 0
        while self.at < len(self.lines):
            words = self.lines[self.at]
            if not words or is_label(words):
                self.at += 1
                continue
            call = self.call_of(words)
            if call is not None:
                return call
            if local == self.most:
                return SPENT
            local += 1
            self.pass_local(words)
        return END

    def call_of(self, words):
        """The call that a line makes; None where it makes none."""
        if words[0] in LOCAL_LINES:
            return None
        if words[0] == "end":
            return END
        values = [self.value(word) for word in words[1:]]
        return (words[0], *(signed(value) if field == "d" else value for field, value in zip(CALLS[words[0]], values)))

    def pass_local(self, words):
        """Does what a line without a call does."""
        *operands, last = words[1:]
        if words[0] in RESULTS:
            register = int(operands[0][1:])
            self.registers[register] = unsigned(RESULTS[words[0]](self.registers[register], self.value(last)))
            self.at += 1
        else:
            leads = TESTS[words[0]](*map(self.value, operands))
            self.at = self.labels[last] if leads else self.at + 1

    def answered(self, outcome):
        self.blocked = outcome == BLOCKED
        if not self.blocked and self.call[0] != "stop":
            self.note(outcome)
            self.at += 1
            self.call, self.most = None, MOST_LOCAL_LINES

    def note(self, outcome):
        if outcome[0] in ("value", "number", "signals"):
            self.registers[0] = unsigned(outcome[1])
        elif outcome[0] == "message":
            self.registers[:5] = [0, *map(unsigned, outcome[1:5])]


class Vector:
    """A vector of a message that a partition holds: untouched, used, mapped, or mapped and unmapped again."""

    def __init__(self, size):
        self.size, self.state = size, "untouched"


class Held:
    """A message that a partition holds. `mapped` says whether its service's vectors may be mapped."""

    def __init__(self, message, mapped):
        _, self.kind, self.handle, *_ = message
        self.mapped = mapped
        sizes = [Vector(size) for size in message[5:]]
        self.sides = {"in": sizes[:MESSAGE_VECTORS], "out": sizes[MESSAGE_VECTORS:]}


class PartitionScript(Script):
    """The script of a partition of the model IPC, which may map vectors. `mapped` are the signals of the services whose
    vectors may be mapped, `windows` is where the windows begin and `width` how many bytes each has."""

    def __init__(self, lines, number, mapped, windows, width):
        super().__init__(lines, number)
        self.mapped, self.windows, self.width = mapped, windows, width
        self.held = []

    def window(self, side, index):
        return self.windows + (index + (MESSAGE_VECTORS if side == "out" else 0)) * self.width

    def vector(self, handle, side, index):
        """The held message and its vector; None twice where there is none."""
        message = next((message for message in self.held if message.handle == handle), None)
        return (message, message.sides[side][index]) if message is not None and index < MESSAGE_VECTORS else (None, None)

    def can_map(self, message, vector, side, index):
        is_free = all(other.sides[side][index].state != "mapped" for other in self.held)
        return message.kind >= 0 and message.mapped and 0 < vector.size <= self.width and vector.state == "untouched" and is_free

    def call_of(self, words):
        if words[0] in MAP_LINES:
            handle, *others = [self.value(word) for word in words[1:]]
            return self.map_call(words[0], signed(handle), *others)
        call = super().call_of(words)
        if words[0] not in ("read", "skip", "write"):
            return call
        _, vector = self.vector(call[1], "out" if words[0] == "write" else "in", call[2])
        return PANIC if vector is not None and vector.state in ("mapped", "unmapped") else call

    def map_call(self, word, handle, index, length=0):
        verb, side = word.split("_")
        message, vector = self.vector(handle, side, index)
        if vector is None or length > vector.size:
            return PANIC
        if not (self.can_map(message, vector, side, index) if verb == "map" else vector.state == "mapped"):
            return PANIC
        if word == "map_in":
            return ("read", handle, index, self.window(side, index), vector.size)
        return ("write", handle, index, self.window(side, index), length) if word == "unmap_out" else None

    def pass_local(self, words):
        if words[0] not in MAP_LINES:
            return super().pass_local(words)
        side, index = words[0].split("_")[1], self.value(words[2])
        _, vector = self.vector(signed(self.value(words[1])), side, index)
        vector.state = "mapped" if words[0] == "map_out" else "unmapped"
        if words[0] == "map_out":
            self.registers[0] = self.window(side, index)
        self.at += 1

    def note(self, outcome):
        super().note(outcome)
        word, call = self.lines[self.at][0], self.call
        if call[0] == "get" and outcome[0] == "message":
            self.held.append(Held(outcome, call[1] in self.mapped))
        elif call[0] == "reply" and outcome == ("done",):
            self.held = [message for message in self.held if message.handle != call[1]]
        elif call[0] in ("read", "skip", "write"):
            self.note_vector(word, call)

    def note_vector(self, word, call):
        _, vector = self.vector(call[1], "out" if call[0] == "write" else "in", call[2])
        if word == "map_in":
            vector.state, self.registers[0] = "mapped", call[3]
        elif word == "unmap_out":
            vector.state = "unmapped"
        elif vector is not None and vector.state == "untouched":
            vector.state = "used"


class Threads:
    """The scripts of a client, which take turns call by call; a device has one."""

    def __init__(self, scripts):
        self.scripts = scripts or [Script([])]
        self.turn, self.caller, self.blocked = 0, 0, False

    @property
    def place(self):
        return self.scripts[self.caller].place

    def next_call(self):
        if self.blocked:
            return RESUME
        calls = [script.next_call() for script in self.scripts]
        order = [(self.turn + k) % len(calls) for k in range(len(calls))]
        self.caller = next((k for k in order if calls[k][0] != "stop"), self.turn)
        ended = all(call[0] == "stop" for call in calls)
        return (SPENT if SPENT in calls else END) if ended else calls[self.caller]

    def answered(self, outcome):
        self.scripts[self.caller].answered(outcome)
        self.blocked = outcome == BLOCKED
        if not self.blocked:
            self.turn = (self.caller + 1) % len(self.scripts)


class Function(Script):
    """The function of a service of the model SFN."""

    def call_of(self, words):
        return ("return", signed(self.value(words[1]))) if words[0] == "return" else super().call_of(words)


class Functions:
    """The rounds of a partition of the model SFN. `services` are the names and signals of its services; its message lies
    at `base`."""

    def __init__(self, lines, number, services, base):
        heads = [(k, words_of(line)[1]) for k, line in enumerate(lines) if words_of(line)[:1] == ["sfn"]]
        ends = [k for k, _ in heads[1:]] + [len(lines)]
        self.functions = {name: Function(lines[k + 1 : end], number, k + 1) for (k, name), end in zip(heads, ends)}
        self.names, self.base = {signal: name for name, signal in services}, base
        self.registers, self.blocked = [0] * REGISTERS, False
        self.step, self.signal, self.handle, self.body = "wait", 0, 0, None

    @property
    def place(self):
        return self.body.place if self.step == "serve" else None

    def next_call(self):
        if self.blocked:
            return RESUME
        if self.step == "wait":
            return ("wait", sum(self.names), BLOCK)
        if self.step == "get":
            return ("get", self.signal, self.base)
        call = self.body.next_call()
        return ("reply", self.handle, 0) if call == END else ("reply", self.handle, call[1]) if call[0] == "return" else call

    def answered(self, outcome):
        self.blocked = outcome == BLOCKED
        if self.blocked:
            return
        if self.step == "wait":
            self.signal = min(signal for signal in self.names if outcome[1] & signal)
            self.step = "get"
        elif self.step == "get":
            self.begin(outcome)
        else:
            self.go_on(outcome)

    def begin(self, message):
        self.step, self.handle = "serve", message[2]
        self.body = self.functions.get(self.names[self.signal]) or Function([])
        self.body.at, self.body.call, self.body.most = 0, None, MOST_LOCAL_LINES - 1
        self.body.registers = self.registers
        self.body.note(message)

    def go_on(self, outcome):
        """After a call of the function, or after its reply."""
        call = self.body.next_call()
        if call == END or call[0] == "return":
            self.step = "wait"
        else:
            self.body.answered(outcome)


# The plans of a system's actors


def services_of(manifest):
    """The names, signals and attributes of a partition's services."""
    return [(item["name"], 1 << bit, item) for bit, item in enumerate(manifest.get("services", []), 4)]


def partition_plan(manifest, scripts, ram):
    """The plan of a partition, whose RAM is (base, size). `scripts` are its numbers and lines in the scenario."""
    number_, lines = scripts[0] if scripts else (0, [])
    services = services_of(manifest)
    if is_later(manifest) and manifest.get("model") == "SFN":
        return Functions(lines, number_, [(name, signal) for name, signal, _ in services], ram[0])
    width = number(manifest.get("heap_size", 0)) // 8
    mapped = {signal for _, signal, item in services if is_later(manifest) and item.get("mm_iovec") == "enable"}
    return PartitionScript(lines, number_, mapped, ram[0] + rounded(ram[1]) - 8 * width, width)


def source_names(manifests):
    """The names of all interrupt sources, in the order of their numbers."""
    return [str(item["source"]) for manifest in manifests for item in manifest.get("irqs", [])]


class Device:
    """The interrupts of a scenario, one after the other."""

    place = None

    def __init__(self, system, names, interrupts):
        self.calls = [self.interrupt(system, names, item) for item in interrupts]

    @staticmethod
    def interrupt(system, names, item):
        source = item["source"] if isinstance(item, dict) else item
        place = names.index(str(source))
        if system.sources[place].flih:
            return ("fire", place, item["result"] if isinstance(item, dict) else 1)
        return ("raise", place)

    def next_call(self):
        return self.calls[0] if self.calls else END

    def answered(self, outcome):
        self.calls = self.calls[1:]


def plans_of(system, tree, manifests, scenario):
    """The plans of all actors, in their order. `tree` is that of the system file."""
    scripts = list(enumerate(scenario.get("scripts", [])))
    own = {}
    for place, script in scripts:
        own.setdefault(script["actor"], []).append((place, script["lines"]))
    plans = [partition_plan(manifest, own.get(manifest["name"], []), system.own_ram[k]) for k, manifest in enumerate(manifests)]
    plans += [Threads([Script(lines, place) for place, lines in own.get(name, [])]) for name in tree.get("clients", [])]
    device = [Device(system, source_names(manifests), scenario.get("interrupts", []))] if system.sources else []
    return plans + device
