#!/usr/bin/env python3
"""Finds the rule of a line of a trace, with its definition, its clause, its mutants and its tests.

    python3 tools/rule_of_line.py [--rule] TRACE NUMBER
    python3 tools/rule_of_line.py [--rule] 'n1 version 0x00000041 -> number 0'

With --rule the rules in words are all that is printed. The first form takes a file and the number of a line in it,
counted from 1, the second one the text of a line. For each rule that bears on the line it prints four things, with their
places from the top of the repository:
1. the rule in words, with > before what the outcome shows, or ? where the line doesn't tell,
2. the definition,
3. the function with its contract, with > before the clause, and the definitions of this repository that the clause cites;
   of a long contract the signature and the clause, with .. for the rest,
4. mutants that are refused, worked runs, tests and stored cases.
The answer that a `resume` shows was made by another event. With a trace the call and that event are found; with the
text alone the rules that may have made the answer are told by their places. Of signals, and of the message of a `get`,
the events behind them are found as far as the trace tells them; likewise the `get` of a message's handle, the panic of a
`call` answered -145, the `store` of a `load`, and at `stalled` the calls that nobody answers. Why a `connect` is answered -130 the tool tells where
the system's file, system.json, lies beside the trace.
A line `refused ..` is of no trace: the rows of its code in docs/formats.md are printed.

All of it is read from docs/machine.md and docs/evidence.json, the words of traces from docs/formats.md.
check_evidence.py says whether each line of the stored traces has the four things. A line isn't judged here: it is taken
as one that the machine allows. The status is 1 where no such line is found, and 2 where the words are wrong."""

import os
import pathlib
import re
import sys
import textwrap
from collections import Counter
from dataclasses import dataclass
from functools import lru_cache
from itertools import takewhile
from typing import NamedTuple

from check_links import HEADING, anchor, table_rows
from evidence import CASES, CRATES, PAGE as EVIDENCE, found_in, items_of, line_of, mutants_of, path_of, rows
from example_files import GUIDED, examples
from plain_machine import MOST_STATELESS, STATELESS_HANDLE, read_system
from stored_cases import DATA, RUN_STATUSES, cases

TOP = pathlib.Path(__file__).resolve().parents[1]
PAGES = ("machine.md", "formats.md", "view.md", "reading_a_clause.md")
MACHINE, FORMATS, VIEW, READING = (pathlib.Path("docs") / name for name in PAGES)
USAGE = "usage: rule_of_line.py [--rule] TRACE NUMBER | rule_of_line.py [--rule] 'LINE', with the line in quotation marks"
EVENT = re.compile(r"([pn][1-9]\d*|dev) (\w+)((?: \S+)*) -> (\w+)((?: \S+)*)")
VERDICT, RESTART = re.compile(r"(quiet|stalled|full) \d+"), re.compile(r"restart \d+")
REFUSAL, JUDGEMENT = re.compile(r"refused (\d+)\b.*"), re.compile(r"(legal|illegal|clean) \d+")
ACTORS = {"p": "partition", "n": "client", "d": "device"}
OPERANDS = {"d": r"-?\d+", "h": r"0x[0-9a-fA-F]+", "u": r"\d+"}

# The sections of docs/machine.md that outcomes add to the table of the calls.
CALLS, RIGHTS, ERROR, REPLY, PANIC = "the-calls", "who-has-which-call", "what-a-programmer-error-does", "reply", "panic"
TRACE, RESTART_FORM, RUNS, SIGNS = "trace", "restart K", "runs-after-a-reset", "the-signs"
SIGNALS, MESSAGE, RESETS, VERDICTS = "signals", "the-message", "resets", "runs-verdicts-and-judgements"
HANDLES, MEMORY, INTERRUPTS = "handles-and-their-names", "memory", "interrupts"
# The kinds of messages in the section Reply, by the calls that send them, or by the outcomes of their returns.
REQUEST, CONNECTION, DISCONNECTION = "request", "-1", "-2"
ASKED_BY = {"connect": [CONNECTION], "call": [REQUEST], "close": [DISCONNECTION]}
ANSWERED_BY = {"value": [CONNECTION, REQUEST], "done": [DISCONNECTION]}
# The definitions of what a reply makes ready, by these kinds; the one that a request answered with -129 alone has.
READY_BY = {CONNECTION: ("connect_answered",), REQUEST: ("request_answered", "request_failed"), DISCONNECTION: ("close_answered",)}
FAILED = "request_failed"
# The calls on a message's handle besides the reply, and the definitions of a call on a connection.
ON_MESSAGES, ON_CONNECTIONS = ("read", "skip", "write", "set_rhandle"), ("connection_called", "call_on")
# The tests of memory accesses with the sizes that these may have, and the handlers by the calls that forward interrupts.
ACCESSES, SIZES = {"load": "may read", "store": "may write"}, ("1", "2", "4")
HANDLERS = {"raise": ("SLIH",), "eoi": ("SLIH",), "fire": ("FLIH",), "irq_enable": ("SLIH", "FLIH")}
# A contract with more lines is printed without its comment and its other clauses.
LONG = 40
# The doorbell's bit, the calls with the signal of a source, and how many events are told of which one asserted it.
DOORBELL, CALLS_OF_SOURCES, FEW, PERHAPS = 0x8, ("eoi", "reset_signal", "irq_enable", "irq_disable"), 6, "perhaps"


class Unknown(Exception):
    """What isn't found, as it is told on standard error."""


# ---- the lines of a trace


class Event(NamedTuple):
    """The line of an event with its number, its actor, and the words of its call and its outcome."""
    text: str
    number: int
    actor: str
    word: str
    given: tuple
    outcome: str
    shown: tuple

    def kind(self):
        return ACTORS[self.actor[0]]

    def client_id(self):
        number = int(self.actor[1:]) if self.kind() != "device" else 0
        return -number if self.kind() == "client" else number

    def is_stateless(self):
        """Whether it names a stateless handle."""
        return self.word in ("call", "close") and STATELESS_HANDLE < int(self.given[0]) <= STATELESS_HANDLE + MOST_STATELESS

    def answers(self, *values):
        """Whether the outcome is one of these values."""
        return self.outcome == "value" and self.shown[0] in values

    def names(self, actor, bit, *words):
        """Whether it is an allowed call of that actor, one of these words, with that signal."""
        return self.actor == actor and self.word in words and self.outcome != "panicked" and int(self.given[0], 16) == bit

    def message_kind(self):
        """The kind of the message that it shows."""
        return REQUEST if int(self.shown[0]) >= 0 else self.shown[0]


@lru_cache(maxsize=None)
def forms():
    """The words of calls and of outcomes, each with its name and the kinds of its operands."""
    found = {"Call": {}, "Outcome": {}}
    for _, row in table(FORMATS):
        for column in set(found) & set(row) if "Text" in row else ():
            for name, form in zip(row[column].split(", "), re.findall("`([^`]+)`", row["Text"])):
                word, *operands = form.split()
                found[column][word] = name, operands
    return found


def name_of(event):
    """The name of an event's call in the table of the calls."""
    return forms()["Call"][event.word][0]


@lru_cache(maxsize=None)
def event_of(text, number=0):
    """The parts of an event's line."""
    parts = EVENT.fullmatch(text)
    if not parts:
        raise Unknown(f"no line of a trace: {text}")
    actor, word, given, outcome, shown = parts.groups()
    event = Event(text, number, actor, word, tuple(given.split()), outcome, tuple(shown.split()))
    for column, told, values in (("Call", word, event.given), ("Outcome", outcome, event.shown)):
        if told not in forms()[column]:
            raise Unknown(f"{told}: no such word in a trace (docs/formats.md, Trace)")
        operands = forms()[column][told][1]
        if not re.fullmatch(" ".join(OPERANDS.get(operand, r"\w+") for operand in operands), " ".join(values)):
            raise Unknown(f"{text}: a trace has `{' '.join([told, *operands])}` there (docs/formats.md, Trace)")
    return event


def is_event(text):
    try:
        return event_of(text) is not None
    except Unknown:
        return False


class Run:
    """The events of a run before a line, and those after it, whether the run is one after a reset, whether the trace has
    resets at all, and the system where its file is known."""

    def __init__(self, events, after=(), is_later=False, has_resets=False, system=None):
        self.events, self.after, self.is_later, self.has_resets, self.system = events, after, is_later, has_resets, system
        self.messages = {event.shown[1]: event for event in events if event.outcome == "message"}

    def answered(self, call):
        """The event that delivered the message whose handle a call names, as the one that a reply answers."""
        return self.messages.get(call.given[0])

    def service_asked(self, event):
        """The place of the service that a `call` asks, by its handle and the `connect` that gave it; None where that isn't
        told."""
        if event.is_stateless():
            index = int(event.given[0]) - STATELESS_HANDLE
            return next((place for place, service in enumerate(self.system.services) if service.index == index), None)
        last = None
        for one in self.events:
            if one.actor == event.actor:
                if last and last.word == "connect" and one.word == "resume" and one.shown[:1] == event.given[:1]:
                    return self.system.service_at(int(last.given[0], 16))
                last = one
        return None

    def panic_at(self, event):
        """The panic of the partition that a `call` asks, where the system and the lines tell."""
        place = self.service_asked(event) if self.system else None
        return None if place is None else self.panic_of(f"p{self.system.services[place].owner + 1}")

    def blocked_calls(self):
        """The calls that nobody answers, at a stall."""
        last = {event.actor: event for event in self.events}
        return [event for event in last.values() if event.outcome == "blocked" and event.word in ASKED_BY and not self.panic_of(event.actor)]

    def panicked(self, event):
        """The partition that panics in an event: its actor, or the one whose request is answered with -129."""
        if event.outcome == "panicked":
            return event.actor
        message = self.answered(event) if event.word == "reply" and event.given[1] == "-129" else None
        is_of_partition = message and int(message.shown[0]) >= 0 and int(message.shown[2]) > 0
        return f"p{message.shown[2]}" if is_of_partition else None

    def some_panicked(self):
        return any(self.panicked(event) for event in self.events)

    def panic_of(self, partition):
        """The event in which a partition panicked."""
        return next((event for event in self.events if self.panicked(event) == partition), None)

    def fault_of(self, connect):
        """Which PROGRAMMER ERROR a `connect` is by the system, in the words of its row, and the partition that has the
        service; None for what isn't so."""
        place = self.system.service_at(int(connect.given[0], 16))
        if place is None:
            return "no service has the SID", None
        service, asked = self.system.services[place], int(connect.given[1])
        fits = asked == service.version if service.strict else asked <= service.version
        is_permitted = (self.system.actors().get(connect.actor), place) in self.system.budgets
        faults = ((service.index, "the service is stateless"), (not is_permitted, "the caller isn't permitted"), (not fits, "the version doesn't fit"))
        return next((what for is_so, what in faults if is_so), None), f"p{service.owner + 1}"

    def maker_of(self, message):
        """The event that made the message which an event shows: the call in which its client is blocked, or the panic in
        which the client's connection is closed."""
        number = int(message.shown[2])
        client = f"p{number}" if number > 0 else f"n{-number}"
        last = next((event for event in reversed(self.events) if client in (event.actor, self.panicked(event))), None)
        return last if last and (last.outcome == "blocked" or self.panicked(last)) else None

    def rings_of(self, actor):
        """The event that asserted a partition's doorbell: the first `notify` since it was cleared."""
        cleared = max((event.number for event in self.events if event.actor == actor and event.word == "clear"), default=0)
        rings = (event for event in self.events if event.word == "notify" and event.given[0] == actor[1:])
        return [event for event in rings if event.number > cleared and event.outcome == "done"][:1]

    def interrupts_of(self, actor, bit):
        """The events of which one asserted the signal of a partition's source: an interrupt, or what forwards one that is
        pending. Each time that it was asserted took an interrupt of its own, and each time but the last it was cleared."""
        cleared = [event.number for event in self.events if event.names(actor, bit, "eoi", "reset_signal")]
        counts, found = Counter(), []
        for event in self.events:
            is_interrupt = event.word in ("raise", "fire") and event.outcome == "done" and event.given[1:] != ("0",)
            counts.update(event.given[:1] if is_interrupt else ())
            count = counts[event.given[0]] if is_interrupt else max(counts.values(), default=0)
            forwards = is_interrupt or event.names(actor, bit, "eoi", "irq_enable")
            if forwards and count > len(cleared) and event.number >= max(cleared, default=0):
                found.append(event)
        return found

    def asserted_by(self, actor, bit):
        """The events behind a signal that a partition is shown, each with what it did, as far as the lines tell. A bit that
        a later `get` names is a service's, and the message there is the oldest one that waits."""
        word = f"0x{bit:08x}"
        if bit == DOORBELL:
            return [(event, f"asserted {word}") for event in self.rings_of(actor)]
        got = next((event for event in self.after if event.names(actor, bit, "get")), None)
        if got:
            maker = self.maker_of(got)
            return [(maker, f"made the message that asserts {word}"), (got, "takes that message")] if maker else []
        is_source = any(event.names(actor, bit, *CALLS_OF_SOURCES) for event in (*self.events, *self.after))
        found = self.interrupts_of(actor, bit) if is_source else []
        what = f"asserted {word}" if len(found) == 1 else f"{PERHAPS} asserted {word}"
        return [(event, what) for event in found] if len(found) <= FEW else []

    def stored_at(self, load):
        """The last `store` to bytes that a `load` reads."""
        first, size = int(load.given[0], 16), int(load.given[1])
        for event in reversed(self.events):
            if event.word == "store" and event.outcome == "done":
                at, count = int(event.given[0], 16), int(event.given[1])
                if at < first + size and first < at + count:
                    return event
        return None

    def call_of(self, actor):
        """The call in which an actor is blocked."""
        last = next((event for event in reversed(self.events) if event.actor == actor), None)
        return last if last and last.outcome == "blocked" else None

    def answers_to(self, call):
        """The event that delivered the message of a call, the reply to it, and where there is none the panics by which
        the call may have been answered."""
        since = [event for event in self.events if event.number > call.number]
        messages = [event for event in since if event.outcome == "message" and int(event.shown[2]) == call.client_id()]
        got = messages[0] if messages else None
        replies = [event for event in since if event.word == "reply" and event.outcome == "done"]
        reply = next((event for event in replies if got and self.answered(event) == got), None)
        panics = [event for event in since if self.panicked(event) and not reply]
        return got, reply, [event for event in panics if not got or self.panicked(event) == got.actor]

    def is_connected(self, actor, handle):
        """Whether a client was given a connection of that handle, and didn't close it."""
        last, given = None, set()
        for event in self.events:
            if event.actor == actor:
                if event.word == "resume" and last == "connect":
                    given.add(event.shown[0])
                if event.word == "close":
                    given.discard(event.given[0])
                last = event.word
        return handle in given


# ---- the pages


@lru_cache(maxsize=None)
def table(page):
    return list(table_rows(page))


@lru_cache(maxsize=None)
def lines_of(path):
    return path.read_text().splitlines()


@lru_cache(maxsize=None)
def section(name, page=MACHINE):
    """The lines of a section of a page with their numbers; the first one is its heading."""
    found = []
    for number, line in enumerate(lines_of(page), 1):
        heading = HEADING.match(line)
        if heading and found:
            break
        if found or heading and anchor(heading[2]) == name:
            found.append((number, line))
    if not found:
        raise Unknown(f"{page}: no section {name}")
    return found


def place_of(name, page=MACHINE):
    return f"{page}:{section(name, page)[0][0]}"


def plain(text, page=MACHINE):
    """A page's text without links and emphasis, and with the places of the sections to which it links."""
    text = re.sub(r"\[([^\]]*)\]\(#([\w-]+)\)", lambda link: f"{link[1]} ({place_of(link[2], page)})", text)
    return re.sub(r"\*(\w[^*]*)\*", r"\1", re.sub(r"\[([^\]]*)\]\([^)]*\)", r"\1", text))


def words_of(name, keeps=lambda *cells: True):
    """The text of a section, each line with a mark: > before the rows of its tables that are kept."""
    head = None
    for _, line in section(name)[1:]:
        cells = [cell.strip() for cell in line.strip("|").split("|")] if line.startswith("|") else None
        if cells and head and set(line) - set("|- ") and keeps(*cells):
            yield ">", plain("; ".join(f"{column}: {cell}" if column else cell for column, cell in zip(head, cells)))
        elif line and not cells and not line.startswith("Definition"):
            yield " ", plain(line)
        head = cells and (head or cells)


def row_of_call(name):
    """The row of a call in the table of the calls, with the number of its line."""
    for number, row in table(MACHINE):
        if row.get("Call") == name and "Otherwise" in row:
            return number, row
    raise Unknown(f"{MACHINE}: no row {name} in the table of the calls")


def evidence_of(words):
    """The row of docs/evidence.json that has these words in its name, or as the end of a link to its rule in words."""
    for row in rows():
        if words in row["name"] or any(link.endswith(words) for link in row.get("rules", [])):
            return row
    raise Unknown(f"{EVIDENCE}: no row for {words}")


# ---- the rules of a line


@dataclass
class Rule:
    """A rule that bears on a line: its title, the place of its words and the words, each line with a mark, its row of
    docs/evidence.json, the row of the table of the calls that it is about, and the definitions of its row that don't bear on
    the line."""
    title: str
    place: str
    words: list
    row: dict
    call: str = ""
    is_sure: bool = True
    without: tuple = ()


def explained(row, column):
    """A cell of the table of the calls, with that of another row where it names one."""
    named = re.findall(r"\b[aA]s ([A-Z]\w+)", row[column])
    return plain(". ".join([row[column], *(f"{name}: {row_of_call(name)[1][column]}" for name in named)]))


def terms_of(text):
    """The lines above the table of the calls that say what terms in a text mean, with their numbers."""
    for number, line in section(CALLS):
        term = re.match(r"A \*(.+?)\*", line)
        if term and term[1] in text:
            yield number, plain(line)


def shows_error(event, run):
    """Whether the outcome shows a PROGRAMMER ERROR; None where that isn't told."""
    if event.outcome == "panicked" or event.kind() == "partition" or event.word == "resume":
        return event.outcome == "panicked"
    if event.word == "connect" and event.answers("-130"):
        fault, owner = run.fault_of(event) if run and run.system else (None, None)
        if fault or owner and run.panic_of(owner):
            return fault is not None
        return True if run and not run.some_panicked() else None
    if event.word == "close" and event.outcome == "done":
        if event.given[0] == "0" or event.is_stateless():
            return event.given[0] != "0"
        return not run.is_connected(event.actor, event.given[0]) if run else None
    return event.answers("-129")


def cause_of(event, run):
    """The line that says which of the conditions of a PROGRAMMER ERROR holds, or how to find it."""
    if event.word in ACCESSES and event.kind() != "device":
        size = event.given[1]
        return f"Which of these holds: the size is {size}, so the {'second' if size in SIZES else 'first'}"
    fault = run.fault_of(event)[0] if event.word == "connect" and run and run.system else None
    if fault:
        return f"Which of these holds: by system.json, {fault}"
    asks = f"change the line's outcome in a copy of the trace, and ask the built program, `ffm_view why SYSTEM SCENARIO COPY` ({place_of('why', VIEW)})"
    alone = f"; first make the run a trace of its own ({place_of(RUNS, FORMATS)})" if run and run.has_resets else ""
    return f"Which of these holds: {asks}{alone}"


def rows_beside(event, shown):
    """The rows of other tables to which the row of a call links: the test of a memory access, the forwarding rule."""
    if event.word in ACCESSES:
        yield from rows_of(MEMORY, lambda test, *_: test in (ACCESSES[event.word], "valid buffer"), event.given[1] in SIZES)
    if event.word in HANDLERS:
        is_told = len(HANDLERS[event.word]) == 1 and shown is False and event.given[1:] != ("0",)
        yield from rows_of(INTERRUPTS, lambda handler, *_: handler in HANDLERS[event.word], is_told)


def rows_of(name, keeps, is_told):
    """The rows of a section that are kept, with > where they are told by the line."""
    heading = f"{section(name)[0][1].strip('# ')} ({place_of(name)})"
    return [(">" if is_told else " ", f"{heading}: {text}") for mark, text in words_of(name, keeps) if mark == ">"]


def rule_of_call(event, run):
    """The row of the call in the table of the calls."""
    number, row = row_of_call(name_of(event))
    shown, words = shows_error(event, run), []
    for column, is_error in (("PROGRAMMER ERROR iff", True), ("Otherwise", False)):
        if row[column]:
            mark = "?" if shown is None else ">" if shown == is_error else " "
            words.append((mark, f"{column}: {explained(row, column)}"))
        if is_error and shown is not False and ";" in words[-1][1]:
            words.append((" ", cause_of(event, run)))
    words += rows_beside(event, shown)
    words += [(" ", text) for _, text in terms_of(" ".join(row.values()))]
    title = f"call {name_of(event)}" + (f", {row['API'].strip('`')}" if row["API"] else "")
    # What a reply made ready is printed with the rule by which the answer was made.
    without = tuple(name for names in READY_BY.values() for name in names) if event.word == "resume" else ()
    without += ON_CONNECTIONS if event.word == "call" and event.is_stateless() else ()
    return Rule(title, f"{MACHINE}:{number}", words, evidence_of(row["API"] or f"`{event.word}`"), name_of(event), without=without)


def rule_of_stateless():
    number, text = next(terms_of("stateless handle"))
    row = evidence_of("`psa_call` by a stateless handle")
    return Rule("call by a stateless handle", f"{MACHINE}:{number}", [(">", text)], row)


def rule_of_error(event, is_sure):
    """What a PROGRAMMER ERROR does, and who has the call where the actor doesn't."""
    outcome = event.outcome.capitalize() + "".join(f"({value})" for value in event.shown)

    def lacks_it(kind, calls):
        return event.kind() in kind and (name_of(event) in re.findall(r"\w+", calls)) == calls.startswith("all but")

    words = list(words_of(ERROR, lambda kind, due, state: kind.startswith(event.kind()) and due == outcome))
    rights = list(words_of(RIGHTS, lacks_it))
    words += rights if any(mark == ">" for mark, _ in rights) else []
    return Rule("what a PROGRAMMER ERROR does", place_of(ERROR), words, evidence_of(f"#{ERROR}"), is_sure=is_sure)


def rule_of_section(name, row, keeps=lambda *cells: True, call="", is_sure=True):
    """A section of docs/machine.md with the rows of its tables that are kept."""
    title = f"section {section(name)[0][1].strip('# ')}"
    return Rule(title, place_of(name), list(words_of(name, keeps)), evidence_of(row), call, is_sure)


def rule_of_reply(kinds, status=None, is_sure=True):
    """The section Reply with the rows for messages of these kinds, and for a status where it is known."""
    def keeps(cell, connection, client):
        kind, told = cell.split(", ", 1)
        is_told = told == "any status" or (status in re.findall(r"-?\d+", told)) != ("other than" in told)
        return kind in kinds and (status is None or is_told)

    rule = rule_of_section(REPLY, "`psa_reply`", keeps, "Reply", is_sure)
    rule.without = tuple(name for kind, names in READY_BY.items() for name in names if kind not in kinds or name == FAILED and status not in (None, "-129"))
    return rule


def rule_of_panic(is_sure=True):
    return rule_of_section(PANIC, "`psa_panic`", call="Panic", is_sure=is_sure)


def rule_of_closing_panic():
    """The section Panic, with > before what it says of the messages by which the panicked client's connections close."""
    rule = rule_of_panic()
    rule.words = [(">" if f"of kind {DISCONNECTION} is made" in text else mark, text) for mark, text in rule.words]
    return rule


def rules_of_signals(event, run):
    """The section Signals, and the events that asserted the signals that are shown, as far as the lines tell; the rule of
    a panic that is one of them."""
    rule, notes, untold = rule_of_section(SIGNALS, f"#{SIGNALS}"), [], []
    for bit in (1 << place for place in range(32) if run and int(event.shown[0], 16) >> place & 1):
        found = run.asserted_by(event.actor, bit)
        notes += found
        if not found or found[0][1].startswith(PERHAPS):
            untold.append(f"0x{bit:08x}")
    if untold:
        asks = f"`ffm_view state SYSTEM SCENARIO TRACE {event.number}` ({place_of('state', VIEW)})"
        rule.words.append((" ", f"What asserts {', '.join(untold)} here: {asks}"))
    closes = any(run.panicked(maker) for maker, _ in notes)
    return [rule] + [rule_of_closing_panic()] * closes, notes


def gives_handle(event, kinds):
    """Whether a `resume` shows the handle of a connection."""
    return CONNECTION in kinds and event.outcome == "value" and int(event.shown[0]) > 0


def rules_of_load(event, run):
    """What a load reads beside its own rule: the last store to these bytes, and after a reset what that leaves."""
    stored = run.stored_at(event)
    rules = [] if stored or not run.is_later else [rule_of_section(RESETS, f"#{RESETS}", is_sure=False)]
    what = "the last store to these bytes; a call that moved bytes since may have changed them too"
    words = [] if stored else [(" ", "No `store` of this run wrote these bytes: they are as at its opening, or a call that moves bytes put them there")]
    return words, rules, [(stored, what)] if stored else []


def rules_of_answer(event, run):
    """The rules by which the answer that a resume shows was made, and the events that show it, each with what it is."""
    call = run.call_of(event.actor) if run else None
    notes = [(call, "the call that returns")] if call else []
    if event.outcome == "signals":
        rules, more = rules_of_signals(event, run)
        return rules, notes + more
    kinds = ASKED_BY.get(call.word, []) if call else ANSWERED_BY.get(event.outcome, [])
    is_refused, is_lost = event.answers("-130") and CONNECTION in kinds, event.answers("-145") and REQUEST in kinds
    may_panic = event.outcome == "done" or is_refused or is_lost
    got, reply, panics = run.answers_to(call) if call else (None, None, [])
    notes += [(got, "its message")] if got else []
    if reply:
        notes.append((reply, "answered by this reply, and by no panic" if may_panic else "answered by this reply"))
        return [rule_of_reply(kinds, reply.given[1])], notes
    if panics:
        what = f"answered by this {'' if len(panics) == 1 else 'or another '}panic, and by no reply"
        return [rule_of_panic()], notes + [(panic, what) for panic in panics]
    is_handle = gives_handle(event, kinds)
    rules = [rule_of_reply(kinds, None if is_handle or not event.shown else event.shown[0], not may_panic)]
    return rules + [rule_of_panic(is_sure=False)] * may_panic, notes


def rules_of_reply(event, run):
    """What a reply does by the kind of its message, the panic that it may owe, and the event that delivered the message."""
    message = run.answered(event) if run else None
    kinds = [CONNECTION, REQUEST, DISCONNECTION]
    if message:
        kinds = [message.message_kind()]
    owes = event.given[1] == "-129" and (not message or run.panicked(event) is not None)
    rules = [rule_of_reply(kinds, event.given[1])] + [rule_of_panic(is_sure=message is not None)] * owes
    return rules, [(message, "the message that is answered")] if message else []


def rules_of_message(event, run):
    """What the numbers of a message say, and the event that made it; the rule of that where it is a panic."""
    kind, maker = event.message_kind(), run.maker_of(event) if run else None
    told = f"{section(MESSAGE)[0][1].strip('# ')} ({place_of(MESSAGE)}): {' '.join(text for _, text in words_of(MESSAGE))}"
    words = [(" ", told)]
    for call in (call for call, kinds in ASKED_BY.items() if kind in kinds and not maker):
        panic = f", or by its panic ({place_of(PANIC)})" if kind == DISCONNECTION and int(event.shown[2]) > 0 else ""
        place = f"{MACHINE}:{row_of_call(forms()['Call'][call][0])[0]}"
        words.append((" ", f"It was made by the client's `{call}` ({place}){panic}"))
    if not maker or maker.outcome == "blocked":
        return words, [], [(maker, "made this message")] if maker else []
    return words, [rule_of_closing_panic()], [(maker, "the client's panic, which made this message")]


def rules_of_event(event, run):
    """The rules that bear on an event: that of its call, and those that its outcome adds."""
    rules, shown, notes = [rule_of_call(event, run)], shows_error(event, run), []
    if event.word == "call" and event.is_stateless():
        rules.append(rule_of_stateless())
    if shown is not False:
        rules.append(rule_of_error(event, shown is not None))
    if event.outcome == "panicked":
        rules.append(rule_of_panic())
    elif event.word == "reply":
        (told, *more), notes = rules_of_reply(event, run)
        rules[0].words += told.words
        rules[0].without = told.without
        rules += more
    elif event.word == "resume":
        more, notes = rules_of_answer(event, run)
        call = run.call_of(event.actor) if run else None
        if gives_handle(event, ASKED_BY.get(call.word, []) if call else ANSWERED_BY.get(event.outcome, [])):
            rules[0].words.append((" ", f"Which number a handle has: Handles and their names ({place_of(HANDLES)})"))
        if event.answers("-129"):
            rules[0].words.append((" ", f"The service replied this -129: {section(ERROR)[0][1].strip('# ')} ({place_of(ERROR)}) is no rule of this line"))
        rules += more
    elif event.word == "connect" and shown is False and event.answers("-130") and run and run.system:
        partition = run.fault_of(event)[1]
        panic = run.panic_of(partition)
        notes = [(panic, f"{partition}, which has the service by system.json, panics here")] if panic else []
    elif event.word == "load" and event.outcome == "number" and run:
        words, more, notes = rules_of_load(event, run)
        rules[0].words += words
        rules += more
    elif event.word == "wait" and event.outcome == "signals":
        more, notes = rules_of_signals(event, run)
        rules += more
    elif event.word == "get" and event.outcome == "message":
        words, more, notes = rules_of_message(event, run)
        rules[0].words += words
        rules += more
    elif event.word == "call" and event.answers("-145"):
        panic = run.panic_at(event) if run else None
        rules.append(rule_of_panic())
        notes = [(panic, "the panic of the partition that has the service")] if panic else []
    if run and event.word in ON_MESSAGES and run.answered(event):
        notes = [(run.answered(event), "the message of this handle"), *notes]
    return rules, notes


def rules_of(text, number=0, run=None):
    """The rules that bear on a line, and other events with what they are to it. `run` is the run around it, where that is
    known."""
    verdict = VERDICT.fullmatch(text)
    if verdict:
        blocked = run.blocked_calls() if run and verdict[1] == "stalled" else []
        return [rule_of_section(VERDICTS, f"`{verdict[1]}`", lambda name, state: name == verdict[1])], [(event, "waits for its answer") for event in blocked]
    if RESTART.fullmatch(text):
        rule = rule_of_section(RESETS, f"#{RESETS}")
        rule.words += [(">", f"Its text, {FORMATS}:{number}: {plain(line, FORMATS)}") for number, line in section(TRACE, FORMATS) if f"`{RESTART_FORM}`" in line]
        return [rule], []
    return rules_of_event(event_of(text, number), run)


def run_around(lines, place, system=None):
    """The run around a line: the events before it, and those after it as far as they are lines of a trace."""
    events, is_later = [], False
    for number, line in enumerate(lines[:place], 1):
        if VERDICT.fullmatch(line) or RESTART.fullmatch(line):
            events.clear()
            is_later = bool(RESTART.fullmatch(line))
        else:
            events.append(event_of(line, number))
    after = takewhile(lambda numbered: is_event(numbered[1]), enumerate(lines[place + 1:], place + 2))
    has_resets = any(RESTART.fullmatch(line) for line in lines)
    return Run(events, [event_of(line, number) for number, line in after], is_later, has_resets, system)


@lru_cache(maxsize=None)
def system_beside(trace):
    """The system whose file lies beside a trace; None where none lies there that can be read. Manifests in files of their
    own are looked for from the same folder on, and from the three above it."""
    for stand in list(trace.parents)[:4]:
        try:
            return read_system((trace.parent / "system.json").relative_to(stand), stand)
        except (OSError, LookupError, TypeError, ValueError, AttributeError):
            continue
    return None


# ---- definitions, clauses, mutants and tests


def told_of(item, clauses=()):
    """Where an item is, with its clauses, or others."""
    named = [name or "without a name" for name in clauses or item.clauses]
    clause = f", clause {', '.join(named)}" if named else ""
    note = f" ({item.note})" if item.note else ""
    return f"{item.path}:{item.place + 1}{', ' if item.name else ''}{item.name}{clause}{note}"


def block_of(item):
    """The lines of a definition, or of a function without its body, with the comment above."""
    lines, start, end = lines_of(item.path), item.place, item.place + 1
    while start > 0 and re.match(r"\s*(//|--|#\[)", lines[start - 1]):
        start -= 1
    if start > 1 and lines[start - 1] == "" and lines[start - 2].startswith("-- ----"):
        start -= 2
    # A body begins with a brace in a line of its own; after a definition comes an empty line.
    stops = ("{", "{}") if item.path.suffix == ".rt" else ("",)
    while end < len(lines) and lines[end].strip() not in stops:
        end += 1
    return textwrap.dedent("\n".join(lines[start:end])).splitlines()


def definition_of(item, call):
    """The lines of a definition; of the table of all calls the line of one alone."""
    lines = block_of(item)
    cases = [line for line in lines if re.search(r"\bcall\.[A-Z]", line)]
    is_table = len(cases) == len(forms()["Call"])
    return [line for line in lines if not is_table or line not in cases or re.search(rf"\bcall\.{call}\b", line)]


def contract_of(item):
    """The lines of a function without its body, with marks before its clauses, and their names: those that the row names,
    else `answer`, else the one without a name, else all. Of a long one the signature and these clauses are left."""
    lines = block_of(item)
    found = [re.match(r" +ensures (\w*) ?\{", line) for line in lines]
    names = [clause[1] for clause in found if clause]
    names = list(item.clauses) or [name for name in ("answer", "") if name in names][:1] or names
    marked = [(">" if clause and clause[1] in names else " ", line) for clause, line in zip(found, lines)]
    return shortened(marked) if len(marked) > LONG else marked, names


def shortened(marked):
    """The signature of a function, and its clauses with a mark."""
    kept, keeps = [], False
    for mark, line in marked:
        is_clause = re.match(r" +(ensures|requires)\b", line)
        keeps = mark == ">" if is_clause else keeps if line.strip() and not re.match(r" *//", line) else False
        keeps = keeps or bool(re.match(r"(pub(\([a-z]+\))? )?fn ", line.strip()))
        kept += [(mark, line)] if keeps else [(" ", "..")] if not kept or kept[-1] != (" ", "..") else []
    return kept


def imported_by(path):
    """The names that a file imports from the definitions of this repository, each with the file and the name there."""
    imports = re.findall(r"^ghost use Rattle\.(\w+)\.specs\.(\w+)\.\{([^}]*)\};", path.read_text(), re.M)
    for crate, module, names in imports:
        for name, _, other in (part.strip().partition(" as ") for part in names.split(",")):
            yield other or name, (CRATES / crate / "specs" / f"{module}.antt", name)


def cited_by(item, lines):
    """The definitions of this repository that the marked clauses of a function cite."""
    text, keeps = "", False
    for mark, line in lines:
        keeps = mark == ">" or keeps and not re.match(r" +(ensures|requires|//)", line)
        text += f"{line}\n" if keeps else ""
    words = re.findall(r"\w+", text)
    for name, (path, there) in dict(imported_by(item.path)).items():
        item = found_in([path], there) if name in words else None
        if item:
            yield item


def runs_of(row):
    """The worked runs, the tests, the stored cases and the examples that a row names, each with what it is."""
    for column, what in (("examples", "worked run"), ("tests", "test")):
        yield from ((what, told_of(item)) for item in items_of(row, column))
    for cited in row.get("tests", []):
        if "in" not in cited:
            note = f" ({cited['note']})" if "note" in cited else ""
            name = f", {cited['case']}" if "case" in cited and path_of(cited).suffix == ".txt" and path_of(cited).parent == CASES else ""
            yield "example" if GUIDED in path_of(cited).parents else "case", f"{path_of(cited)}{name}{note}"


# ---- what is printed


def wrapped(mark, text):
    """A text in lines of 110 characters, with the mark before each."""
    return [f" {mark} {part}" for part in textwrap.wrap(text, 110)]


def words_told(rule, is_whole, _seen=frozenset()):
    """The lines of the rule in words: all of them, or their place alone."""
    yield f"== {rule.title}{'' if rule.is_sure else ' (perhaps)'}"
    yield f"1. {rule.place}"
    for mark, text in rule.words if is_whole else ():
        yield from wrapped(mark, text)


def text_of(rule, is_whole, seen):
    """The lines that are printed of a rule: all of it, or the places alone, as of the items that were seen before."""
    row = rule.row
    yield from words_told(rule, is_whole)
    for item in items_of(row, "definitions"):
        if item.name in rule.without:
            continue
        is_new = is_whole and (item.path, item.place) not in seen
        yield f"2. {told_of(item)}{'' if is_new or not is_whole else ', as above'}"
        yield from (f"   {line}" for line in definition_of(item, rule.call) if is_new)
        if is_whole:
            seen.add((item.path, item.place))
    for item in items_of(row, "contracts"):
        lines, names = contract_of(item)
        is_new = is_whole and (item.path, item.place) not in seen
        yield f"3. {told_of(item, names)}{'' if is_new or not is_whole else ', as above'}"
        yield from (f" {mark} {line}" for mark, line in lines if is_new)
        cited = [one for one in cited_by(item, lines) if is_new and (one.path, one.place) not in seen]
        yield from (f"   cites {told_of(one)}" for one in cited)
        if is_whole:
            seen.add((item.path, item.place))
    yield f"4. {EVIDENCE}:{line_of(row)}"
    if is_whole:
        yield from (f"   mutant: {path}" for path in mutants_of(row) if path)
        yield from (f"   {what}: {text}" for what, text in runs_of(row))


def told(text, number=0, run=None, parts=text_of):
    """All lines that are printed of a line, of each rule those that `parts` gives."""
    rules, notes = rules_of(text, number, run)
    seen = set()
    yield f"line {number}: {text}" if number else text
    yield from (f"line {event.number}: {event.text} ({what})" for event, what in notes)
    for rule in rules:
        yield ""
        yield from (line.rstrip() for line in parts(rule, rule.is_sure or run is not None, seen))
    if parts is text_of:
        yield ""
        yield f"The signs of definitions and clauses: {place_of(SIGNS, READING)}"


def told_of_refusal(text, code):
    """The lines that are printed of the line of a refusal: the rows of docs/formats.md of its code."""
    found = [(number, row) for number, row in table(FORMATS) if code in re.findall(r"\d+", row.get("Code", ""))]
    if not found:
        raise Unknown(f"{text}: no refusal has this code ({place_of('refusals', FORMATS)})")
    yield text
    for number, row in found:
        yield f"a refusal: {FORMATS}:{number}"
        for column, cell in row.items():
            yield from wrapped(">", f"{column}: {plain(cell, FORMATS)}")


def answer(words, parts):
    """The lines that are printed: of the one line that is given, or of that with a number in a trace."""
    trace = pathlib.Path(words[0]).resolve()
    lines = trace.read_text().splitlines() if len(words) == 2 else []
    os.chdir(TOP)
    number = int(words[1]) if lines else 0
    if len(words) == 2 and not 1 <= number <= len(lines):
        raise Unknown(f"{words[0]}: no line {words[1]} among {len(lines)}")
    text = lines[number - 1] if number else words[0].strip()
    refusal = REFUSAL.fullmatch(text)
    if refusal:
        return told_of_refusal(text, refusal[1])
    if JUDGEMENT.fullmatch(text):
        raise Unknown(f"{text}: no line of a trace, but what `replay` or `audit` says of one (docs/formats.md, Judging a trace)")
    return told(text, number, run_around(lines, number - 1, system_beside(trace)) if number else None, parts)


# ---- all lines of the stored traces, for check_evidence.py


def is_line(text):
    return VERDICT.fullmatch(text) or RESTART.fullmatch(text) or is_event(text)


def stored_traces():
    """The traces of the examples, of the stored runs and in sources, without the lines that are wrong there, each with its
    file, or of a stored run its system's file."""
    line = r"(?:(?:p\d+|n\d+|dev) [a-z_]+\b[^\"\n{}]* -> [^\"\n{}]+|(?:quiet|stalled|full|restart) \d+)"
    for example in examples().values():
        yield example.trace, lines_of(example.trace)
    for command in (command for case in cases() for command in case.commands):
        if command.words()[:2] == ["ffm", "run"] and command.status in RUN_STATUSES:
            yield DATA / command.files()[0], command.text.decode().splitlines()
    for path in sorted(CRATES.glob("*/src/**/*.rt")):
        for trace in re.findall(rf"(?:{line}\n)+", path.read_text().replace("\\n", "\n")):
            yield path, [text for text in trace.splitlines() if is_line(text)]


def lacks_of(rule):
    """What a rule lacks of the four things."""
    tests = [item for item in runs_of(rule.row) if item[0] in ("test", "case")]
    things = ("rule", rule.words), ("definition", items_of(rule.row, "definitions")), ("clause", items_of(rule.row, "contracts")), ("test", tests)
    yield from (f"{rule.title}: no {what} ({EVIDENCE}:{line_of(rule.row)})" for what, found in things if not found)


def kinds_and_lacks():
    """The kinds of lines in the stored traces, and what the lines lack, with the first line of each lack. Lines are of
    a kind where they have the same words, negative numbers and rules. Each is looked up alone, and in its run."""
    kinds, lacks = set(), {}
    for path, lines in stored_traces():
        for place, line in enumerate(lines):
            words = re.sub(r"(?<=[a-z])\d+| (?:0x[0-9a-f]+|\d+|-\d)\b", "", line)
            for run in (None, run_around(lines, place, system_beside(path.resolve()))):
                try:
                    rules, _ = rules_of(line, place + 1, run)
                    kind = (words, *(rule.title for rule in rules))
                    new = [] if kind in kinds else [what for rule in rules for what in lacks_of(rule)]
                    kinds.add(kind)
                except Unknown as unknown:
                    new = [str(unknown)]
                for what in new:
                    lacks.setdefault(what, f"{path}: {line}: {what}")
    return kinds, list(lacks.values())


def main():
    words = [word for word in sys.argv[1:] if word != "--rule"]
    parts = words_told if "--rule" in sys.argv[1:] else text_of
    is_number = len(words) == 2 and re.fullmatch("[0-9]+", words[1])
    asks_help = words in (["--help"], ["-h"])
    if not asks_help and (len(words) != 1 and not is_number or words[0].startswith("-")):
        print(USAGE, file=sys.stderr)
        sys.exit(2)
    try:
        print(f"{USAGE}\n\n{__doc__}" if asks_help else "\n".join(answer(words, parts)), flush=True)
    except BrokenPipeError:
        # Who reads it has read enough, as head does.
        os.dup2(os.open(os.devnull, os.O_WRONLY), sys.stdout.fileno())
    except (OSError, UnicodeDecodeError, Unknown) as wrong:
        print(f"rule_of_line.py: {wrong}", file=sys.stderr)
        sys.exit(1)


if __name__ == "__main__":
    main()
