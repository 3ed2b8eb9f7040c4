#!/usr/bin/env python3
"""Refuses `ffm` one allocation of a run after the other, and compares what each command does then.

    python3 tools/refuse_memory.py [--from N] [--most N] [--step N] [--example DIR] [--explore]

Run at the top of the repository. It tries `run`, `replay`, `audit` and `compile` on the files of an example, and
refuses the allocation N: for each N from `--from` up to `--most`, in steps of `--step`.
A command that finds no memory has to end with the status 9 and to write nothing. One that makes fewer than N
allocations, or does without that one, has to write what it writes else, to the byte, and to end with the same
status; `run` writes the example's trace.txt. With `--explore` it tries the commands of `ffm_explore` instead, which
may also end with 5, or with 4 where a stall was found before, and a text that says up to how many events all was
explored for want of memory. Prints for each N what each command did, and at the end for each
command at which N it did what. Ends with the status 1 where a command did anything else, as a panic, a part of its
text or another status, and prints what the kit says of it; with 2 where nothing could be tried.

Nothing is proved. The kit builds the program anew for each N, which takes a minute or two, and runs all commands on
that build. So choose a step: the CI doesn't run this."""

import argparse
import pathlib
import re
import subprocess
import sys
import tempfile
from dataclasses import dataclass, field

from example_files import GUIDED

RUN_WORDS = {
    "run": ["run", "system.json", "scenario.json"],
    "replay": ["replay", "system.json", "scenario.json", "trace.txt"],
    "audit": ["audit", "system.json", "scenario.json", "trace.txt"],
    "compile": ["compile", "system.json"],
}
FILES = ["system.json", "scenario.json"]
EXPLORE_WORDS = {
    "all": ["all", *FILES],
    "stall": ["stall", *FILES],
    "entry": ["entry", *FILES, "n1 framework_version -> value 0"],
    "line": ["line", *FILES, "NS", "0"],
}
USAGE, NO_MEMORY = 2, 9
SHORT = re.compile(rb"unfinished for want of memory: every schedule of up to \d+ events was explored\n\Z")
ENDED = re.compile(r"^case=(\S+) run=ended status=(\d+)\b(.*)$", re.M)
TRIED = re.compile(r"^cases=\d+ .*proved=no$", re.M)


@dataclass
class Command:
    """A command with its status and its text where no allocation is refused, and at which N it did what."""
    name: str
    status: int
    text: bytes
    refused: list[int] = field(default_factory=list)
    right: list[int] = field(default_factory=list)
    short: list[int] = field(default_factory=list)
    other: list[int] = field(default_factory=list)


@dataclass
class Program:
    """A program: its crate, and the words of its commands by their names."""
    crate: pathlib.Path
    words: dict[str, list[str]]


FFM = Program(pathlib.Path("crates/ffm"), RUN_WORDS)
EXPLORE = Program(pathlib.Path("crates/ffm_explore"), EXPLORE_WORDS)


def stop(reason):
    print(reason, file=sys.stderr)
    sys.exit(2)


def add_case(folder, case, words):
    """A case for the kit: no input, and the words after the program's name."""
    (folder / case).touch()
    (folder / f"{case}.args").write_text("\n".join(words) + "\n")


def tried(program, example, cases, *flags):
    """What one build of the program writes in all cases of a folder, by their names, and what the kit says of them."""
    data = [word for path in sorted(example.glob("*.*")) for word in ("--data", f"{path.name}={path}")]
    words = ["rt", "try", *flags, "--cases", str(cases), *data]
    ran = subprocess.run(words, cwd=program.crate, stdin=subprocess.DEVNULL, capture_output=True)
    said = ran.stderr.decode(errors="replace")
    if not TRIED.search(said):
        stop(f"nothing was tried by {' '.join(words)}\n{said}")
    # The kit puts a line `== NAME` before each text.
    parts = re.split(rb"^== (\S+)\n", ran.stdout, flags=re.M)
    return {name.decode(): text for name, text in zip(parts[1::2], parts[2::2])}, said


def commands_of(program, example, folder):
    """The commands, as they are where no allocation is refused."""
    for name, words in program.words.items():
        add_case(folder, name, words)
    texts, said = tried(program, example, folder)
    statuses = {name: int(status) for name, status, _ in ENDED.findall(said)}
    for name in program.words:
        text = texts.get(name, b"")
        if statuses.get(name) in (None, USAGE, NO_MEMORY) or text == b"":
            stop(f"{name} fails where no allocation is refused\n{said}")
        if name == "run" and text != (example / "trace.txt").read_bytes():
            stop("run doesn't write the example's trace.txt")
        yield Command(name, statuses[name], text)


def judged(command, status, text):
    """What the command did: the numbers among which N belongs, and the words for it."""
    if (status, text) == (NO_MEMORY, b""):
        return command.refused, "9 and nothing"
    if (status, text) == (command.status, command.text):
        return command.right, "the right text"
    if status in (4, 5) and SHORT.search(text):
        return command.short, "unfinished"
    return command.other, "SOMETHING ELSE"


def refuse(program, commands, example, cases, number):
    """Tries all commands with the allocation of this number refused."""
    texts, said = tried(program, example, cases, "--fail-alloc", str(number))
    statuses = {name: int(status) for name, status, _ in ENDED.findall(said)}
    did = []
    for command in commands:
        numbers, words = judged(command, statuses.get(command.name), texts.get(command.name, b""))
        numbers.append(number)
        did.append(f"{command.name} {words}")
    print(f"N = {number}: {', '.join(did)}", flush=True)
    if any(number in command.other for command in commands):
        print(said, flush=True)


def spans(numbers, step):
    """Numbers as text; those that follow each other by the step are one span."""
    found = []
    for number in numbers:
        if found and number == found[-1][1] + step:
            found[-1][1] = number
        else:
            found.append([number, number])
    return ", ".join(str(first) if first == last else f"{first} to {last}" for first, last in found) or "none"


def main():
    parser = argparse.ArgumentParser(description=__doc__.splitlines()[0])
    parser.add_argument("--from", dest="first", type=int, default=1, help="the first allocation to refuse")
    parser.add_argument("--most", type=int, default=500, help="the last one, at most")
    parser.add_argument("--step", type=int, default=1, help="refuse every so many")
    parser.add_argument("--example", type=pathlib.Path, default=GUIDED / "two_requests")
    parser.add_argument("--explore", action="store_true", help="try the commands of ffm_explore")
    arguments = parser.parse_args()
    if arguments.first < 1 or arguments.step < 1:
        parser.error("--from and --step are at least 1")
    example, program = arguments.example.resolve(), EXPLORE if arguments.explore else FFM
    with tempfile.TemporaryDirectory() as cases:
        commands = list(commands_of(program, example, pathlib.Path(cases)))
        for number in range(arguments.first, arguments.most + 1, arguments.step):
            refuse(program, commands, example, cases, number)
    for command in commands:
        kinds = {"9 and nothing": command.refused, "the right text": command.right, "unfinished": command.short, "something else": command.other}
        print(f"{command.name}: " + "; ".join(f"{kind} at {spans(numbers, arguments.step)}" for kind, numbers in kinds.items()))
    sys.exit(1 if any(command.other for command in commands) else 0)


if __name__ == "__main__":
    main()
