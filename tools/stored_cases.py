#!/usr/bin/env python3
"""Says of each stored case where its expectation comes from, and whether all that stands of it agrees.

    python3 tools/stored_cases.py [--program FILE [--change]]

Run at the top of the repository. A case is a heading of crates/stored_cases/data/commands.txt with the commands below it;
its files, if it has some, lie in the folder of its name, and sources.txt beside data/ says where its expectation comes
from: `hand`, written by hand from the rules and formats, `machine`, told by the second readings below, or both.

Compared are:
- stdout beside data/: it has the lines of commands.txt, and after each command its text and its status;
- the files of a case, but for README.md: each is named by a sha256sum line of the case, with the digest that it has;
- the texts of `ffm replay` and `ffm audit`: they are those of plain_machine.py, of `ffm run` those of plain_run.py, of
  `ffm compile` those of plain_listing.py, and of `ffm_explore` those of plain_explore.py, but where a file or the words are
  refused. A run with threads is judged by plain_machine.py. The last part of an `ffm_view state` is that of
  plain_standing.py;
- a case without `hand` in its source: it has such texts alone;
- trace.txt, listing.txt and audit.txt of a case, where a command of it writes them: they are its text;
- each example has those commands, and a row in examples/README.md.

With --program the program stored_cases is run on a copy of the data, and has to write stdout. With --change too, one byte
is changed in each file, in each line of commands.txt, and in each stored text and status, one at a time: the commands that
name the file, that line, and what the program writes of the case have to show it.

Prints a line for each case, and what is wrong; the status is 1 where something is."""

import argparse
import hashlib
import json
import pathlib
import re
import shutil
import subprocess
import sys
import tempfile
from dataclasses import dataclass

import plain_explore
import plain_listing
import plain_machine
import plain_run
import plain_standing
from example_files import STORED, examples

DATA = STORED / "data"
COMMANDS, WANTED, SOURCES = DATA / "commands.txt", STORED / "stdout", STORED / "sources.txt"
LIST = pathlib.Path("examples/README.md")
HEADING = re.compile(r"# (\w+/\w+): [^\n]*\.")
DIGESTS, PAGE = "sha256sum", "README.md"
RUN_STATUSES, JUDGED = (0, 4, 5), {"replay": False, "audit": True}
NO_RESTARTS = b" scenario /restarts\n"
# The files that hold what a command writes, with its words before the name of the case's folder, and the other files.
WRITTEN = {"trace.txt": ("run", ["system.json", "scenario.json"]), "listing.txt": ("compile", ["system.json"]),
           "audit.txt": ("audit", ["system.json", "scenario.json", "trace.txt"])}


@dataclass
class Command:
    """A line of the list, with the text and the status that are wanted of it."""
    line: str
    text: bytes
    status: int

    def words(self):
        """Its words. The last one may hold spaces, between single quotation marks."""
        quoted = re.fullmatch("(.*?) '(.*)'", self.line)
        return [*quoted[1].split(" "), quoted[2]] if quoted else self.line.split(" ")

    def is_checksums(self):
        """Whether it writes the checksums of files, and is no command of `ffm`, `ffm_view` or `ffm_explore`."""
        return self.words()[0] == DIGESTS

    def files(self):
        """The files that a command of `ffm` names."""
        return [word for word in self.words()[2:] if not word.startswith("--")]

    def stored(self):
        return f"{self.line}\n".encode() + self.text + f"status {self.status}\n".encode()


@dataclass
class Case:
    """A heading, and the commands below it."""
    heading: str
    commands: list[Command]

    def name(self):
        return HEADING.fullmatch(self.heading)[1]

    def folder(self):
        return DATA / self.name()

    def files(self):
        """The names of its files, as they are seen from data/."""
        return sorted(str(path.relative_to(DATA)) for path in self.folder().glob("*") if path.name != PAGE)

    def lines(self):
        return [self.heading, *(command.line for command in self.commands)]

    def stored(self):
        return f"{self.heading}\n".encode() + b"".join(command.stored() for command in self.commands)


# ---- what is stored


def cut_after(text, line, following):
    """The text and the status behind a line at the beginning of a stored output, and what is left from the following
    line on."""
    end = re.escape(f"{following}\n".encode()) if following else rb"\Z"
    found = re.match(re.escape(f"{line}\n".encode()) + rb"(?s:(|.*?\n))status (\d+)\n(?=" + end + rb")", text)
    if not found:
        sys.exit(f"{WANTED}: no text and status of the line: {line}")
    return found[1], int(found[2]), text[found.end():]


def cases():
    """The stored cases, in their order."""
    lines, left, found = COMMANDS.read_text().splitlines(), WANTED.read_bytes(), []
    for line, following in zip(lines, [*lines[1:], None]):
        if line.startswith("# "):
            if not HEADING.fullmatch(line) or not left.startswith(f"{line}\n".encode()):
                sys.exit(f"{WANTED}: another heading is wanted: {line}")
            left = left.removeprefix(f"{line}\n".encode())
            found.append(Case(line, []))
        else:
            text, status, left = cut_after(left, line, following)
            found[-1].commands.append(Command(line, text, status))
    return found


def sources():
    """Where the expectation of each case comes from."""
    return dict(line.split(": ", 1) for line in SOURCES.read_text().splitlines())


# ---- the second readings


def judged_again(command):
    """What plain_machine.py says of a judged trace; None where ffm refuses a file that stands before the trace."""
    is_of_trace = command.text.startswith(b"refused") and command.text.split()[3] == b"trace"
    if command.status == 1 and not is_of_trace and not command.text.endswith(NO_RESTARTS):
        return None
    try:
        status, text = plain_machine.answer_of_files(*command.files(), JUDGED[command.words()[1]], DATA)
    except plain_machine.NotTaken as wrong:
        status, _ = wrong.args
        return status, ""
    return status, f"{text}\n"


def run_again(command):
    """What plain_run.py says of a run in turns. Of one with threads it is the stored text, if it is a legal run."""
    system, scenario = command.files()
    if "--threads" not in command.words():
        return plain_run.answer_of_files(system, scenario, DATA)
    read = plain_machine.read_system(system, DATA), plain_machine.read_scenario(DATA / scenario)
    status, text = plain_machine.answer(*read, command.text, False)
    return (command.status, command.text.decode()) if status == 0 else (status, text)


def explored_again(command):
    """What plain_explore.py says of all interleavings; None where ffm_explore refuses a file or tells how it is called."""
    _, question, *words = command.words()
    if question not in plain_explore.QUESTIONS or "--help" in words or command.status == 1 and not command.text.endswith(NO_RESTARTS):
        return None
    read = plain_explore.parser_of_words().parse_intermixed_args([*words[:2], question, *words[2:]])
    asked = plain_explore.Asked(question, read.words, read.states, read.context, read.as_scenario)
    try:
        return plain_explore.answer_of_files(read.system, read.scenario, asked, DATA)
    except plain_machine.NotTaken as wrong:
        return wrong.args[0], ""


def read_again(command):
    """The status and the text of a command by a second reading; None where none can tell."""
    program, word = [*command.words(), ""][:2]
    if program == "ffm_explore" and (command.status != 2 or command.text.startswith(b"no ")):
        return explored_again(command)
    if program != "ffm" or command.status == 2:
        return None
    if word in JUDGED:
        return judged_again(command)
    if word == "run" and command.status in RUN_STATUSES:
        return run_again(command)
    return (0, plain_listing.listing_of_file(*command.files(), DATA)) if word == "compile" and command.status == 0 else None


def stands_otherwise(command):
    """Whether plain_standing.py says otherwise of where scripts stand, in the last part of a state or as JSON."""
    if command.words()[:2] != ["ffm_view", "state"]:
        return False
    files = [word for word in command.files() if not word.isdecimal()]
    if command.text.startswith(b'{"actors":'):
        state = json.loads(command.text)
        told = plain_standing.member(*files, state["place"], DATA)
        return told is not False and told != state.get("scripts")
    shown = re.match(rb"state after entry (\d+) of", command.text)
    if not shown:
        return False
    told = plain_standing.section(*files, int(shown[1]), DATA)
    return told is not None and (plain_standing.HEADING.encode() in command.text) != bool(told) or not command.text.endswith((told or "").encode())


# ---- what is wrong


def digest_lines(names):
    return "".join(f"{hashlib.sha256((DATA / name).read_bytes()).hexdigest()}  {name}\n" for name in names).encode()


def wrong_files(case):
    """Files without a digest, digests without a file, and other digests than the stored ones."""
    digests = [command for command in case.commands if command.is_checksums()]
    named = [name for command in digests for name in command.words()[1:]]
    if named != case.files():
        yield f"{case.name()}: the {DIGESTS} lines don't name these, in order: {set(named) ^ set(case.files()) or 'its files'}"
    for command in digests:
        if all((DATA / name).is_file() for name in command.words()[1:]) and command.text != digest_lines(command.words()[1:]):
            yield f"{case.name()}: a digest is another"


def text_of(case, command, files):
    """The text of a command over a case's files, if it is there."""
    line = " ".join(["ffm", command, *(f"{case.name()}/{file}" for file in files)])
    return next((command.text for command in case.commands if command.line == line), None)


def wrong_written(case, has_to_be_there):
    """Files that hold another text than the command writes."""
    for name, (command, files) in WRITTEN.items():
        path, text = case.folder() / name, text_of(case, command, files)
        if path.exists() and (text is not None or has_to_be_there) and path.read_bytes() != text:
            yield f"{path}: another text than that of ffm {command}"


def wrong_of(case, source, is_example):
    """What is wrong of a case. Its source is told, and how many texts the second readings tell."""
    again = [(command, read_again(command)) for command in case.commands if not command.is_checksums()]
    told = sum(answer is not None for _, answer in again)
    print(f"{case.name()}: {source or 'NO SOURCE'} ({told} of {len(again)} texts read again)")
    for command, answer in again:
        if answer not in (None, (command.status, command.text.decode(errors="replace"))):
            yield f"{case.name()}: a second reading says otherwise: {command.line}"
        if stands_otherwise(command):
            yield f"{case.name()}: a second reading of where scripts stand says otherwise: {command.line}"
    if "hand" not in source and told < len(again):
        yield f"{case.name()}: its source isn't told to be by hand, but no second reading tells {len(again) - told} of its texts"
    yield from (*wrong_files(case), *wrong_written(case, is_example))


def wrong_names(found):
    """Cases that stand twice, files without a case, cases without a source, sources without a case, examples without a
    row."""
    names, stated = [case.name() for case in found], sources()
    folders = {str(path.parent.relative_to(DATA)) for path in DATA.glob("*/*/*")}
    files = [path for path in DATA.rglob("*") if path.is_file() and path != COMMANDS]
    yield from (f"{name} stands twice" for name in sorted({name for name in names if names.count(name) > 1}))
    yield from (f"{name}: a folder without a case" for name in sorted(folders - set(names)))
    yield from (f"{path}: a file of no case" for path in files if len(path.relative_to(DATA).parts) != 3)
    yield from (f"{name}: a case without a source" for name in sorted(set(names) - set(stated)))
    yield from (f"{name}: a source without a case" for name in sorted(set(stated) - set(names)))
    yield from (f"{name} has no row in {LIST}" for name in examples() if f"\n| [{name}](" not in LIST.read_text())


# ---- the program


class Room:
    """A copy of the data, in which the program does lists of commands."""

    def __init__(self, folder, program):
        self.data, self.program = pathlib.Path(folder) / "data", program.resolve()
        shutil.copytree(DATA, self.data)

    def written(self, lines):
        """What the program writes of these lines, and its status."""
        (self.data / COMMANDS.name).write_text("".join(f"{line}\n" for line in lines))
        ran = subprocess.run([self.program], cwd=self.data, stdin=subprocess.DEVNULL, capture_output=True)
        return ran.stdout, ran.returncode


def changed(content, place):
    """The bytes with another one at a place; of none, one."""
    return content[:place] + bytes([content[place] ^ 1]) + content[place + 1:] if content else b"\0"


def unnoticed_files(room, case):
    """Files that could have another byte, as far as the commands show that name them."""
    for name in case.files():
        named = Case(case.heading, [command for command in case.commands if name in command.words()])
        path = room.data / name
        content = path.read_bytes()
        path.write_bytes(changed(content, len(content) // 2))
        if room.written(named.lines()) == (named.stored(), 0):
            yield name
        path.write_bytes(content)


def unnoticed_lines(room, case):
    """Lines of the list that could have another last byte."""
    for command in case.commands:
        if room.written([command.line[:-1] + chr(ord(command.line[-1]) ^ 1)]) == (command.stored(), 0):
            yield command.line
    if room.written([case.heading[:-1] + "!"])[0] == f"{case.heading}\n".encode():
        yield case.heading


def unnoticed_texts(written, case):
    """Commands whose stored text or status could be another."""
    for place, command in enumerate(case.commands):
        text, status = changed(command.text, len(command.text) // 2), command.status ^ 1
        for other in (Command(command.line, text, command.status), Command(command.line, command.text, status)):
            if Case(case.heading, [*case.commands[:place], other, *case.commands[place + 1:]]).stored() == written:
                yield command.line


def unnoticed(room, found):
    """Each change of a byte that the commands of its case don't show; and how many were tried."""
    missed, tried = [], 0
    for case in found:
        written, _ = room.written(case.lines())
        if written != case.stored():
            missed.append(f"{case.name()}: alone the program writes another text")
        unseen = [*unnoticed_files(room, case), *unnoticed_lines(room, case), *unnoticed_texts(written, case)]
        missed += [f"{case.name()}: not noticed: {what}" for what in unseen]
        tried += len(case.files()) + 1 + 3 * len(case.commands)
    return missed, tried


def wrong_by_program(found, program, changes):
    with tempfile.TemporaryDirectory() as folder:
        room = Room(folder, program)
        written, status = room.written([line for case in found for line in case.lines()])
        wrong = [f"{program} writes another text than {WANTED}"] if written != WANTED.read_bytes() else []
        wrong += [f"{program} ends with the status {status}"] if status else []
        if changes:
            missed, tried = unnoticed(room, found)
            wrong += missed
            print(f"{tried} bytes changed, {tried - len(missed)} noticed")
    return wrong


def main():
    parser = argparse.ArgumentParser(description=__doc__.splitlines()[0])
    parser.add_argument("--program", type=pathlib.Path, help="the built stored_cases")
    parser.add_argument("--change", action="store_true", help="change bytes one at a time, with the program")
    arguments = parser.parse_args()
    if arguments.change and not arguments.program:
        parser.error("--change needs --program")
    found, stated = cases(), sources()
    are_examples = {str(example.folder.relative_to(DATA)) for example in examples().values() if DATA in example.folder.parents}
    wrong = [what for case in found for what in wrong_of(case, stated.get(case.name(), ""), case.name() in are_examples)]
    wrong += wrong_names(found)
    if arguments.program:
        wrong += wrong_by_program(found, arguments.program, arguments.change)
    print("\n".join(wrong) if wrong else f"{len(found)} cases, {sum(len(case.commands) for case in found)} commands agree")
    sys.exit(1 if wrong else 0)


if __name__ == "__main__":
    main()
