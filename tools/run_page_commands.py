#!/usr/bin/env python3
"""Runs the commands of the pages as a new user would, and compares what comes with what the pages show.

    python3 tools/run_page_commands.py [--program FILE] [--view FILE] [--explore FILE] [PAGE ..]

Run at the top of the repository. Takes README.md, docs/*.md and the README.md of the examples, or the pages that are
named. The blocks of commands of a page are run in their order on a copy of the repository: the first at its top, and
each further one in the folder in which the one before it ended. Where the commands say ffm, the FILE of --program is
run, where they say ffm_view that of --view, and where ffm_explore that of --explore, the proved programs; with no FILE
it is tools/try_ffm.sh, tools/try_ffm_view.sh or tools/try_ffm_explore.sh, which takes a minute or two at its first call.
The CI, what needs its libraries, and git are not run, and told.

What the page shows is looked for in what its commands wrote, and in the texts that stand beside the examples they
name. Compared are:
- blocks of lines that ffm writes: they come, in this order;
- the block after commands of ffm_view, ffm_explore and tools/rule_of_line.py: it is all that they write, where a line `..`
  stands for any lines;
- lines of a trace or an audit in the first cells of a table: they come, and one with its number after it, as in
  `quiet 31` (32), is that line; `..` stands for anything;
- a last line, as `legal 6`, outside of the sections "To try": it comes, and with the status after it;
- a link [trace.txt](trace.txt), listing.txt or audit.txt: some block wrote that text;
- the status of a block: 0, unless its last command is diff.

Prints what differs, and ends with the status 1 where something does."""

import argparse
import os
import pathlib
import re
import shlex
import shutil
import subprocess
import sys
import tempfile
from dataclasses import dataclass, field

from example_files import GUIDED, examples

COMMAND = re.compile(
    r"ffm (?:compile|run|replay|audit|make)\b|ffm_(?:view|explore) \w+ (?![A-Z])"
    r"|(?:python3|rt|git|jq|sed|awk|grep|diff|\(?cd|export) |tools/|\.ci/run|set -eu"
)
WHOLE = re.compile(r"^(?:ffm_view|ffm_explore|python3 tools/rule_of_line\.py) ", re.M)
NOT_RUN = re.compile(r"\.ci/run|tools/list_axioms|\brt (ci|version)\b|\bgit ")
ENTRY = r"(?:p\d+|n\d+|dev) [a-z_]+\b[^`]*"
VERDICT = r"(?:quiet|stalled|full|legal|illegal|clean|restart) \d+"
CHANGE = r"\d+ 0x[0-9a-f]{8} \d+ (?:-|0x[0-9a-f]{8})"
LISTED = r"(?:isolation|partition|service|irq|mmio|nonsecure|client|connections|stateless|admitted) .*"
KIT = r"(?:checked:|races:|run=).*"
WRITTEN = re.compile(f"{ENTRY} -> .+|{VERDICT}|{CHANGE}|{LISTED}|{KIT}|usage: ffm .*|refused \\d+ .*|\\d")
QUOTED = re.compile(f"`({ENTRY}|{VERDICT}|{CHANGE})`(?: \\((\\d+)\\))?")
ENDED = re.compile(r"`((?:quiet|stalled|full|legal|illegal|clean) \d+)`(?:,? (?:status|and(?: `ffm`'s status is)?) (\d)\b)?")
LAST = re.compile(f"^{VERDICT}$", re.M)
LINKED = re.compile(r"\[(trace\.txt|listing\.txt|audit\.txt)\]\(([^)]*)\)")
EXAMPLE = re.compile(r"\| \[(\w+)\]\(")
BESIDE = ("listing.txt", "audit.txt")

# It runs a program, or what stands in for it, and notes its status.
STAND_IN = """#!/bin/bash
{program} "$@"
status=$?
echo $status >> {statuses}
exit $status
"""


@dataclass
class Part:
    """A block between ``` or one other line, the number of its line in the page, and the section in which it stands."""
    line: int
    section: str
    text: str
    is_block: bool = False

    def is_command(self):
        return self.is_block and COMMAND.match(self.text) is not None

    def is_written(self):
        lines = self.text.splitlines()
        return self.is_block and lines != [] and all(WRITTEN.fullmatch(line) for line in lines)


@dataclass
class Output:
    """What a block of commands wrote, with the statuses of the program in it."""
    text: str
    statuses: list[int] = field(default_factory=list)
    errors: str = ""

    def lines(self):
        return self.text.splitlines()


def parts_of(page):
    """The blocks and the other lines of a page."""
    section, block = "", None
    for number, line in enumerate(page.read_text().splitlines(), 1):
        if line.startswith("```"):
            if block is None:
                block = Part(number + 1, section, "", is_block=True)
            else:
                yield block
                block = None
        elif block is not None:
            block.text += line + "\n"
        else:
            if line.startswith("#"):
                section = line.lstrip("# ")
            yield Part(number, section, line)


class Shell:
    """A user's shell in a copy of the repository, with programs, by their names, in the place of the built ones. A name
    with none is run by its script, without proofs."""

    def __init__(self, folder, programs):
        folder = pathlib.Path(folder).resolve()
        self.top = folder / "copy"
        shutil.copytree(".", self.top, symlinks=True, ignore=shutil.ignore_patterns("out", ".git", "__pycache__"))
        self.statuses, self.stands = folder / "statuses", folder / "stands"
        folders = [str(self.stand_in(name, program).parent) for name, program in programs.items()]
        self.environment = os.environ | {"PATH": ":".join([*folders, os.environ["PATH"]])}
        self.to_the_top()

    def stand_in(self, name, program):
        """The file that stands where the program of that name is built, and runs the given one."""
        place = self.top / "crates" / name / "out" / name
        place.parent.mkdir()
        words = [shlex.quote(str(path.resolve())) for path in (program or self.top / f"tools/try_{name}.sh", self.statuses)]
        place.write_text(STAND_IN.format(program=words[0], statuses=words[1]))
        place.chmod(0o755)
        return place

    def to_the_top(self):
        self.stands.write_text(str(self.top))

    def run(self, block):
        """What the commands of a block write, and the status of the block. The next one stands where this one ends."""
        self.statuses.write_text("")
        text = f"trap 'pwd > {shlex.quote(str(self.stands))}' EXIT\n{block.text}"
        ran = subprocess.run(["bash", "-c", text], cwd=self.stands.read_text().strip(), env=self.environment,
                             stdin=subprocess.DEVNULL, capture_output=True, text=True)
        return Output(ran.stdout, [int(word) for word in self.statuses.read_text().split()], ran.stderr), ran.returncode


def is_line(quoted, line):
    """Whether a quoted text is that line, or begins it where no outcome is quoted."""
    if " -> " not in quoted and re.match(ENTRY, quoted):
        quoted += ".."
    pattern = re.sub(r"(\\\.){2,}", ".*", re.escape(quoted))
    return re.fullmatch(pattern, line) is not None


def comes_in_order(quotes, lines):
    """Whether the quotes are lines of a text, one after the other."""
    left = iter(lines)
    return all(any(is_line(quoted, line) for line in left) for quoted in quotes)


def is_all(shown, text):
    """Whether the text shown is that text, where a line `..` stands for any lines."""
    lines = (r"(?:.*\n)*" if line == ".." else re.escape(line) + r"\n" for line in shown.splitlines())
    return re.fullmatch("".join(lines), text) is not None


def comes_at(quoted, number, lines):
    return number <= len(lines) and is_line(quoted, lines[number - 1])


def table_rows(parts):
    """The tables of a page, each a list of rows, a row the part and its cells."""
    table = []
    for part in parts:
        if not part.is_block and part.text.startswith("|"):
            table.append((part, [cell.strip() for cell in part.text.strip("|").split(" | ")]))
        elif table:
            yield table
            table = []
    if table:
        yield table


def wrong_in_table(table, texts):
    """The rows of a table that quote in their first cell what doesn't come."""
    in_order = []
    for part, cells in table:
        quotes = QUOTED.findall(cells[0]) if cells[0].startswith("`") else []
        for quoted, number in quotes:
            if number and not any(comes_at(quoted, int(number), lines) for lines in texts):
                yield part, f"line {number} isn't `{quoted}`"
        if quotes and re.fullmatch(CHANGE, quotes[0][0]):
            yield from wrong_change(part, quotes[0][0], cells[1], texts)
        else:
            in_order += [quoted for quoted, number in quotes if not number]
    if in_order and not any(comes_in_order(in_order, lines) for lines in texts):
        lost = [quoted for quoted in in_order if not any(is_line(quoted, line) for lines in texts for line in lines)]
        yield table[0][0], f"these lines don't come in this order: {lost or in_order}"


def wrong_change(part, change, beside, texts):
    """Where a line of an audit doesn't come, or the cell beside it isn't the entry of its number."""
    number = int(change.split()[0])
    if not any(change in lines for lines in texts):
        yield part, f"`{change}` doesn't come"
    for quoted, _ in QUOTED.findall(beside)[:1]:
        if not any(comes_at(quoted, number, lines) for lines in texts):
            yield part, f"line {number} isn't `{quoted}`"


def wrong_in_line(part, outputs, texts):
    """What a line outside of tables quotes that doesn't come."""
    for quoted, number in QUOTED.findall(part.text):
        if number and not any(comes_at(quoted, int(number), lines) for lines in texts):
            yield part, f"line {number} isn't `{quoted}`"
    for quoted, status in ENDED.findall(part.text):
        found = [output for output in outputs if quoted in output.lines()]
        if not found and not any(quoted in lines for lines in texts):
            yield part, f"`{quoted}` doesn't come"
        if found and status and not any(int(status) in output.statuses or status in output.lines() for output in found):
            yield part, f"`{quoted}` comes without the status {status}"


def wrong_links(page, part, outputs):
    """The texts beside the page to which the part links, and which no block wrote."""
    for name, target in LINKED.findall(part.text):
        text = (page.parent / target).read_text()
        if not any(text in output.text for output in outputs):
            yield part, f"no command writes {name}"


def last_lines(part):
    """Where a row of the table of examples has another last line than the example's trace."""
    linked = EXAMPLE.match(part.text)
    example = examples().get(linked[1]) if linked else None
    if example:
        lines = example.trace.read_text().splitlines()
        for quoted in re.findall(f"`({VERDICT})`", part.text.split(" | ")[-1]):
            if quoted not in lines:
                yield part, f"`{quoted}` isn't in the trace of {example.name}"


def examples_of(commands):
    """The lines of the texts beside the examples that the commands name."""
    named = [example for example in examples().values() if any(example.is_named_in(block.text) for block in commands)]
    paths = [path for example in named for path in (example.trace, *(example.folder / name for name in BESIDE))]
    return [path.read_text().splitlines() for path in paths if path.exists()]


def wrong_wholes(parts, outputs, commands):
    """The blocks after commands of ffm_view, ffm_explore and tools/rule_of_line.py that aren't what these write."""
    written = {block.line: output.text for block, output in zip(commands, outputs)}
    blocks = [part for part in parts if part.is_block]
    for before, block in zip(blocks, blocks[1:]):
        if WHOLE.search(before.text) and before.line in written and not block.is_command():
            if not is_all(block.text, written[before.line]):
                yield block, "the commands above write another text"


def shown_wrong(page, parts, outputs, commands):
    """What the page shows and its commands don't write."""
    texts = [output.lines() for output in outputs] + examples_of(commands)
    both = texts + [(output.text + output.errors).splitlines() for output in outputs]
    for part in parts:
        if part.is_written() and not any(comes_in_order(part.text.splitlines(), lines) for lines in both):
            yield part, "these lines don't come"
        if part.is_block or part.section == "To try":
            continue
        yield from wrong_links(page, part, outputs)
        yield from last_lines(part)
        if not part.text.startswith("|"):
            yield from wrong_in_line(part, outputs, texts)
    for table in table_rows(part for part in parts if part.section != "To try"):
        yield from wrong_in_table(table, texts)
    yield from wrong_wholes(parts, outputs, commands)


def wrong_of(page, shell):
    """Runs the commands of a page, and gives what it shows wrongly."""
    parts = list(parts_of(page))
    commands, outputs = [], []
    shell.to_the_top()
    for block in parts:
        if not block.is_command():
            continue
        if NOT_RUN.search(block.text):
            print(f"{page}:{block.line}: not run: {block.text.splitlines()[0]}", flush=True)
            continue
        output, status = shell.run(block)
        commands.append(block)
        outputs.append(output)
        if status != 0 and not block.text.splitlines()[-1].startswith("diff "):
            yield block, f"status {status}: {output.errors.strip()[-300:]}"
    is_shown = any(output.statuses or LAST.search(output.text) for output in outputs)
    if is_shown or any(WHOLE.search(block.text) for block in commands):
        yield from shown_wrong(page, parts, outputs, commands)


def main():
    parser = argparse.ArgumentParser(description=__doc__.splitlines()[0])
    parser.add_argument("--program", type=pathlib.Path, help="the proved ffm")
    parser.add_argument("--view", type=pathlib.Path, help="the proved ffm_view")
    parser.add_argument("--explore", type=pathlib.Path, help="the proved ffm_explore")
    parser.add_argument("pages", nargs="*", type=pathlib.Path)
    arguments = parser.parse_args()
    of_examples = [pathlib.Path("examples/README.md"), *sorted(GUIDED.glob("*/README.md"))]
    all_pages = [pathlib.Path("README.md"), *sorted(pathlib.Path("docs").glob("*.md")), *of_examples]
    count = 0
    with tempfile.TemporaryDirectory() as folder:
        shell = Shell(folder, {"ffm": arguments.program, "ffm_view": arguments.view, "ffm_explore": arguments.explore})
        for page in arguments.pages or all_pages:
            for part, words in wrong_of(page, shell):
                print(f"{page}:{part.line}: {words}", flush=True)
                count += 1
    sys.exit(1 if count else 0)


if __name__ == "__main__":
    main()
