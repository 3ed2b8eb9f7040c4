"""Makes a scenario as ffm reads it of one that a person wrote, and keeps where each of its places comes from.

docs/firmware_tests.md says what such a scenario may have."""

import contextlib
import json
import pathlib
import re
from dataclasses import dataclass, field

from c_symbols import NoNumber, defines_in, number_of
from expectations import Expectation
from json_places import line_of, lines_below
from plain_machine import taken
from plain_script import LOCAL_LINES
from scenario_names import NoName, value_of

OWN = ("constants", "headers", "expect")
OWN_OF_SCRIPTS = ("file", "constants")
OWN_OF_MEMORY = ("name", "vectors", "words", "text")


class Wrong(Exception):
    """All that is wrong in a scenario, a line each."""


@dataclass
class Source:
    """A text with its file."""
    path: pathlib.Path
    text: str

    def at(self, line):
        return f"{self.path}:{line}: {self.text.splitlines()[line - 1].strip()}"


@dataclass
class Scenario:
    """A scenario as ffm reads it, with the places of a person's files that its places come from."""
    tree: dict
    source: Source
    lines: dict = field(default_factory=dict)
    turns: list = field(default_factory=list)
    expected: dict = field(default_factory=dict)
    wanted: dict = field(default_factory=dict)

    def origin(self, place):
        """The file, the line and its text that a place of the expanded scenario comes from."""
        if place[:1] == ("scripts",) and place[2:3] == ("lines",) and place[1] in self.lines:
            source, numbers = self.lines[place[1]]
            if place[3:] and place[3] < len(numbers):
                return source.at(numbers[place[3]])
        if place[:1] == ("schedule",) and place[1:] and place[1] < len(self.turns):
            place = self.turns[place[1]]
        return self.source.at(line_of(self.source.text, place))


def read_text(path):
    return taken(path, lambda name: pathlib.Path(name).read_text(encoding="utf-8"))


def read_json(path):
    text = read_text(path)
    try:
        return Source(pathlib.Path(path), text), json.loads(text)
    except json.JSONDecodeError as error:
        raise Wrong(f"{path}:{error.lineno}:{error.colno}: no JSON: {error.msg}") from error


class Expansion:
    """Makes a scenario of what a person wrote."""

    def __init__(self, source, tree, names):
        self.names, self.wrong = names, []
        self.result = Scenario({name: value for name, value in tree.items() if name not in OWN}, source, wanted=tree.get("expect", {}))
        self.constants = self.of_headers(tree.get("headers", [])) | tree.get("constants", {})
        self.constants |= {item["name"]: item["address"] for item in tree.get("memory", []) if isinstance(item, dict) and "name" in item}

    def of_headers(self, names):
        """The numbers that C headers beside the scenario define."""
        symbols, numbers = {}, {}
        for name in names:
            symbols |= defines_in(read_text(self.result.source.path.parent / name))
        for name, texts in symbols.items():
            with contextlib.suppress(NoNumber):
                numbers[name] = number_of(texts[0], symbols)
        return numbers

    def value(self, word, names, where):
        try:
            return value_of(word, names)
        except NoName as error:
            self.wrong.append(f"{where}: {error}")
            return None

    # Scripts

    def script(self, number, item):
        """The script at a place of `scripts`, with its lines as ffm reads them."""
        source, numbers, lines = self.written_lines(number, item)
        if not isinstance(lines, list) or not all(isinstance(line, str) for line in lines):
            return item
        self.result.lines[number] = (source, numbers)
        system, constants = self.names.of(item.get("actor")), self.constants | item.get("constants", {})
        written = []
        for k, line in enumerate(lines):
            where = f"{source.path}:{numbers[k]}"
            constants, plain, comment = self.without_comment(line, constants)
            self.expect((number, k), comment, system | constants, where)
            written.append(self.line(plain, system, constants, where))
        kept = {name: value for name, value in item.items() if name not in OWN_OF_SCRIPTS}
        return kept | {"lines": written}

    def written_lines(self, number, item):
        """The file of a script's lines, their numbers there, and the lines."""
        if "file" in item:
            path = self.result.source.path.parent / item["file"]
            source = Source(path, read_text(path))
            lines = source.text.splitlines()
            return source, range(1, len(lines) + 1), lines
        source = self.result.source
        return source, list(lines_below(source.text, ("scripts", number, "lines"))), item.get("lines")

    @staticmethod
    def without_comment(line, constants):
        """The line without a comment behind it, and the comment. A line `const NAME VALUE` gives a name to those below."""
        words = line.split()
        if words[:1] == ["const"] and len(words) >= 3:
            return constants | {words[1]: words[2]}, "# " + line.strip(), ""
        found = re.search(r"(?<=[^ \t])[ \t]+#", line)
        if found is None or words[0].startswith("#"):
            return constants, line, ""
        return constants, line[: found.start()], line[found.end() :]

    def line(self, line, system, constants, where):
        """A line with each name replaced by what it stands for. A line without a name stays as it is."""
        words = line.split()
        if not words or words[0].startswith("#") or words[0].endswith(":") or words[0] == "sfn":
            return line
        last = len(words) - (1 if LOCAL_LINES.get(words[0], "").endswith("l") else 0)
        operands = [word if word in constants else self.names.stands_for(words[0], word) for word in words[1:last]]
        values = [words[0], *(self.value(word, system | constants, where) for word in operands), *words[last:]]
        return line if values == words or None in values else " ".join(values)

    def expect(self, place, comment, names, where):
        """Takes in what a comment expects of its line."""
        found = re.match(r"\s*expect\s+([^#]*)", comment)
        if found is not None:
            try:
                self.result.expected[place] = Expectation.read(found[1], lambda word: value_of(word, names))
            except (ValueError, NoName) as error:
                self.wrong.append(f"{where}: {error}")

    # Turns and memory

    def turns(self, items, place):
        """The turns of a schedule, each with the place that it comes from."""
        for k, item in enumerate(items):
            if isinstance(item, dict) and isinstance(item.get("turns"), list):
                for _ in range(item.get("repeat", 1)):
                    yield from self.turns(item["turns"], (*place, k, "turns"))
            else:
                yield item, (*place, k)

    def memory(self, number, item):
        """An item of memory with its bytes in hexadecimal digits."""
        where = f"{self.result.source.path}:{line_of(self.result.source.text, ('memory', number))}"
        names = self.names.all | self.constants
        shown = {name: self.value(value, names, where) for name, value in item.items() if name == "address" and isinstance(value, str)}
        words = self.words_in(item)
        if words is not None:
            shown["bytes"] = "".join(self.word_bytes(word, names, where) for word in words)
        elif "text" in item:
            shown["bytes"] = item["text"].encode().hex()
        return {name: value for name, value in item.items() if name not in OWN_OF_MEMORY} | shown

    @staticmethod
    def words_in(item):
        """The words of 32 bits that an item of memory is made of; None where it isn't."""
        if "vectors" in item:
            return [word for vector in item["vectors"] for word in vector]
        return item.get("words")

    def word_bytes(self, word, names, where):
        """The bytes of a word of 32 bits."""
        value = self.value(str(word), names, where)
        try:
            return (int(value, 0) % (1 << 32)).to_bytes(4, "little").hex() if value else ""
        except ValueError:
            self.wrong.append(f"{where}: `{value}` is no number")
            return ""

    def whole(self):
        """The scenario; all that is wrong is told at once."""
        tree = self.result.tree
        for name, expanded in (("scripts", self.script), ("memory", self.memory)):
            if isinstance(tree.get(name), list):
                tree[name] = [expanded(k, item) if isinstance(item, dict) else item for k, item in enumerate(tree[name])]
        if isinstance(tree.get("schedule"), list):
            found = list(self.turns(tree["schedule"], ("schedule",)))
            tree["schedule"], self.result.turns = [turn for turn, _ in found], [place for _, place in found]
        if self.wrong:
            raise Wrong("\n".join(self.wrong))
        return self.result
