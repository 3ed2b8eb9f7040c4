"""Where the files of the examples are, for the tools beside this one.

An example stands in the data/ folder of the program with which the CI runs it. All paths begin at the top of the
repository."""

import json
import pathlib
import re
from dataclasses import dataclass

STORED = pathlib.Path("crates/stored_cases")
GUIDED = STORED / "data" / "guided"
FIRMWARE = STORED / "data" / "firmware" / "six_partitions"
FIRST = pathlib.Path("crates/ffm")


@dataclass(frozen=True)
class Example:
    """An example, with the folder in which one stands to run it, the folder of its files, and its trace."""
    name: str
    stand: pathlib.Path
    folder: pathlib.Path
    trace: pathlib.Path

    def words(self, *files):
        """The names of the files as seen from where one stands."""
        return [str((self.folder / file).relative_to(self.stand)) for file in files]

    def inputs(self):
        """The files that `run` reads: the system, the scenario, and the manifests in files of their own."""
        system = self.folder / "system.json"
        named = [self.stand / item for item in json.loads(system.read_text())["manifests"] if isinstance(item, str)]
        return [system, self.folder / "scenario.json", *named]

    def is_named_in(self, text):
        """Whether commands name the example's folder."""
        path = re.escape(str(self.folder.relative_to(self.stand)))
        return re.search(rf"\b{path}/|{re.escape(str(self.folder))}(?!/\w)", text) is not None


def stored(name, folder):
    return Example(name, STORED / "data", folder, folder / "trace.txt")


def guided():
    """The guided examples."""
    return [stored(path.parent.name, path.parent) for path in sorted(GUIDED.glob("*/scenario.json"))]


def examples():
    """All examples, by their names."""
    first = Example("first", FIRST / "data", FIRST / "data", FIRST / "stdout")
    return {example.name: example for example in [*guided(), stored("firmware", FIRMWARE), first]}
