"""The figures that the pages state of this repository, and what they have to be: for check_evidence.py.

All paths begin at the top of the repository."""

import json
import pathlib
import re

from example_files import examples
from stored_cases import cases

CRATES = pathlib.Path("crates")
NAMES = {path.parent.name for path in CRATES.glob("*/src")}
README = pathlib.Path("README.md")
PAGES = [README, *sorted(pathlib.Path("docs").glob("*.md")), pathlib.Path("examples/README.md")]
MACHINE = CRATES / "ffm_model" / "src" / "machine.rt"
BASE = {"ffm_model", "law_lists"}
WORDS = """no one two three four five six seven eight nine ten eleven twelve thirteen fourteen fifteen sixteen seventeen
eighteen nineteen twenty""".split()


def lines_of(path):
    return len(path.read_text().splitlines())


def edits():
    """How many mutants the CI tries."""
    return len(list(CRATES.glob("*/must-fail/*.edit")))


def further_edits():
    """How many stand beside the CI."""
    return len(list(pathlib.Path("wrong_bodies").glob("*/*.edit")))


def tests_of(crate):
    return sum(path.read_text().count("#[test]") for path in (CRATES / crate / "src").rglob("*.rt"))


def named_behind(crate):
    """The crates that crates.txt names after a crate."""
    return re.search(rf"^{crate}:(.*)$", pathlib.Path("crates.txt").read_text(), re.M)[1].split()


def stands_on(crate):
    """Those of them that are this repository's."""
    return [name for name in named_behind(crate) if name in NAMES]


def with_those_below(crate):
    found, left = set(), [crate]
    while left:
        name = left.pop()
        if name not in found:
            found.add(name)
            left += stands_on(name)
    return found


def ported_crates(crate):
    """The kit's crates on which a crate stands, itself or by those below."""
    return {name for below in with_those_below(crate) for name in named_behind(below)} - NAMES


def calls():
    """How many variants the machine's calls have."""
    body = re.search(r"pub enum Call \{\n(.*?)^\}", MACHINE.read_text(), re.M | re.S)[1]
    return len(re.findall(r"^    [A-Z]\w*", body, re.M))


def partitions_of(name):
    return len(json.loads((examples()[name].folder / "system.json").read_text())["manifests"])


def told_in_the_tutorial():
    """How many examples the tutorial's commands name."""
    return len(set(re.findall(r"^ffm \w+ guided/(\w+)/system", pathlib.Path("docs/tutorial.md").read_text(), re.M)))


def lines_of_audit(name):
    """How many lines of changes the audit beside an example has."""
    return lines_of(examples()[name].folder / "audit.txt") - 1


def stored():
    """How many cases are stored, how many commands they have, and how many lines of checksums."""
    found = cases()
    checksums = [command.is_checksums() for case in found for command in case.commands]
    return [len(found), checksums.count(False), checksums.count(True)]


# The forms in which pages state figures, with what is counted for each {}.
FIGURES = [
    ("The CI tries {} of {} |", lambda: [edits(), edits() + further_edits()]),
    ("{} crates, {} mutants in the CI and {} beside it, {} tests",
     lambda: [len(NAMES), edits(), further_edits(), sum(map(tests_of, NAMES))]),
    ("with the figures below N is {}", lambda: [len(NAMES) + edits()]),
    ("{} stored cases with {} commands, and {} lines of checksums", stored),
    ("manifest_compile and the {} below it", lambda: [len(set(stands_on("manifest_compile")) - BASE)]),
    ("the statements of {} ported crates", lambda: [len(ported_crates("ffm"))]),
    ("all {} calls", lambda: [calls()]),
    ("any of the {} calls", lambda: [calls()]),
    ("an author's first hour: {} examples", lambda: [told_in_the_tutorial()]),
    ("leads through {} of the", lambda: [told_in_the_tutorial()]),
    ("has {} lines of changes", lambda: [lines_of_audit("audited_meter")]),
    ("| {} partitions: a secret goes through", lambda: [partitions_of("storage_stack")]),
    ("| {} partitions whose manifests are files of their own", lambda: [partitions_of("firmware")]),
    ("| {} partitions and two of four clients that break rules", lambda: [partitions_of("hostile_clients") - 1]),
    ("what an audit shows of {} partitions", lambda: [partitions_of("audited_meter")]),
]


def is_number(told, counted):
    """Whether a page tells a number, in digits or as a word."""
    in_words = [WORDS[counted]] if isinstance(counted, int) and counted < len(WORDS) else []
    in_digits = f"{counted:,}" if isinstance(counted, int) and counted > 999 else str(counted)
    return told.lower() in [in_digits, *in_words]


def stated_as(form):
    """Each text of a page that has the form, with the page and the figures that it states."""
    pattern = re.escape(form).replace(r"\{\}", r"(\d+(?:,\d{3})+|\w+)")
    return [(page, stated[0], stated.groups()) for page in PAGES for stated in re.finditer(pattern, page.read_text())]


def figures():
    """Each text of a page that has one of the forms, with the page, the figures that it states, and those counted."""
    for form, count in FIGURES:
        for page, text, stated in stated_as(form):
            yield page, text, stated, count()


def wrong_figures():
    yield from (f"no page says: {form}" for form, _ in FIGURES if not stated_as(form))
    for page, text, stated, counted in figures():
        if not all(map(is_number, stated, counted)):
            yield f"{page}: {text}: counted {', '.join(map(str, counted))}"
