#!/usr/bin/env python3
"""docs/evidence.json, the evidence as data: looks at what it names, and makes the tables of docs/evidence.md of it.

    python3 tools/evidence.py [--check]

Run at the top of the repository. Makes the parts of docs/evidence.md between a line `<!-- made: PART -->` and the next
line `<!-- end -->`; with --check it says whether they are as they are made. Prints what the data names and isn't there.
The status is 1 where something is wrong.

The file has five lists of rows: standard, calls, topics, program and suite. A row has a name and some of these lists:
rules, links from docs/ on; definitions, contracts, examples and tests, whose items name something; mutants, as CRATE/NAME.
An item has `in`, a crate or a file from crates/ on, with the `name` of what stands there and the `clauses` that are meant;
or a stored `case` AREA/CASE, perhaps with a file in its folder; or another `file` from the top on. Its `note` is for
people. rule_of_line.py finds the rule of a line of a trace by these rows."""

import argparse
import json
import pathlib
import re
import sys
from functools import lru_cache
from typing import NamedTuple

DATA, PAGE = pathlib.Path("docs/evidence.json"), pathlib.Path("docs/evidence.md")
CRATES, WRONG_BODIES = pathlib.Path("crates"), pathlib.Path("wrong_bodies")
CASES, COMMANDS = CRATES / "stored_cases" / "data", CRATES / "stored_cases" / "data" / "commands.txt"
SPECS = "ffm_model/specs/"
ITEM = r"\b(?:fn|struct|enum|trait|record|data|abbrev pub|pub) {}\b"
CLAUSE = r"\bensures {}\b"
TEST = r"#\[test\]\s+(?:pub )?fn {}\b"
MADE = re.compile(r"(<!-- made: (\w+) -->\n).*?(<!-- end -->\n)", re.S)
# The columns of each part of the page: the head, and the list of the row; the first one has the row's name.
COLUMNS = {
    "standard": [("API or topic", "name"), ("Header", "header"), ("Words to search for", "words")],
    "calls": [("API", "name"), ("Definition", "definitions"), ("Contract and body", "contracts"), ("Mutants, refused", "mutants"),
              ("Worked run", "examples"), ("Tests", "tests")],
    "topics": [("Topic", "name"), ("Rule in words", "rules"), ("Definition", "definitions"), ("Contract", "contracts"),
               ("Mutants, refused", "mutants"), ("Worked run", "examples"), ("Tests", "tests")],
    "suite": [("Topic", "name"), ("Here", "tests")],
}
COLUMNS["program"] = COLUMNS["topics"]
CITED = ("definitions", "contracts", "examples", "tests")


class Item(NamedTuple):
    """A function or a definition: its file, the place of its line, from 0, its name, the clauses that are meant, and what is
    said of it. Where a whole file is meant, the name is empty."""
    path: pathlib.Path
    place: int
    name: str
    clauses: tuple = ()
    note: str = ""


@lru_cache(maxsize=None)
def evidence():
    return json.loads(DATA.read_text())


def rows():
    """All rows of the lists that name definitions."""
    return [row for part in ("calls", "topics", "program") for row in evidence()[part]]


@lru_cache(maxsize=None)
def text_of(path):
    return path.read_text()


def sources(crate):
    return sorted((CRATES / crate / "src").rglob("*.rt"))


def files_of(where):
    """The files that are meant by a crate or by a file from crates/ on."""
    return [CRATES / where] if where.endswith((".rt", ".antt")) else sources(where)


def found_in(files, name, clauses=(), note="", pattern=ITEM):
    """The item of that name in the first of the files that has it, or None."""
    for path in files:
        for found in re.finditer(pattern.format(re.escape(name)), text_of(path)) if path.is_file() else ():
            line = text_of(path).rfind("\n", 0, found.end()) + 1
            if not re.match(r"\s*(//|--)", text_of(path)[line:]):
                return Item(path, text_of(path)[:line].count("\n"), name, tuple(clauses), note)
    return None


def item_of(cited, column):
    """What an item with `in` names, or None. Of a crate's tests it has to be a test, and of its src/ alone."""
    files = files_of(cited["in"])
    if "name" not in cited:
        return Item(files[0], 0, "", (), cited.get("note", "")) if files and files[0].is_file() else None
    name = cited["name"].split("::")[-1]
    pattern = TEST if column == "tests" and any("#[test]" in text_of(path) for path in files if path.is_file()) else ITEM
    return found_in(files, name, cited.get("clauses", ()), cited.get("note", ""), pattern)


def items_of(row, column):
    """The items of a row's list that name functions or definitions."""
    found = (item_of(cited, column) for cited in row.get(column, []) if "in" in cited)
    return [item for item in found if item]


def mutants_of(row):
    """The files of the mutants that a row names."""
    for mutant in row.get("mutants", []):
        crate, name = mutant.split("/")
        yield next((path for path in (CRATES / crate / "must-fail" / f"{name}.edit", WRONG_BODIES / crate / f"{name}.edit") if path.is_file()), None)


def path_of(cited):
    """The path of a case or of another file: the case's folder, a file in it, or the list of all cases."""
    if "file" in cited:
        return pathlib.Path(cited["file"])
    path = CASES / cited["case"]
    return path if path.exists() else COMMANDS


# ---- what isn't there


def wrong_item(cited, column):
    """What an item names and isn't there."""
    if "case" in cited:
        case = "/".join(cited["case"].split("/")[:2])
        if not re.search(rf"^# {re.escape(case)}: ", text_of(COMMANDS), re.M) or path_of(cited) == COMMANDS and cited["case"] != case:
            yield f"{cited['case']}: no such case, or no such file of it"
    elif "file" in cited:
        if not path_of(cited).is_file():
            yield f"{cited['file']}: no such file"
    elif not item_of(cited, column):
        yield f"{cited['in']}, {cited.get('name', 'the file')}: not there"
    else:
        text = "".join(text_of(path) for path in files_of(cited["in"]))
        yield from (f"{cited['in']}, {clause}: no such clause" for clause in cited.get("clauses", ()) if not re.search(CLAUSE.format(clause), text))


def wrong():
    """What the data names and isn't there, with the row's name."""
    for part, listed in evidence().items():
        for row in listed:
            lacks = [what for column in CITED for cited in row.get(column, []) for what in wrong_item(cited, column)]
            lacks += [f"{mutant}: no such mutant" for mutant, path in zip(row.get("mutants", []), mutants_of(row)) if not path]
            yield from (f"{DATA}: {part}, {row['name']}: {what}" for what in lacks)


# ---- the page


def told(cited):
    """An item in Markdown without its place."""
    clauses = cited.get("clauses", ())
    named = [f"`{cited['name']}`"] if "name" in cited else []
    if clauses:
        named.append(f"clause{'s' if len(clauses) > 1 else ''} {', '.join(f'`{clause}`' for clause in clauses)}")
    note = f" ({cited['note']})" if "note" in cited else ""
    return ", ".join(named) + note


def place_of(cited):
    """Where an item stands, in Markdown, or "" where `told` says all."""
    if "in" not in cited:
        return f"[{cited.get('case') or cited['file']}](../{path_of(cited)})"
    if not cited["in"].endswith((".rt", ".antt")):
        return cited["in"]
    return f"[{cited['in'].removeprefix(SPECS)}](../crates/{cited['in']})"


def cell_of_items(cited):
    """A cell of items; those of one place stand behind it, one after the other."""
    cell, before = [], None
    for one in cited:
        place, text = place_of(one), told(one)
        if place == before and "in" in one:
            cell[-1] += f", {text}"
        else:
            cell.append(f"{place}{', ' if text and not text.startswith(' ') else ''}{text}")
        before = place
    return "; ".join(cell)


def cell_of_mutants(row):
    """The names of mutants, by crate; in italics those that the CI leaves out."""
    by_crate = {}
    for mutant, path in zip(row.get("mutants", []), mutants_of(row)):
        crate, name = mutant.split("/")
        beside = path is not None and WRONG_BODIES in path.parents
        by_crate.setdefault(crate, []).append(f"*{name}*" if beside else name)
    return "; ".join(f"{crate}: {', '.join(names)}" for crate, names in by_crate.items())


def cell_of(row, column):
    if column in ("name", "header", "words"):
        return row.get(column, "")
    if column == "rules":
        return ", ".join(f"[{link.partition('#')[0]}]({link})" for link in row.get("rules", []))
    if column == "mutants":
        return cell_of_mutants(row)
    return cell_of_items(row.get(column, [])) or row.get("note", "")


def table_of(part):
    """The table of a part of the page."""
    heads = [head for head, _ in COLUMNS[part]]
    lines = [heads, ["---"] * len(heads), *([cell_of(row, column) for _, column in COLUMNS[part]] for row in evidence()[part])]
    return "".join(f"| {' | '.join(cells)} |\n" for cells in lines).replace("|  |", "| |").replace("|  |", "| |")


def made(text):
    """The text of the page with its made parts."""
    return MADE.sub(lambda part: part[1] + table_of(part[2]) + part[3], text)


def line_of(row):
    """The number of a row's line in the page."""
    return next(number for number, line in enumerate(PAGE.read_text().splitlines(), 1) if line.startswith(f"| {row['name']} |"))


def main():
    parser = argparse.ArgumentParser(description=__doc__, formatter_class=argparse.RawDescriptionHelpFormatter)
    parser.add_argument("--check", action="store_true", help="write nothing, and say whether the page is as it is made")
    asked = parser.parse_args()
    lacks, text = list(wrong()), PAGE.read_text()
    if asked.check and text != made(text):
        lacks.append(f"{PAGE}: not as it is made: python3 tools/evidence.py")
    elif not asked.check:
        PAGE.write_text(made(text))
    print("\n".join(lacks) if lacks else f"{len(rows())} rows of definitions, contracts and tests")
    sys.exit(1 if lacks else 0)


if __name__ == "__main__":
    main()
