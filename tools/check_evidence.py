#!/usr/bin/env python3
"""Looks at what the pages say of the repository: the evidence, the walks, the wings, the figures, the rules of lines.

    python3 tools/check_evidence.py

Run at the top of the repository. What docs/evidence.json names has to be there, and docs/evidence.md as it is made
(evidence.py). In docs/house.md each file of a crate has to be there, and in its column "Where" each name and clause after a
file in that file. Its table of wings has each crate once, and a wing's crates stand by crates.txt on its own and on those of the wings
that its row names. No crate of MANAGER stands below one of APART. The figures of crates, mutants, tests, calls, examples and
stored cases that the pages state have to be those counted (figures.py), and the pages have at most so many words. For each kind of lines in the stored traces
rule_of_line.py has to find a rule, a definition, a clause and a test. Prints what isn't so. The status is 1 where something
is wrong."""

import argparse
import pathlib
import re
import sys

import evidence
from check_links import table_rows
from figures import NAMES, PAGES, README, figures, stands_on, with_those_below, wrong_figures
from rule_of_line import kinds_and_lacks

HOUSE = pathlib.Path("docs/house.md")
# How many words the README, and all pages without their made parts, may have.
MOST_WORDS = {"README.md": 1_600, "all pages": 38_000}
# The crates of the manager, and those that have none of them below.
MANAGER = {
    "spm_core", "spm_lock", "spm_tables", "handle_table", "object_pools", "client_calls", "service_calls", "doorbell_irq",
    "panic_state", "partition_sim", "scenario_runs",
}
APART = ("machine_check", "judge_command", "view_commands", "ffm_view")
FILE = re.compile(r"(?<![\w/])(?:crates/)?(\w+/(?:src|specs|must-fail|data)/[\w/]+\.(?:rt|antt|edit|txt))")
TOKEN = re.compile(r"crates/[\w/]+\.(?:rt|antt)|`[\w:]+`|\bclauses?\b|;")


def wrong_walks():
    """The files that the page names, and the names and clauses in its walks, that aren't there."""
    lost = (name for name in FILE.findall(HOUSE.read_text()) if not (evidence.CRATES / name).is_file())
    yield from (f"{HOUSE}: {name}: no such file" for name in lost)
    for number, row in table_rows(HOUSE):
        where, pattern = None, evidence.ITEM
        for token in TOKEN.findall(row.get("Where", "")):
            if token == ";":
                where, pattern = None, evidence.ITEM
            elif token[0] != "`" and token.startswith("crates/"):
                where, pattern = pathlib.Path(token), evidence.ITEM
            elif token[0] != "`":
                pattern = evidence.CLAUSE
            elif where and where.is_file():
                name = token.strip("`").split("::")[-1]
                if not re.search(pattern.format(re.escape(name)), where.read_text()):
                    yield f"{HOUSE}:{number}: {name}: not in {where}"


def wings():
    """Each wing with its crates and the wings on which it stands."""
    named = {row["Wing"]: row for _, row in table_rows(HOUSE) if "Wing" in row}
    for wing, row in named.items():
        words = set(re.findall(r"\w+", row["Stands on"]))
        below = set(named) - {wing, "tests"} if "all" in words else words & set(named)
        yield wing, re.findall(r"\w+", row["Crates"]), below


def wrong_wings():
    """Crates in no wing or in two, and those that stand on a wing that their own isn't said to stand on."""
    found = list(wings())
    listed = [crate for _, crates, _ in found for crate in crates]
    yield from (f"{HOUSE}: {crate} is in {listed.count(crate)} wings" for crate in sorted(NAMES | set(listed)) if listed.count(crate) != (crate in NAMES))
    wing_of = {crate: wing for wing, crates, _ in found for crate in crates}
    for wing, crates, below in found:
        for crate in (crate for crate in crates if crate in NAMES):
            over = sorted(name for name in stands_on(crate) if wing_of.get(name, wing) not in {wing, *below})
            yield from (f"{HOUSE}: {crate} of {wing} stands on {name} of {wing_of[name]}" for name in over)


def wrong_layers():
    """The crates of the manager below those that have none."""
    for crate in APART:
        found = sorted(with_those_below(crate) & MANAGER)
        if found:
            yield f"crates.txt: {crate} stands on {', '.join(found)}"


def wrong_lengths():
    """More words in the README, or in all pages without their made parts, than a reader takes in."""
    counts = {page: len(evidence.MADE.sub("", page.read_text()).split()) for page in PAGES}
    for what, count in (("README.md", counts[README]), ("all pages", sum(counts.values()))):
        if count > MOST_WORDS[what]:
            yield f"{what}: {count} words, and not {MOST_WORDS[what]} at most"


def wrong_page():
    if evidence.PAGE.read_text() != evidence.made(evidence.PAGE.read_text()):
        yield f"{evidence.PAGE}: not as it is made: python3 tools/evidence.py"


def main():
    argparse.ArgumentParser(description=__doc__, formatter_class=argparse.RawDescriptionHelpFormatter).parse_args()
    kinds, lacks = kinds_and_lacks()
    wrong = [*evidence.wrong(), *wrong_page(), *wrong_walks(), *wrong_wings(), *wrong_layers(), *wrong_figures(), *wrong_lengths(), *lacks]
    told = f"{len(evidence.rows())} rows of evidence, {len(list(wings()))} wings, {len(list(figures()))} texts with figures, {len(kinds)} kinds of lines"
    print("\n".join(wrong) if wrong else told)
    sys.exit(1 if wrong else 0)


if __name__ == "__main__":
    main()
