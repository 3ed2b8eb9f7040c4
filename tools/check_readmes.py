#!/usr/bin/env python3
"""Looks at the README.md of each crate: that it is there, how long it is, and that it names what is there.

    python3 tools/check_readmes.py

Run at the top of the repository. Each crate has a README.md of 60 to 150 words, which begins with the crate's name. Each
name in code marks is a word of the crate's files, or a crate that it stands on by crates.txt. Each file that is named is
there: in the crate, or behind `in NAME,` in that one, up to the next full stop or semicolon. The crates under "Stands on"
are those of crates.txt. Prints what isn't so. The status is 1 where something is wrong."""

import argparse
import pathlib
import re
import sys

CRATES = pathlib.Path("crates")
LEAST, MOST = 60, 150
FOLDERS = ("src", "specs", "proofs", "data")
CODE = re.compile(r"`([^`\n]+)`")
FILE = re.compile(r"(?<![\w/])(?:(?:src|specs|proofs|data)/[\w./]*\w|stdout|\w+\.txt)")
PLACE = re.compile(r"(?:\bin (\w+), )?" + FILE.pattern + r"|[.;](?=\s)")
STANDS_ON = re.compile(r"^\*\*Stands on\*\*(.*)$", re.M)


def named_behind(text):
    """What crates.txt names behind each crate, by its text."""
    lines = (line.partition(":") for line in text.splitlines() if ":" in line and not line.startswith("#"))
    return {name.strip(): behind.split() for name, _, behind in lines}


def words_in(crate):
    """All words of a crate's files."""
    found = set()
    for folder in FOLDERS:
        for path in (CRATES / crate / folder).rglob("*"):
            if path.is_file():
                found |= set(re.findall(r"[^\W\d]\w*", path.read_text(errors="replace")))
    return found


def wrong_files(crate, text):
    """The files that a text names and that aren't there."""
    home = crate
    for place in PLACE.finditer(text):
        if place[0] in ".;":
            home = crate
            continue
        home = place[1] or home
        name = FILE.search(place[0])[0]
        if not (CRATES / home / name).exists():
            yield f"{name}: no such file of {home}"


def wrong_names(text, words):
    for code in CODE.findall(text):
        for name in re.findall(r"[^\W\d]\w*", code):
            if name not in words:
                yield f"{name}: no word of the crate"


def wrong_layers(text, behind, crates):
    """The crates that "Stands on" lacks, and those that it names and crates.txt doesn't."""
    line = STANDS_ON.search(text)
    if not line:
        yield "no line begins with **Stands on**"
        return
    told = set(re.findall(r"\w+", line[1])) & crates
    for name in sorted(told ^ (set(behind) & crates)):
        yield f"{name}: {'crates.txt does not name it' if name in told else 'not under Stands on'}"


def wrong_in(crate, text, behind, crates):
    """What is wrong in the text of a crate's README.md."""
    count = len(text.split())
    if not text.startswith(f"# {crate}\n"):
        yield "it doesn't begin with the crate's name"
    if not LEAST <= count <= MOST:
        yield f"{count} words, and not {LEAST} to {MOST}"
    yield from wrong_names(text, words_in(crate) | set(behind) | {crate})
    yield from wrong_files(crate, text)
    yield from wrong_layers(text, behind, crates)


def main():
    argparse.ArgumentParser(description=__doc__, formatter_class=argparse.RawDescriptionHelpFormatter).parse_args()
    behind, wrong = named_behind(pathlib.Path("crates.txt").read_text()), []
    for crate in sorted(behind):
        page = CRATES / crate / "README.md"
        if page.is_file():
            wrong += [f"{page}: {what}" for what in wrong_in(crate, page.read_text(), behind[crate], set(behind))]
        else:
            wrong.append(f"{page}: not there")
    print("\n".join(wrong) if wrong else f"{len(behind)} crates")
    sys.exit(1 if wrong else 0)


if __name__ == "__main__":
    main()
