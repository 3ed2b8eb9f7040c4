#!/usr/bin/env python3
"""Looks at the links of all pages: files, folders and anchors have to be there.

    python3 tools/check_links.py

Run at the top of the repository. Prints each link that leads nowhere, and each path in code marks that looks
like a file of this repository and isn't there. Links to other hosts aren't followed. The status is 1 where
something is wrong."""

import argparse
import pathlib
import re
import sys

LINK = re.compile(r"\[[^\]]*\]\(([^)\s]+)\)")
HEADING = re.compile(r"^(#{1,6}) +(.*?) *#*$")
CODE = re.compile(r"`[^`\n]*`")
PATH = re.compile(r"(?<![\w/.-])((?:crates|docs|examples|tools|schemas)/[\w./-]*\w)")
MADE = re.compile(r"/out(/|$)")


def pages():
    return [pathlib.Path("README.md"), *sorted(p for top in ("docs", "examples", "crates", "schemas", "tools") for p in pathlib.Path(top).rglob("*.md") if "out" not in p.parts)]


def plain(lines):
    """The lines outside of blocks of code, with their numbers."""
    inside = False
    for number, line in enumerate(lines, 1):
        if line.lstrip().startswith("```"):
            inside = not inside
        elif not inside:
            yield number, line


def anchor(heading):
    """The anchor that a heading has on a page of a repository."""
    text = re.sub(r"\[([^\]]*)\]\([^)]*\)", r"\1", heading).replace("`", "").replace("*", "").lower()
    return re.sub(r"[^\w\- ]", "", text).replace(" ", "-")


def anchors(page, known={}):
    if page not in known:
        found, counts = set(), {}
        for _, line in plain(page.read_text().splitlines()):
            match = HEADING.match(line)
            if match:
                name = anchor(match[2])
                count = counts.get(name, 0)
                counts[name] = count + 1
                found.add(f"{name}-{count}" if count else name)
        known[page] = found
    return known[page]


def table_rows(page):
    """Each row of a page's tables with its line's number, as a map from the heads of the columns to the cells."""
    head = None
    for number, line in enumerate(page.read_text().splitlines(), 1):
        cells = [cell.strip() for cell in line.strip("|").split("|")] if line.startswith("|") else None
        if cells is None or head is None:
            head = cells
        elif set(line) - set("|- "):
            yield number, dict(zip(head, cells))


def wrong_links(page):
    for number, line in plain(page.read_text().splitlines()):
        for link in LINK.findall(CODE.sub("", line)):
            if re.match(r"[a-z]+:", link):
                continue
            name, _, part = link.partition("#")
            target = page.parent / name if name else page
            if not target.exists():
                yield number, link, "no such file"
            elif part and (target.suffix != ".md" or part not in anchors(target.resolve().relative_to(pathlib.Path.cwd()))):
                yield number, link, "no such anchor"


def wrong_paths(page):
    """Paths that a page names without a link."""
    for number, line in enumerate(page.read_text().splitlines(), 1):
        for path in PATH.findall(re.sub(r"\]\([^)]*\)", "]", line)):
            if "NAME" not in path and "COPY" not in path and not MADE.search(path) and not pathlib.Path(path).exists():
                yield number, path, "no such path"


def main():
    argparse.ArgumentParser(description=__doc__, formatter_class=argparse.RawDescriptionHelpFormatter).parse_args()
    wrong = [(page, *rest) for page in pages() for rest in (*wrong_links(page), *wrong_paths(page))]
    for page, number, link, what in wrong:
        print(f"{page}:{number}: {link}: {what}")
    if not wrong:
        count = sum(len(LINK.findall(line)) for page in pages() for _, line in plain(page.read_text().splitlines()))
        print(f"{len(pages())} pages, {count} links")
    sys.exit(1 if wrong else 0)


if __name__ == "__main__":
    main()
