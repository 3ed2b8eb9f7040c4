#!/usr/bin/env python3
"""Lists the contracts of C functions on which the verdict of a program rests.

    python3 tools/list_axioms.py [PROGRAM]

Run at the top of the repository, after .ci/run: it checks the one crate, ffm where none is named, over the libraries
that the CI proved and left in crates/*/out/rlib, with the prover's flag --list-axioms. Prints the lines of the
axioms and the verdict, and ends with the prover's status."""

import argparse
import pathlib
import shutil
import subprocess
import sys
import tempfile

CRATES = pathlib.Path("crates").absolute()


def libraries_of():
    """The libraries that each crate names, by crates.txt."""
    named = {}
    for line in pathlib.Path("crates.txt").read_text().splitlines():
        crate, colon, libraries = line.split("#")[0].partition(":")
        if colon:
            named[crate.strip()] = libraries.split()
    return named


def below(crate, named):
    """The crates of this repository on which a crate stands."""
    found = set()
    left = [crate]
    while left:
        for library in named[left.pop()]:
            if library in named and library not in found:
                found.add(library)
                left.append(library)
    return found


def main():
    parser = argparse.ArgumentParser(description=__doc__, formatter_class=argparse.RawDescriptionHelpFormatter)
    parser.add_argument("program", nargs="?", default="ffm", metavar="PROGRAM", help="the crate of a program")
    crate = parser.parse_args().program
    if shutil.which("rt") is None:
        sys.exit("list_axioms.py: rt, the command of the Rattle kit, isn't on the path")
    page = subprocess.run(["rt", "doc"], capture_output=True, text=True, check=True).stdout
    kit = pathlib.Path(page.strip()).parent
    named = libraries_of()
    if crate not in named:
        sys.exit(f"list_axioms.py: {crate}: no such crate in crates.txt")
    with tempfile.TemporaryDirectory() as links:
        for library in below(crate, named):
            built = CRATES / library / "out" / "rlib" / f"{library}.rlib"
            if not built.exists():
                sys.exit(f"{library} isn't proved here yet: run .ci/run first")
            (pathlib.Path(links) / built.name).symlink_to(built)
        words = ["rattle", "check", "--list-axioms", "--crate-name", crate, str(CRATES / crate / "src" / "main.rt")]
        for library in ["std", *named[crate]]:
            folder = links if library in named else kit / "rlibs"
            words += ["--extern", f"{library}={folder}/{library}.rlib"]
        words += ["-L", f"dependency={links}", "-L", f"dependency={kit}/rlibs"]
        words += ["--antt-project", str(kit / "rattle" / "logic" / "antt-project.json")]
        words += ["--logic-built", str(kit / "logic_built"), "--links", f"{crate}="]
        checked = subprocess.run(words, stdout=subprocess.PIPE, stderr=subprocess.STDOUT, text=True)
    is_listed = False
    for line in checked.stdout.splitlines():
        is_listed = line.startswith("axioms ") or (is_listed and line.startswith(" "))
        if is_listed or line.startswith("logic="):
            print(line)
    sys.exit(checked.returncode)


if __name__ == "__main__":
    main()
