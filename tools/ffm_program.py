#!/usr/bin/env python3
"""Finds ffm, ffm_view or ffm_explore where it is built, or builds it without proofs, and runs it.

    python3 tools/ffm_program.py ffm run SYSTEM SCENARIO
    python3 tools/ffm_program.py ffm --many FILE      runs each line of FILE, a command's words, with one program
    python3 tools/ffm_program.py ffm --build          builds where no program fits the sources, and runs nothing
    python3 tools/ffm_program.py ffm --which          tells the program that would be run

tools/try_ffm.sh, tools/try_ffm_view.sh and tools/try_ffm_explore.sh call it with the name of the program. The program is
the first of these:

1. crates/NAME/out/NAME, the proved one that .ci/run and `rt run` leave, where no source of it is younger; or, in a
   folder that tools/pack.sh made, bin/NAME;
2. one that an earlier call built without proofs and kept under ~/.cache/ffm (or XDG_CACHE_HOME), in a folder named by
   the checksum of the sources and of the kit's line. A changed source has another checksum, so a kept program is never
   that of other sources;
3. one that is built now, by `rt try`, with checks while it runs. `rt try` keeps no file: it runs the program in a folder
   of its own, and there a copy is taken while the program waits for its first file. The copy is kept once it has written
   what the crate's stored run wants."""

import argparse
import hashlib
import os
import pathlib
import shlex
import shutil
import subprocess
import sys
import tempfile
import time

TOP = pathlib.Path(__file__).resolve().parents[1]
FIRST_WORDS = {
    "ffm": ["compile", "FILE"],
    "ffm_view": ["state", "FILE", "FILE", "FILE"],
    "ffm_explore": ["all", "FILE", "FILE"],
}
BUILD_SECONDS = 1800


class NoProgram(Exception):
    """There is no program, and why."""


# Where a program is


def crates_below(name):
    """The crate and all those of the repository that it stands on."""
    lines = [line.partition("#")[0].partition(":") for line in (TOP / "crates.txt").read_text().splitlines()]
    below = {words.split()[0]: names.split() for words, _, names in lines if words.split()}
    found, left = set(), [name]
    while left:
        crate = left.pop()
        if crate in below and crate not in found:
            found.add(crate)
            left += below[crate]
    return sorted(found)


def sources_of(name):
    folders = [TOP / "crates" / crate / "src" for crate in crates_below(name)]
    return [TOP / "crates.txt", *(path for folder in folders for path in sorted(folder.rglob("*.rt")))]


def kit_line():
    rt = shutil.which("rt")
    return subprocess.run([rt, "version"], capture_output=True, text=True, check=False).stdout.strip() if rt else ""


def checksum(name):
    """The checksum of a program's sources and of the kit's line."""
    total = hashlib.sha256(kit_line().encode())
    for path in sources_of(name):
        total.update(f"\n{path.relative_to(TOP)} {hashlib.sha256(path.read_bytes()).hexdigest()}".encode())
    return total.hexdigest()


def proved(name):
    """The program that the CI left, or that of a pack; None where a source is younger."""
    if not (TOP / "crates.txt").is_file():
        return TOP / "bin" / name
    path = TOP / "crates" / name / "out" / name
    if not path.is_file() or any(source.stat().st_mtime > path.stat().st_mtime for source in sources_of(name)):
        return None
    return path


def kept(name):
    """Where a program without proofs is kept."""
    cache = os.environ.get("XDG_CACHE_HOME") or os.path.expanduser("~/.cache")
    return pathlib.Path(cache) / "ffm" / checksum(name)[:32] / name


def program(name="ffm", given=None):
    """The path of a program that is there: the given one, that of the CI, a kept one, or one on the path."""
    if given is not None:
        found = shutil.which(given)
        if found is None:
            raise NoProgram(f"{given}: no program that can be run")
        return os.path.abspath(found)
    found = proved(name)
    if found is None:
        found = kept(name)
    found = str(found) if found.is_file() else shutil.which(name)
    if found is None:
        raise NoProgram(f"{name} isn't built: tools/try_{name}.sh --build builds it without proofs, .ci/run with them")
    return found


# Building without proofs


def executables_below(folder):
    """The programs that were built below a folder."""
    def is_program(path):
        with path.open("rb") as file:
            return file.read(4) == b"\x7fELF"
    return [path for path in folder.rglob("*") if path.is_file() and os.access(path, os.X_OK) and is_program(path)]


def wait_for_reader(gate, building):
    """Opens a pipe for writing once the program reads it; None where the build ended before."""
    end = time.monotonic() + BUILD_SECONDS
    while building.poll() is None and time.monotonic() < end:
        try:
            return os.open(gate, os.O_WRONLY | os.O_NONBLOCK)
        except OSError:
            time.sleep(0.05)
    return None


def caught(name, folder):
    """Builds the program in a folder, and copies it while it waits for its first file, which is a pipe."""
    gate, copy = folder / "gate", folder / name
    os.mkfifo(gate)
    words = [str(gate) if word == "FILE" else word for word in FIRST_WORDS[name]]
    how = {"cwd": TOP / "crates" / name, "env": os.environ | {"TMPDIR": str(folder)}, "stdin": subprocess.DEVNULL}
    with (folder / "log").open("w") as log:
        building = subprocess.Popen(["rt", "try", "--", *words], stdout=log, stderr=log, **how)
        writing = wait_for_reader(gate, building)
        found = executables_below(folder) if writing is not None else []
        if len(found) == 1:
            shutil.copy2(found[0], copy)
        if writing is not None:
            os.close(writing)
        building.wait()
    if not copy.exists():
        raise NoProgram(f"{name} wasn't built: the kit says\n" + (folder / "log").read_text().rstrip())
    return copy


def agrees_with_stored_run(path, name):
    """Whether a program writes what the crate's stored run wants, and ends with its status, which is 0 where no file says it."""
    crate = TOP / "crates" / name
    words = (crate / "args").read_text().splitlines()
    status = crate / "status"
    wanted = int(status.read_text()) if status.exists() else 0
    done = subprocess.run([str(path), *words], cwd=crate / "data", capture_output=True, check=False)
    return done.returncode == wanted and done.stdout == (crate / "stdout").read_bytes()


def build(name):
    """Builds the program without proofs and keeps it."""
    if shutil.which("rt") is None:
        raise NoProgram(f"{name} isn't built, and rt, the command of the Rattle kit, isn't on the path")
    place = kept(name)
    print(f"building {name} without proofs, which takes a minute or more; {place} keeps it", file=sys.stderr)
    with tempfile.TemporaryDirectory(prefix="ffm-build-") as folder:
        copy = caught(name, pathlib.Path(folder))
        if not agrees_with_stored_run(copy, name):
            raise NoProgram(f"{name} was built, and its copy doesn't write what crates/{name}/stdout wants")
        place.parent.mkdir(parents=True, exist_ok=True)
        shutil.copy2(copy, place.with_suffix(".new"))
        place.with_suffix(".new").rename(place)
    return str(place)


def program_or_build(name):
    try:
        return program(name)
    except NoProgram:
        return build(name)


# Running


def stand_of(system, tree):
    """The folder in which a program is run, from which the names of manifests in a system file lead to their files: where
    one stands, or else the folder of the system file, or the first above it. Where none is, it is the system file's."""
    named = [item for item in tree.get("manifests", []) if isinstance(item, str)]
    folders = list(pathlib.Path(system).resolve().parents)
    return next((folder for folder in [pathlib.Path(), *folders] if all((folder / name).is_file() for name in named)), folders[0])


def run(path, words, stand):
    """The status and the text of a command. What it writes to standard error goes there."""
    done = subprocess.run([path, *map(str, words)], cwd=stand, stdout=subprocess.PIPE, check=False)
    return done.returncode, done.stdout.decode("utf-8", "replace")


def run_many(path, commands):
    """Runs each line of a file, and writes the line, what comes, and the status."""
    statuses = []
    for line in pathlib.Path(commands).read_text().splitlines():
        words = shlex.split(line, comments=True)
        if words:
            print("==", line, flush=True)
            statuses.append(subprocess.run([path, *words], check=False).returncode)
            print("status", statuses[-1], flush=True)
    return max(statuses, default=0)


def tell_help(parser, name):
    """Prints what this script takes, and then what the program itself does, where it is there."""
    print(f"{parser.format_help()}\nThe words of {name} itself:\n", flush=True)
    try:
        subprocess.run([program(name), "--help"], check=False)
    except NoProgram as wrong:
        print(wrong)


def main():
    parser = argparse.ArgumentParser(description=__doc__, formatter_class=argparse.RawDescriptionHelpFormatter)
    parser.add_argument("name", choices=sorted(FIRST_WORDS), help="the program")
    parser.add_argument("words", nargs=argparse.REMAINDER, metavar="WORD", help="its words, or one of the flags above")
    arguments = parser.parse_args()
    name, words = arguments.name, arguments.words
    try:
        if words in ([], ["-h"], ["--help"]):
            tell_help(parser, name)
        elif words == ["--which"]:
            print(program(name))
        elif words == ["--build"]:
            print(program_or_build(name))
        elif words[0] == "--many" and len(words) == 2:
            sys.exit(run_many(program_or_build(name), words[1]))
        else:
            path = program_or_build(name)
            os.execv(path, [path, *words])
    except NoProgram as wrong:
        sys.exit(print(wrong, file=sys.stderr) or 2)
    except OSError as error:
        sys.exit(print(f"{error.filename}: {error.strerror}", file=sys.stderr) or 2)


if __name__ == "__main__":
    main()
