#!/usr/bin/env bash
# Tries the mutants of wrong_bodies/, which the CI leaves out for its time, on a copy of the crates.
#
#     bash tools/try_wrong_bodies.sh [CRATE..]
#
# Run at the top of the repository. Without names all crates of wrong_bodies/ are tried. The prover has to refuse
# each. A kit that keeps what passed, and whose `rt ci` takes names, doesn't prove the crates below again where a CI
# run of the same files passed on this machine; another one proves them first.
set -eu
case "${1:-}" in -h | --help) sed -n '2,9s/^# \{0,1\}//p' "$0"; exit 0 ;; esac
for crate in "$@"; do
    [ -d "wrong_bodies/$crate" ] || { echo "wrong_bodies/$crate: no such folder" >&2; exit 2; }
done
copy=$(mktemp -d)
trap 'rm -rf "$copy"' EXIT
mkdir "$copy/crates"
for crate in crates/*/; do
    tar -C crates --exclude=out --exclude=must-fail -cf - "$(basename "$crate")" | tar -C "$copy/crates" -xf -
done
cp crates.txt HANDLES "$copy"
if [ $# -eq 0 ]; then set -- $(ls wrong_bodies); fi
for crate in "$@"; do cp -r "wrong_bodies/$crate" "$copy/crates/$crate/must-fail"; done
cd "$copy"
if rt help 2>&1 | grep -qE '^ +rt ci \[?NAME'; then rt ci "$@"; else rt must-fail "$@"; fi
