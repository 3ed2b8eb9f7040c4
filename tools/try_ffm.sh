#!/bin/bash
# Runs ffm, from any folder: tools/try_ffm.sh run SYSTEM SCENARIO, or another command.
#
# The first call builds the program without proofs, where the CI left none that fits the sources, and keeps it; later
# calls run what is there. tools/try_ffm.sh --help says which program is taken, and has a call for many commands.
exec python3 "$(dirname "$(readlink -f "$0")")/ffm_program.py" ffm "$@"
