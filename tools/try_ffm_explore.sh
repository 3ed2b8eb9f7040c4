#!/bin/bash
# Runs ffm_explore, from any folder: tools/try_ffm_explore.sh all SYSTEM SCENARIO, or another command.
#
# All else is as tools/try_ffm.sh says of ffm.
exec python3 "$(dirname "$(readlink -f "$0")")/ffm_program.py" ffm_explore "$@"
