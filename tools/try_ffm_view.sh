#!/bin/bash
# Runs ffm_view, from any folder: tools/try_ffm_view.sh state SYSTEM SCENARIO TRACE, or another command.
#
# All else is as tools/try_ffm.sh says of ffm.
exec python3 "$(dirname "$(readlink -f "$0")")/ffm_program.py" ffm_view "$@"
