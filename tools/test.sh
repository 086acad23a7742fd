#!/usr/bin/env bash
# The test command: proves each crate and its tests, tries the edits that have to be refused, runs
# all tests, and tries the built programs. One run says all that is wrong.
set -euo pipefail
unset CDPATH
export LC_ALL=C
cd "$(dirname "$(readlink -f "${BASH_SOURCE[0]}")")/.."
said=$(mktemp)
trap 'rm -f "$said"' EXIT
failed=
rt ci | tee "$said" || failed+=" rt-ci"
tools/said.py "$said" || failed+=" tools/said.py"
tools/try_programs.sh || failed+=" tools/try_programs.sh"
[ ! "$failed" ] || { echo "test.sh: WRONG:$failed" && exit 1; }
