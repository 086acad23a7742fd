#!/usr/bin/env bash
# Tries a change in some minutes: tools/try.sh [CRATE..]
#
# It takes these crates, or those that differ from the last commit: formats and proves each alone,
# and looks whether all edits of must-fail can still be made. It makes the program, and runs what a
# change of words or of an answer shows first: rows, pages, names and promises. It isn't the test
# command: it runs no tests in Rattle, no edits, and nothing hostile.
set -euo pipefail
unset CDPATH
export LC_ALL=C
cd "$(dirname "$(readlink -f "${BASH_SOURCE[0]}")")/.."
said=$(mktemp)
trap 'rm -f "$said"' EXIT

# Runs a step, and prints how many seconds it took, or the end of what it said and status 1.
step() {
    local began=$SECONDS
    printf '%s: ' "$*"
    "$@" >"$said" 2>&1 || { echo "WRONG, status $?" && tail -n 30 "$said" && exit 1; }
    echo "$((SECONDS - began)) s"
}

# CRATE WORD..: does this in the crate's folder
within() {
    (cd "crates/$1" && "${@:2}")
}

changed() {
    { git diff --name-only HEAD && git ls-files -o --exclude-standard; } |
        sed -n 's|^crates/\([^/]*\)/.*|\1|p' | sort -u | while read -r crate; do
            [ ! -d "crates/$crate" ] || echo "$crate"
        done
}

crates=("$@")
[ $# -gt 0 ] || mapfile -t crates < <(changed)
step tools/edits.py
for crate in "${crates[@]}"; do
    step within "$crate" rt fmt
    step within "$crate" rt check
done
step ./exchange prove
for tool in rows/run.py texts/names.py texts/promises.py texts/run.py; do
    step "tools/$tool"
done
echo "all of that is well, after $SECONDS s; before a merge: tools/test.sh"
