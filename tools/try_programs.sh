#!/usr/bin/env bash
# Tries the built programs: the start script, the rows of each command, what the documents show,
# live clients, switches that stand somewhere else, racks of processes, the calls from C and Python,
# what is installed, the instructions that planning, runs and sessions take, and hostile use. What
# isn't built yet is proved and built first. It also looks for names with several meanings, for
# lines that are too wide, for wrong bodies that can't be made any more, and for libraries that open
# files past every handle.
#
# After a tool that fails the others are tried all the same. One fails too if it tries less than
# least.txt says. The status is 1 where any did, and the last lines say once more what was wrong.
set -eu
unset CDPATH
export LC_ALL=C
cd "$(dirname "$(readlink -f "${BASH_SOURCE[0]}")")/.."
said=$(mktemp)
faults=$(mktemp)
trap 'rm -f "$said" "$faults"' EXIT
wrong=() tried=() again=0

# Tries one of them, for an hour at most: whether it ends well, and tried enough.
ends_well() {
    local status=0
    timeout -k 60 3600 "$@" >"$said" 2>&1 || status=$?
    [ "$status" = 0 ] || echo "$*: WRONG: status $status" >>"$said"
    tools/least.py "$1" "$said" >>"$said" || status=1
    cat "$said"
    [ "$status" = 0 ]
}

# Tries one of them, and prints how many seconds it took.
try() {
    local began=$SECONDS
    tried+=("$1")
    if ! ends_well "$@"; then
        wrong+=("$1")
        { echo "== $*" && grep -A 9 WRONG "$said" | tail -n 60; } >>"$faults"
    fi
    again=$((again + $(grep -c " was run again: " "$said" || true)))
    echo "$*: $((SECONDS - began)) s"
}

# It is handed a tool that fails first.
try false >/dev/null
[ "${wrong[*]-}" = false ] && [ -s "$faults" ] && wrong=() || wrong=(try)
: >"$faults"
if grep -nE '^[^#:]*:(.*[^[:alnum:]_])?(io|os|libc)([^[:alnum:]_]|$)' crates.txt; then
    echo "crates.txt: WRONG: a crate lists io, os or libc"
    wrong+=(crates.txt)
fi
./exchange prove
try tools/edits.py
try tools/steps.py
try tools/start/run.sh
try tools/rows/run.py
try tools/c/run.sh
try tools/python/run.py
try tools/release.sh --check
try tools/texts/names.py
try tools/texts/widths.py
try tools/texts/promises.py
try tools/texts/run.py
try tools/texts/change.py
try tools/hosts/run.sh
try tools/ends/run.sh
try tools/rack/run.py
try examples/patterns/make.sh --check
try bench/planning/run.sh --check
try bench/run/growth.sh --check
try bench/run/apply.sh --check
try bench/run/overlap.sh --check
try bench/session/lines.sh --check
try tools/hostile/run.sh
# A tool of least.txt that wasn't tried is wrong too.
wrong+=($(sed '/^#/d; s/ .*//' tools/least.txt | uniq |
    grep -vxF -f <(printf '%s\n' "${tried[@]}") || true))
# What was wrong stands at the end once more.
cat "$faults"
echo "cases that were wrong once, and right three times after that: $again"
if [ ${#wrong[@]} != 0 ]; then
    echo "WRONG: ${wrong[*]}"
    exit 1
fi
