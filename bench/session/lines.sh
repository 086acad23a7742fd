#!/usr/bin/env bash
# Counts what lines cost. Of `peek` lines: the instructions of `serve`, of `talk`, and of
# `talk --record`, on a script of 5,000, less those on one of 500; and the most memory of each, of
# `serve` for 65,536, and of `talk` for 1,048,576, less that for 32,768. Of `plan` lines on one
# batch of 4096 transfers: the most memory of `serve` for 4,096, less that for half as many.
#
# With --check a peek line may take SERVE, TALK and RECORD instructions, and KEPT bytes in `serve`
# and FLAT in `talk`, and a plan line PLAN bytes; else the status is 1. Where valgrind is missing,
# --check says so and counts no instructions.
#
# Needs valgrind and python3. Build the program first: ./exchange prove
set -eu
SERVE=1900
TALK=2050
RECORD=2800
KEPT=420
FLAT=1
PLAN=2048
here=$(cd "$(dirname "${BASH_SOURCE[0]}")" && pwd)
. "$here/../copy.sh"
program=$here/../../crates/exchange/out/exchange
work=$(mktemp -d)
trap 'rm -rf "$work"' EXIT

for count in 500 5000 32768 65536 1048576; do
    yes "peek 0 80000800" | head -n $count >"$work/$count"
done
for count in 2048 4096; do
    { echo "batch 4096"; yes "push 0 0 1 0" | head -n 4096; yes "plan 1" | head -n $count; } \
        >"$work/plans-$count"
done
if [ "$("$program" serve 1x1x1 "$work/65536" | grep -c '^word 00000000$')" != 65536 ]; then
    echo "lines: WRONG: serve doesn't answer each line"
    exit 1
fi

# SHAPE SCRIPT: a session over a script, by `serve`, by `talk`,
# and by `talk` with a record of its own
serve() { "${before[@]}" "$program" serve "$1" "$work/$2"; }
talk() { "${before[@]}" "$program" talk "$1" <"$work/$2"; }
record() {
    rm -f "$work/record"
    "${before[@]}" "$program" talk "$1" --record "$work/record" <"$work/$2"
}

# COMMAND SHAPE SCRIPT: the instructions of such a session,
# and the most memory that it takes at a time, in bytes
counted() {
    local before=(instructions)
    "$@"
}
memory() {
    local before=(python3 -c 'import resource, subprocess, sys
subprocess.run(sys.argv[1:], stdout=subprocess.DEVNULL, stderr=subprocess.DEVNULL)
print(1024 * resource.getrusage(resource.RUSAGE_CHILDREN).ru_maxrss)')
    "$@"
}

# NAME WHAT BOUND MANY FEW COUNT: prints what each of so many lines takes
tell() {
    local each=$(((${4:?not counted} - ${5:?not counted}) / $6))
    echo "$2 of $1: $each"
    judge "$2 of $1" "$each" "$3"
}

if command -v valgrind >/dev/null; then
    for of in "serve $SERVE" "talk $TALK" "record $RECORD"; do
        read -r command most <<<"$of"
        tell "a peek line, $command" instructions "$most" "$(counted "$command" 1x1x1 5000)" \
            "$(counted "$command" 1x1x1 500)" 4500
    done
else
    echo "lines: valgrind is missing, so no instructions were counted"
    [ "$check" ] || exit 1
fi
for of in "serve $KEPT 65536" "talk $FLAT 1048576" "record $FLAT 1048576"; do
    read -r command most many <<<"$of"
    tell "a peek line, $command" "bytes of memory" "$most" "$(memory "$command" 1x1x1 "$many")" \
        "$(memory "$command" 1x1x1 32768)" $((many - 32768))
done
tell "a plan line, serve" "bytes of memory" $PLAN "$(memory serve 2x1x1 plans-4096)" \
    "$(memory serve 2x1x1 plans-2048)" 2048
[ ! "$failed" ] || exit 1
