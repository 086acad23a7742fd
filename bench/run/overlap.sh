#!/usr/bin/env bash
# Counts the instructions of a run that is refused: of 4096 transfers each of the first 2047 writes
# a block of its own, and all others write one more, so that transfers 2047 and 2048 are the first
# that overlap. A session hands them in, plans them and asks for runs. Beside it stands what reading
# them takes: `check` of this batch and of an empty one, each with an empty schedule, which is
# refused at its first line.
#
# With --check a reading and a refused run may take at most 1.2 times what the reading takes; else
# the status is 1. Where valgrind is missing, --check says so and counts nothing.
#
# Needs valgrind. Build the program first: ./exchange prove
set -eu
here=$(cd "$(dirname "${BASH_SOURCE[0]}")" && pwd)
. "$here/../copy.sh"
needs_valgrind
program=$here/../../crates/exchange/out/exchange
work=$(mktemp -d)
trap 'rm -rf "$work"' EXIT

{
    echo "batch 4096"
    for ((t = 0; t < 4096; t++)); do
        block=$((t < 2047 ? t : 2047))
        echo "push 0 0 $((block / 64)) $((block % 64))"
    done
} >"$work/batch"
echo "batch 0" >"$work/none"
for runs in 1 101; do
    { cat "$work/batch"; echo "plan 1"; yes "run 1" | head -n $runs; } >"$work/$runs"
done
if [ "$("$program" serve 32x64x1 "$work/101" |
    grep -c '^refused overlap 2047 2048$')" != 101 ]; then
    echo "overlap: WRONG: the runs aren't refused"
    exit 1
fi

many=$(instructions "$program" serve 32x64x1 "$work/101")
one=$(instructions "$program" serve 32x64x1 "$work/1")
refused=$(((${many:?not counted} - ${one:?not counted}) / 100))
all=$(instructions "$program" check "$work/batch" /dev/null)
none=$(instructions "$program" check "$work/none" /dev/null)
read=$((${all:?not counted} - ${none:?not counted}))
ratio=$(awk "BEGIN { printf \"%.2f\", ($read + $refused) / $read }")
echo "instructions of a refused run of 4096 transfers: $refused, of reading them: $read," \
    "of both: $ratio times the reading"
judge "a reading and a refused run, in readings" "$ratio" 1.20
[ ! "$failed" ] || exit 1
