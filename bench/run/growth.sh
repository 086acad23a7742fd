#!/usr/bin/env bash
# Counts the instructions of whole runs whose blocks have one word, on a rack of 32 modules with 64
# blocks, and of the plans of the same batches: 512, 1024 and 2048 transfers, of which each module
# pushes as many to the next one. So what is counted is what a run does besides moving words: it
# looks at its batch, parts the rack, sets the switches and reports.
#
# With --check a run of 2048 transfers may take at most 2.2 times as much more than none as one
# of 1024; else the status is 1. Where valgrind is missing, --check says so and counts nothing.
#
# Needs valgrind. Build the program first: ./exchange prove
set -eu
here=$(cd "$(dirname "${BASH_SOURCE[0]}")" && pwd)
. "$here/../copy.sh"
needs_valgrind
program=$here/../../crates/exchange/out/exchange
work=$(mktemp -d)
trap 'rm -rf "$work"' EXIT

declare -A ran
for count in 0 512 1024 2048; do
    {
        echo "batch $count"
        for ((t = 0; t < count; t++)); do
            echo "push $((t % 32)) $((t / 32)) $(((t + 1) % 32)) $((t / 32))"
        done
    } >"$work/batch"
    ran[$count]=$(instructions "$program" run 32x64x1 "$work/batch" --workers 1)
    planned=$(instructions "$program" plan --quiet "$work/batch" --workers 1)
    awk -v n=$count -v run=${ran[$count]} -v plan=$planned \
        'BEGIN { printf "%4d transfers: %.2f million instructions of the run, %.2f of the plan\n", \
            n, run / 1e6, plan / 1e6 }'
done
growth=$(awk "BEGIN { printf \"%.2f\", (${ran[2048]} - ${ran[0]}) / (${ran[1024]} - ${ran[0]}) }")
echo "growth of what a run takes more than that of no transfer," \
    "from 1024 to 2048 transfers: $growth"
judge growth "$growth" 2.20
[ ! "$failed" ] || exit 1
