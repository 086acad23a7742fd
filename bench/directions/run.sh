#!/usr/bin/env bash
# Counts the instructions of `direct` for 1024 and for 4096 moves, and how many settings its
# directions need beside those of pushes alone.
#
#   scrambled   modules of both ends by a linear congruential generator
#   gather      to module 0, from each other module in turn
#   scatter     from module 0, to each other module in turn
#   pairs       from module 0 to module 1
#   ring        from each module in turn to the next one
#
# Needs valgrind. Build the program first: ./exchange prove
set -eu
here=$(cd "$(dirname "${BASH_SOURCE[0]}")" && pwd)
. "$here/../copy.sh"
needs_valgrind
program=$here/../../crates/exchange/out/exchange
work=$(mktemp -d)
trap 'rm -rf "$work"' EXIT

# COUNT FROM TO: moves from a module to a module,
# both by expressions of the move's number t and of x, which is scrambled
moves() {
    local x=1 t
    echo "moves $1"
    for ((t = 0; t < $1; t++)); do
        x=$(((1103515245 * x + 12345) % 2147483648))
        echo "move $(($2)) 0 $(($3)) 0"
    done
}

# NAME FROM TO
measure() {
    local count directed pushed
    for count in 1024 4096; do
        moves $count "$2" "$3" >"$work/moves"
        counts[$count]=$(instructions "$program" direct "$work/moves")
    done
    directed=$("$program" direct "$work/moves" | "$program" plan --quiet - |
        sed -n '1s/settings //p')
    pushed=$(sed 's/^moves/batch/; s/^move/push/' "$work/moves" | "$program" plan --quiet - |
        sed -n '1s/settings //p')
    awk -v name="$1" -v a="${counts[1024]}" -v b="${counts[4096]}" \
        -v d="$directed" -v p="$pushed" 'BEGIN {
        printf "%-10s %.2f million instructions for 1024 moves, %.2f for 4096, growth %.2f; ",
            name, a / 1e6, b / 1e6, b / a
        printf "settings %d, of pushes alone %d\n", d, p
    }'
}

declare -A counts
measure scrambled '(x >> 16) % 32' '(x >> 21) % 32'
measure gather '1 + t % 31' 0
measure scatter 0 '1 + t % 31'
measure pairs 0 1
measure ring 't % 32' '(t + 1) % 32'
