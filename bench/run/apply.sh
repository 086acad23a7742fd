#!/usr/bin/env bash
# Counts the instructions of the largest runs: on a rack of 32 modules with 64 blocks of 256 words
# each module pushes 64 blocks to the next one. So there are 2048 transfers, and each block is read
# and written. Counted are `run` of that batch, and a session of `serve` that hands it in, plans it
# and runs it. Their wires are plain ones. `apply` runs nothing: it places the blocks in an image.
# `call` is a program in C that calls `exchange_apply` of the library, which has to give the same
# image as `apply`. Each is a whole program.
#
# With --check each may take as many millions as `greatest` says; else the status is 1. Where
# valgrind is missing, --check says so and counts nothing. Without --check plain Rust that copies
# the blocks within the image (plain_apply.rs) is counted too, and has to give the same image as
# `apply`.
#
# Needs valgrind and a C compiler, and rustc without --check. The program and the library are built
# first, where they are older than their sources.
set -eu
here=$(cd "$(dirname "${BASH_SOURCE[0]}")" && pwd)
. "$here/../copy.sh"
needs_valgrind
top=$(cd "$here/../.." && pwd)
program=$top/crates/exchange/out/exchange
work=$(mktemp -d)
trap 'rm -rf "$work"' EXIT

# A tenth to a fifth more than was counted. A fifth of a session makes its rack, a tenth takes the
# batch and plans it, and the rest runs it.
declare -A greatest=([apply]=1.5 [run]=60 [serve]=25 [call]=1.2)

{
    echo "batch 2048"
    for ((t = 0; t < 2048; t++)); do
        echo "push $((t % 32)) $((t / 32)) $(((t + 1) % 32)) $((t / 32))"
    done
} >"$work/batch"
{
    cat "$work/batch"
    printf '%s\n' "plan 1" "run 1" bye
} >"$work/script"
seq -w 0 299593 | head -c 2097152 >"$work/image"

# WORD..: the millions of instructions of the program with these words
millions() {
    local count
    count=$(instructions "$@")
    awk -v count="${count:?}" 'BEGIN { printf "%.2f", count / 1e6 }'
}

# NAME PROGRAM WORD..: counts for a program with these words,
# which may take as many as `greatest` says
count() {
    count[$1]=$(millions "${@:2}")
    judge "millions of instructions of $1" "${count[$1]}" "${greatest[$1]}"
}

# COMMAND WORD..: what the command says into a file of its name, and its count
measure() {
    "$program" "$@" >"$work/$1"
    count "$1" "$program" "$@"
}

declare -A count
measure apply 32x64x256 "$work/batch" "$work/image"
measure run 32x64x256 "$work/batch"
measure serve 32x64x256 "$work/script"
"$top/tools/install/build.sh"
cc -std=c11 -O2 -I"$top/include" -o "$work/call" "$here/call_apply.c" \
    "$top/crates/exchange_c/out/libexchange_c.a" \
    "$(dirname "$(rt doc)")/c/liblibc_c.a"
"$work/call" 32x64x256 "$work/batch" "$work/image" | cmp - "$work/apply"
count call "$work/call" 32x64x256 "$work/batch" "$work/image"
if ! grep -q "^ran settings 64 words 524288 " "$work/run" ||
    ! grep -q "^ran 1 run 1 settings 64 words 524288 " "$work/serve"; then
    echo "apply: WRONG: the batch wasn't run"
    exit 1
fi
echo "2048 transfers of 256 words, in millions of instructions: ${count[apply]} of apply," \
    "${count[run]} of run, ${count[serve]} of a session, ${count[call]} of a call"

[ ! "$check" ] || exit $((${#failed} > 0))

rustc --edition 2021 -O -o "$work/plain" "$here/plain_apply.rs"
"$work/plain" 64 256 "$work/batch" "$work/image" | cmp - "$work/apply"
echo "plain Rust that copies the blocks:" \
    "$(millions "$work/plain" 64 256 "$work/batch" "$work/image")"
