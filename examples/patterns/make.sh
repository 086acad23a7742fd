#!/usr/bin/env bash
# Makes the patterns' files: the batches and the moves by the rules below, the batches of moves, the
# plans and the pictures by the program, that of the clone or else the one on the PATH.
#
#     make.sh          makes all of them anew, where they stand
#     make.sh --check  makes them in a folder of its own, and tells which of those that stand are
#                      others
#
# The status is 1 where one that stands is another than the one that was made.
set -euo pipefail
unset CDPATH
here=$(dirname "$(readlink -f "${BASH_SOURCE[0]}")")
examples=$(dirname "$here")
exchange=$(dirname "$examples")/exchange
[ -x "$exchange" ] || exchange=exchange

# Each of 16 modules sends its block r to each other module r,
# where it falls upon block 16 + its own number.
all_to_all() {
    local i r
    for ((i = 0; i < 16; i++)); do
        for ((r = 0; r < 16; r++)); do
            [ "$i" -eq "$r" ] || echo "push $i $r $r $((16 + i))"
        done
    done
}

# Each of 4 modules sends three blocks to each other module: to module r its blocks from 3r on,
# where they fall upon those from 12 + three times its own number on.
three_blocks() {
    local i r b
    for ((i = 0; i < 4; i++)); do
        for ((r = 0; r < 4; r++)); do
            for ((b = 0; b < 3; b++)); do
                [ "$i" -eq "$r" ] || echo "push $i $((3 * r + b)) $r $((12 + 3 * i + b))"
            done
        done
    done
}

# Block j of module i is the square in row i and column j of a matrix;
# it changes places with block i of module j.
transposition() {
    local i j
    for ((i = 0; i < 8; i++)); do
        for ((j = 0; j < 8; j++)); do
            [ "$i" -eq "$j" ] || echo "push $i $j $j $i"
        done
    done
}

# Each of 16 modules passes its block 0 on to the next, and the last one to the first.
ring_shift() {
    local m
    for ((m = 0; m < 16; m++)); do
        echo "push $m 0 $(((m + 1) % 16)) 0"
    done
}

# Block s of each of 16 modules changes places with
# that of the module whose number differs in bit s.
butterfly() {
    local s m
    for ((s = 0; s < 4; s++)); do
        for ((m = 0; m < 16; m++)); do
            echo "push $m $s $((m ^ (1 << s))) $s"
        done
    done
}

# Module 4y + x stands in row y and column x of a grid. Blocks 0 to 3 are its upper, right, lower
# and left border, and blocks 4 to 7 those of its neighbours above, to the right, below and to the
# left.
halo() {
    local m
    for ((m = 0; m < 16; m++)); do
        [ $((m / 4)) -eq 0 ] || echo "push $m 0 $((m - 4)) 6"
        [ $((m % 4)) -eq 3 ] || echo "push $m 1 $((m + 1)) 7"
        [ $((m / 4)) -eq 3 ] || echo "push $m 2 $((m + 4)) 4"
        [ $((m % 4)) -eq 0 ] || echo "push $m 3 $((m - 1)) 5"
    done
}

# Stage s of a broadcast to 16 modules, from 1: each module
# that has the block sends it to one that hasn't.
broadcast() {
    local m have=$((1 << ($1 - 1)))
    for ((m = 0; m < have; m++)); do
        echo "push $m 0 $((m + have)) 0"
    done
}

# Each of 15 modules pushes its block 0 to module 0.
gather_by_pushes() {
    local m
    for ((m = 1; m < 16; m++)); do
        echo "push $m 0 0 $m"
    done
}

# Moves of a block from each of 15 modules to module 0, and the other way round:
# nobody says which end starts.
gather_moves() {
    local m
    for ((m = 1; m < 16; m++)); do
        echo "move $m 0 0 $m"
    done
}
scatter_moves() {
    local m
    for ((m = 1; m < 16; m++)); do
        echo "move 0 $m $m 0"
    done
}

# The lines of a client who has the four stages of a broadcast planned and run, one after another.
broadcast_session() {
    local s
    echo "poke 0 80000800 12345678"
    for s in 1 2 3 4; do
        cat "broadcast-$s.txt"
        echo "plan $s"
        echo "run $s"
    done
    echo "peek 15 80000800"
    echo "bye"
}

# Makes a text of the lines that a command prints, which its first line counts:
# counted HEAD FILE COMMAND..
counted() {
    local head=$1 file=$2 lines
    shift 2
    lines=$("$@")
    { echo "$head $(wc -l <<<"$lines")" && echo "$lines"; } >"$file"
}

# Makes a batch text of the transfers that a command prints: pattern FILE COMMAND..
pattern() {
    counted batch "$@"
}

# Makes the plan of a batch and its picture: draw NAME
draw() {
    "$exchange" plan "$1.txt" >"$1.plan.txt"
    "$exchange" draw "$1.txt" "$1.plan.txt" >"$1.svg"
}

# Makes the steady plan of a batch, its picture and its film: draw_steady NAME
draw_steady() {
    "$exchange" plan "$1.txt" --steady >"$1.steady.txt"
    "$exchange" draw "$1.txt" "$1.steady.txt" >"$1.steady.svg"
    "$examples/crossbar_film.py" "$1.txt" "$1.steady.txt" >"$1.film.svg"
}

# Makes all files, in the folder of the examples or a copy of it.
make_all() {
    local s name
    cd "$1"
    pattern all-to-all.txt all_to_all
    draw all-to-all
    draw three-transfers
    cd patterns
    pattern three-blocks.txt three_blocks
    pattern transposition.txt transposition
    pattern ring-shift.txt ring_shift
    pattern butterfly.txt butterfly
    pattern halo.txt halo
    pattern gather-by-pushes.txt gather_by_pushes
    counted moves gather.moves.txt gather_moves
    counted moves scatter.moves.txt scatter_moves
    for name in gather scatter; do
        "$exchange" direct "$name.moves.txt" >"$name.txt"
    done
    for s in 1 2 3 4; do
        pattern "broadcast-$s.txt" broadcast "$s"
    done
    broadcast_session >broadcast.session.txt
    for name in three-blocks transposition ring-shift butterfly halo gather-by-pushes gather \
        scatter broadcast-{1,2,3,4}; do
        draw "$name"
    done
    draw_steady three-blocks
}

case ${1-} in
'')
    (make_all "$examples")
    ;;
--check)
    room=$(mktemp -d)
    trap 'rm -rf "$room"' EXIT
    cp -r "$examples" "$room/examples"
    rm "$room"/examples/{three-transfers.{plan.txt,svg},all-to-all.*,patterns/*.txt,patterns/*.svg}
    (make_all "$room/examples")
    diff -rq "$examples" "$room/examples"
    echo "make.sh: $(find "$room/examples" -name '*.svg' -o -name '*.txt' | wc -l)" \
        "files are as they are made"
    ;;
*)
    echo "make.sh: one word at most, --check" >&2
    exit 2
    ;;
esac
