#!/usr/bin/env bash
# Counts the instructions that planning costs: of the whole program on one worker, beside plain Rust
# that does the same and was written for speed (plain_planner.rs), for batches of several shapes,
# and how both grow from 1024 transfers to 4096. Plain Rust halves along partners, as the program
# did before it halved by pairs of links: so both have to find as many settings, and `check` has to
# say of the program's that none are fewer. All is planned with --quiet. Without it the batch is
# read again, to name two transfers that write one block: what that costs is counted of two batches.
#
#   scrambled   modules of both ends by a linear congruential generator
#   one_link    all from module 0 to module 1
#   odd         each pair of modules in turn, so that each link has 255 uses
#   star        all from module 0, to each module in turn
#   two_by_two  from two modules to two
#   three_by_three, four_by_two, sixteen_by_three, thirty_two_by_two
#               each of so many modules to each of so many others, in turn
#   part        2731 transfers from module 0 to module 1
#   wide        as scrambled, over 32 modules
#
# For each of them, and for those of steady_batches.py, it also counts `plan --steady` beside
# `plan`, and of the steady plan the changes, the pairs that are cut or joined, and the bytes of
# `switch`, of both switches where there are two:
#
#   all_to_all  each of 16 modules to each other, 17 blocks each, pair by pair
#   in_rounds   the same, each pair once in each round
#   halo        each module of a 4x4 grid with its neighbours, 16 blocks each
#   random_16, random_32, random_256
#               4096 transfers between 16 modules, 4096 between 32, 256 between 16
#   sixty_pairs 60 pairs of 16 modules, 1 to 64 blocks each
#   gather      64 blocks of each of 15 modules into one
#   butterfly   each of 16 modules with those whose number differs in one bit, 64 blocks each
#   permutations
#               eight permutations of 32 modules, 1 to 16 blocks each
#   once_each   each of 32 modules to each other, a block each
#   random_512  512 transfers between 32 modules
#   ten_modules each of ten modules to each other, seven blocks each
#   random_800  800 transfers between 32 modules
#   seven_steps, seven_others
#               what seven matchings of ten modules join, each for some settings
#   eight_steps, six_steps
#               what eight matchings of thirteen modules join, and six of nine
#   random_1000 1000 transfers between 32 modules
#
# With --check each ratio to plain Rust may be as large as `greatest` says, and what `switch` prints
# of one link may cost so many times as much as of a quarter of the transfers as `greatest_growth`
# says. A steady plan may cost so many times as much as a plan of the same batch as
# `greatest_steady` says, and four times the transfers no more than four times as much. Its changes
# and bytes may be as many as `most_changes` and `most_bytes` say, where these name the batch.
# Of 1000 small batches no more than 60 may have steady plans with more changes than the fewest, as
# all shortest schedules show that were tried, and all together may have 2 in 100 more than the
# fewest. Pictures may leave open of no more than 85 whether a plan has the fewest, and of no more
# than 2 in 100 of those that have (told.py, fewest_changes.rs). No picture may say more than is so.
# Else the status is 1. Where valgrind or rustc is missing, --check says so, and compares what needs
# neither: how many settings plans have, and the changes and the bytes of steady ones.
#
# It also counts the steps of plans, beside the most that are proved (steps.py).
#
# Needs valgrind, rustc and python3. Build the program first: ./exchange prove
set -eu
here=$(cd "$(dirname "${BASH_SOURCE[0]}")" && pwd)
. "$here/../copy.sh"
counts_all=yes has_rustc=yes
for tool in valgrind rustc; do
    if ! command -v $tool >/dev/null; then
        echo "planning: $tool is missing, so no instructions were counted"
        [ "$check" ] || exit 1
        counts_all=
        [ $tool = valgrind ] || has_rustc=
    fi
done
top=$here/../..
program=$top/crates/exchange/out/exchange
work=$(mktemp -d)
trap 'rm -rf "$work"' EXIT

# About a twelfth more than was counted last, since other versions
# of both compilers count a little differently
declare -A greatest=(
    [scrambled]=0.89 [scrambled-1024]=1.01 [one_link]=0.51 [one_link-1024]=0.65 [odd]=0.80
    [star]=0.52 [two_by_two]=0.87 [part]=0.49 [wide]=0.89
    [three_by_three]=1.08 [four_by_two]=1.08 [sixteen_by_three]=1.07 [thirty_two_by_two]=1.09
)
greatest_growth=5
# About an eighth more than was counted last, and no more than 1.85. A steady plan is the best of up
# to three, so it may cost more than a plan: of transfers at random, and of modules that send each
# other one block
declare -A greatest_steady=(
    [scrambled]=1.03 [scrambled-1024]=1.36 [one_link]=1.05 [one_link-1024]=1.07 [odd]=0.54
    [star]=1.06 [two_by_two]=0.52 [part]=1.05
    [wide]=1.33 [three_by_three]=0.35 [four_by_two]=0.43 [sixteen_by_three]=0.74
    [thirty_two_by_two]=0.45 [all_to_all]=0.56
    [in_rounds]=0.56 [halo]=0.85 [random_16]=0.98 [random_32]=1.33 [random_256]=1.45
    [sixty_pairs]=0.93 [gather]=1.06 [butterfly]=0.66
    [permutations]=0.62 [once_each]=1.35 [random_512]=1.13 [ten_modules]=0.81 [random_800]=1.7
    [seven_steps]=0.62 [seven_others]=0.62 [eight_steps]=0.85 [six_steps]=0.85 [random_1000]=1.85
)
greatest_steady_growth=4
# A batch is read once more, and once more where two transfers write one block
greatest_told=1.5

# As many as were seen last. Nobody knows the fewest of eight_steps and six_steps
declare -A most_changes=(
    [all_to_all]=15 [in_rounds]=15 [halo]=4 [random_16]=35 [random_32]=48 [random_256]=18
    [sixty_pairs]=17 [gather]=15 [butterfly]=4
    [permutations]=8 [once_each]=31 [random_512]=20 [ten_modules]=9 [random_800]=30
    [seven_steps]=7 [seven_others]=7 [eight_steps]=17 [six_steps]=10 [random_1000]=30
)
declare -A most_bytes=(
    [all_to_all]=1648 [in_rounds]=1648 [halo]=341 [random_16]=3171 [random_32]=12282
    [random_256]=1024 [sixty_pairs]=962 [gather]=1048
    [butterfly]=593 [permutations]=2550 [once_each]=9856 [random_512]=4162 [ten_modules]=574
    [random_800]=5816 [seven_steps]=619 [seven_others]=614 [random_1000]=6750
)

# COUNT MODULES
scrambled() {
    local x=1 t a b
    echo "batch $1"
    for ((t = 0; t < $1; t++)); do
        a=$(((x >> 16) % $2)) x=$(((1103515245 * x + 12345) % 2147483648))
        b=$(((x >> 16) % $2)) x=$(((1103515245 * x + 12345) % 2147483648))
        echo "push $a 0 $b 0"
    done
}

# COUNT FROM TO BLOCK: from a module to a module, both by expressions of the transfer's number t
from_to() {
    local t
    echo "batch $1"
    for ((t = 0; t < $1; t++)); do
        echo "push $(($2)) 0 $(($3)) $4"
    done
}

# WORD..: how many instructions the program executes, where that is counted
counted() {
    [ ! "$counts_all" ] || instructions "$@"
}

# NAME PLAN: judges by `check` whether a plan of the batch in the file of that name is shortest
shortest() {
    local said
    said=$("$program" check "$work/$1" "$work/$2") || true
    judge "plans of $1 that aren't shortest, as its $2" "$([[ $said = shortest* ]]; echo $?)" 0
}

# NAME: counts for the batch in the file of that name
measure() {
    local proved plain
    "$program" plan --quiet "$work/$1" --workers 1 >"$work/answer"
    shortest "$1" answer
    proved=$(counted "$program" plan --quiet "$work/$1" --workers 1)
    if [ ! "$counts_all" ]; then
        measure_steady "$1" ""
        return
    fi
    plain=$(instructions "$work/plain" "$work/$1")
    : "${proved:?not counted}" "${plain:?not counted}"
    "$work/plain" "$work/$1" >"$work/plainly"
    [ "$(head -1 "$work/answer")" = "$(head -1 "$work/plainly")" ]
    counts[$1]="$proved $plain"
    awk -v name="$1" -v proved="$proved" -v plain="$plain" -v head="$(head -1 "$work/answer")" \
        'BEGIN { printf "%-14s %-13s %9d of %8d instructions, ratio %.2f\n", \
            name, head, proved, plain, proved / plain }'
    judge "the ratio of $1" "$(awk "BEGIN { printf \"%.2f\", $proved / $plain }")" "${greatest[$1]}"
    measure_steady "$1" "$proved"
}

# What `switch` prints, on standard input: the changes, the pairs that are cut or joined,
# and the bytes
count_changes() {
    awk '
        { at = $3 ~ /^[ab]$/ ? 4 : 3; bytes += NF - at + 1 }
        $3 != "b" {
            changes += NR == 1 || NF > at
            for (i = at; i <= NF; i += step) {
                step = $i ~ /^0[016]$/ ? 3 : $i == "05" ? 2 : 1
                pairs += step > 1
            }
        }
        END { print changes + 0, pairs + 0, bytes + 0 }'
}

# NAME PLANNED: counts `plan --steady` for the batch in the file of that name,
# which `plan` takes so many instructions for
measure_steady() {
    local steady changes pairs bytes
    "$program" plan --quiet "$work/$1" >"$work/planned"
    "$program" plan --quiet "$work/$1" --steady >"$work/steady"
    shortest "$1" steady
    "$program" switch --quiet "$work/$1" --schedule "$work/steady" >"$work/bytes"
    read -r changes pairs bytes < <(count_changes <"$work/bytes")
    [ "$changes" -gt 0 ]
    [ -z "${most_changes[$1]-}" ] ||
        judge "changes of a steady plan of $1" "$changes" "${most_changes[$1]}"
    [ -z "${most_bytes[$1]-}" ] || judge "bytes of a steady plan of $1" "$bytes" "${most_bytes[$1]}"
    measured=$((measured + 1))
    [ "$counts_all" ] || return 0
    steady=$(instructions "$program" plan --quiet "$work/$1" --steady)
    : "${steady:?not counted}" "${2:?not counted}"
    steady_counts[$1]=$steady
    awk -v name="$1" -v steady="$steady" -v planned="$2" \
        -v changes="$changes" -v pairs="$pairs" -v bytes="$bytes" 'BEGIN {
        printf "%-17s steady: %8d of %8d instructions, ratio %.2f; ", \
            name, steady, planned, steady / planned
        printf "changes %d, pairs %d, bytes %d\n", changes, pairs, bytes }'
    judge "the ratio of a steady plan of $1" "$(awk "BEGIN { printf \"%.3f\", $steady / $2 }")" \
        "${greatest_steady[$1]}"
}

# NAME: how the counts grow from 1024 transfers to 4096
growth() {
    echo "$1 ${counts[$1]} ${counts[$1-1024]}" \
        | awk '{ printf "%-14s from 1024 to 4096: times %.2f, of plain Rust times %.2f\n", \
            $1, $2 / $4, $3 / $5 }'
}

# NAME WHAT MANY FEW MOST: how many times as much one count is as another
times() {
    local times
    times=$(awk "BEGIN { printf \"%.2f\", ${3:?not counted} / ${4:?not counted} }")
    printf '%-14s %s: times %s\n' "$1" "$2" "$times"
    judge "$1, $2" "$times" "$5"
}

[ ! "$counts_all" ] || rustc --edition 2021 -O -o "$work/plain" "$here/plain_planner.rs"
scrambled 4096 16 >"$work/scrambled"
scrambled 1024 16 >"$work/scrambled-1024"
scrambled 4096 32 >"$work/wide"
from_to 4096 0 1 0 >"$work/one_link"
from_to 1024 0 1 0 >"$work/one_link-1024"
from_to 4080 t%16 '(t/16+t)%16' 1 >"$work/odd"
from_to 4096 0 t%16 0 >"$work/star"
from_to 4096 t%2 t/2%2 0 >"$work/two_by_two"
from_to 4095 t%3 t/3%3 0 >"$work/three_by_three"
from_to 4088 t%4 t/4%2 0 >"$work/four_by_two"
from_to 4096 t%16 t/16%3 0 >"$work/sixteen_by_three"
from_to 4096 t%32 t/32%2 0 >"$work/thirty_two_by_two"
from_to 2731 0 1 0 >"$work/part"
python3 "$here/steady_batches.py" "$work"
declare -A counts steady_counts
measured=0
for name in scrambled one_link odd star two_by_two three_by_three four_by_two sixteen_by_three \
    thirty_two_by_two \
    part wide scrambled-1024 one_link-1024; do
    measure $name
done
for name in all_to_all in_rounds halo random_16 random_32 random_256 sixty_pairs gather butterfly \
    permutations once_each \
    random_512 ten_modules random_800 seven_steps seven_others eight_steps six_steps random_1000; do
    measure_steady "$name" "$(counted "$program" plan --quiet "$work/$name" --workers 1)"
done
if [ "$counts_all" ]; then
    growth scrambled
    growth one_link
    for name in scrambled one_link; do
        times $name "steady from 1024 to 4096" "${steady_counts[$name]}" \
            "${steady_counts[$name-1024]}" $greatest_steady_growth
    done
    times one_link "switch from 1024 to 4096" "$(instructions "$program" switch "$work/one_link")" \
        "$(instructions "$program" switch "$work/one_link-1024")" $greatest_growth
    for name in scrambled once_each; do
        times $name "not quiet" "$(instructions "$program" plan "$work/$name")" \
            "$(instructions "$program" plan --quiet "$work/$name")" $greatest_told
    done
fi
if [ "$has_rustc" ]; then
    rustc --edition 2021 -O -o "$work/search" "$here/fewest_changes.rs"
    told=$("$here/told.py" "$program" "$work/search" 1000)
    echo "$told"
    best=$(sed -n 's/^the fewest changes have \([0-9]*\) .*/\1/p' <<<"$told")
    judge "small batches of 1000 whose steady plans have more changes than the fewest" \
        "$((1000 - ${best:?not told}))" 60
    unshown=${told##*, }
    judge "small batches of 1000 whose steady plans aren't shown to have the fewest" \
        "${unshown%% *}" 85
    more=$(sed -n 's/^together they have \([0-9.]*\) .*/\1/p' <<<"$told")
    judge "changes of these plans, in 100 of the fewest" "$more" 2
    share=$(sed -n 's/.*told so: \([0-9.]*\) .*/\1/p' <<<"$told")
    judge "of 100 that have the fewest, those that aren't told so" \
        "$(awk "BEGIN { print 100 - ${share:?not told} }")" 2
fi
python3 "$here/steps.py" || failed=yes
echo "planning: $measured batches planned, $judged figures judged"
[ -z "$failed" ] || exit 1
