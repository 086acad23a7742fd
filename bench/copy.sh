# For the scripts of the benches, which source it. The program of a bench is no crate of the
# repository: as src/main.rt of one it is proved and built in a copy of the crates that it stands
# on, which takes some minutes.
export LC_ALL=C
set -E
trap 'echo "WRONG: line $LINENO: $BASH_COMMAND" >&2' ERR

# enter_program NAME LAST: makes a folder that goes away at the end, with the crates of crates.txt
# up to LAST, and behind them a crate of the program NAME.rattle, which stands on LAST and on what
# LAST stands on. FUNCTION.invariants has the invariants of a function, and FUNCTION.answers its
# answers. Goes to that crate.
enter_program() {
    local proof function crate libraries
    work=$(mktemp -d)
    trap 'rm -rf "$work"' EXIT
    mkdir "$work/crates"
    sed -n "/^[a-z]/p; /^$2\>/q" "$top/crates.txt" >"$work/crates.txt"
    grep -o "^[a-z_0-9]*" "$work/crates.txt" | while read -r crate; do
        cp -a "$top/crates/$crate" "$work/crates/"
    done
    cp "$top/HANDLES" "$work/"
    crate=$work/crates/$1
    mkdir -p "$crate/src" "$crate/specs" "$crate/proofs"
    cp "$here/$1.rattle" "$crate/src/main.rt"
    touch "$crate/specs/Lib.antt" "$crate/proofs/Lib.antt"
    for proof in "$here"/*.invariants "$here"/*.answers; do
        [ -e "$proof" ] || continue
        function=$(basename "${proof%.*}")
        mkdir -p "$crate/proofs/$function"
        case $proof in
            *.invariants) cp "$proof" "$crate/proofs/$function/Invariants.antt" ;;
            *.answers) cp "$proof" "$crate/proofs/$function/Answers.antt" ;;
        esac
    done
    libraries=$(sed -n "s/^$2\>[^:]*: *//p" "$work/crates.txt")
    echo "$1: $libraries $2" >>"$work/crates.txt"
    cd "$crate"
}

# instructions PROGRAM WORD..: how many instructions the program executes on one processor, by
# callgrind. A copied or filled range of bytes counts by the instructions that do it, and not by its
# bytes.
instructions() {
    local most=1000000000
    GLIBC_TUNABLES=glibc.cpu.x86_rep_movsb_threshold=$most:glibc.cpu.x86_rep_stosb_threshold=$most \
        valgrind --tool=callgrind --callgrind-out-file=/dev/null "$@" 2>&1 >/dev/null \
        | sed -n 's/.*Collected : *\([0-9]*\).*/\1/p'
}

# Ends a script that does nothing without valgrind, where that is missing: well with --check
needs_valgrind() {
    if ! command -v valgrind >/dev/null; then
        echo "$(basename "$0" .sh): valgrind is missing, so nothing was counted"
        [ "$check" ] || exit 1
        exit 0
    fi
}

# judge WHAT FIGURE MOST: with --check, prints of a figure that is over the most that it may be, or
# no number, and sets `failed`
judge() {
    : "${2:?not counted}"
    judged=$((judged + 1))
    if [ "$check" ] && ! awk -v figure="$2" -v most="$3" \
        'BEGIN { exit !(figure ~ /^-?[0-9.]+$/ && figure <= most) }'; then
        echo "WRONG: $1: $2 is over $3"
        failed=yes
    fi
}

# Something wrong is judged first.
for figure in 10.1 -nan; do
    check=yes judged=0 failed=
    judge "something wrong" "$figure" 9 >/dev/null
    [ "$failed" ] || { echo "$0: WRONG: $figure passes" && exit 1; }
done
check=${1-} judged=0 failed=
