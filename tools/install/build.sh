#!/usr/bin/env bash
# Proves and builds the program and the library for programs in C, as far as they aren't built or
# are older than their sources. Lines on standard error say what is done, and how long it takes.
#
# `rt ci` leaves the proved crates below that library, but of the library itself neither its proof
# nor an archive. So it is proved once more, over these crates. Where they aren't there, or the kit
# has other parts, `rt lib` makes it, and first the crates below it that `./exchange prove` didn't
# prove.
set -euo pipefail
unset CDPATH
top=$(cd "$(dirname "$(readlink -f "${BASH_SOURCE[0]}")")/../.." && pwd)
built=$top/crates/exchange_c/out
library=$built/libexchange_c.a

say() {
    echo "exchange: $*" >&2
}

# Takes what `rt ci` left of a crate into a folder of exchange_c, and says whether it is no older
# than its sources. In the crate's own folder the next `rt ci` would keep it in the place of what it
# makes. What other commands of rt build has a stamp beside it.
take() {
    local crate=$top/crates/$1 left=$built/rlib/$1
    if [ -e "$crate/out/rlib" ] && [ ! -e "$crate/out/rlib/stamp" ]; then
        rm -rf "$left"
        mv "$crate/out/rlib" "$left"
    fi
    [ -e "$left/$1.rlib/format" ] && [ ! "$top/crates.txt" -nt "$left" ] &&
        [ -z "$(find "$crate" -mindepth 1 -path "$crate/out" -prune -o \
            -newer "$left" -print -quit)" ]
}

# Proves exchange_c and makes its archive, over what `rt ci` left of the crates before it in
# crates.txt, or says what is missing.
archive() {
    local kit part name below words=()
    kit=$(dirname "$(rt doc)")
    for part in bin/rattle toolchain logic_built rlibs/std.rlib rattle/logic/antt-project.json; do
        [ -e "$kit/$part" ] || { echo "the kit has no $part" && return 1; }
    done
    mapfile -t below < <(sed -E '/^#/d; /^exchange_c /Q; s/[ :].*//' "$top/crates.txt")
    for name in "${below[@]}"; do
        take "$name" || { echo "rt ci left no $name here" && return 1; }
        words+=(-L "dependency=$built/rlib/$name")
    done
    for name in $(sed -n 's/^exchange_c .*://p' "$top/crates.txt"); do
        words+=(--extern "$name=$built/rlib/$name/$name.rlib")
    done
    cd "$top/crates/exchange_c"
    "$kit/bin/rattle" build --crate-name exchange_c src/lib.rt --crate-type staticlib \
        --links exchange_c= --extern "std=$kit/rlibs/std.rlib" -L "dependency=$kit/rlibs" \
        "${words[@]}" --toolchain "$kit/toolchain" \
        --antt-project "$kit/rattle/logic/antt-project.json" --logic-built "$kit/logic_built" \
        -o "$library"
}

# Makes exchange_c and its archive, and first the crates below it that aren't made.
make_all() {
    cd "$top/crates/exchange_c" && rt lib
}

# Runs one of these two. What it prints goes into a file,
# and its last line is shown each half minute.
follow() {
    local began=$SECONDS last
    { "$1" >>"$said" 2>&1; } | while read -rt 30 || [ $? -gt 128 ]; do
        last=$(tail -n 1 "$said")
        say "after $((SECONDS - began)) s it goes on${last:+: $last}"
    done
}

"$top/exchange" prove
if [ ! -e "$library" ] ||
    [ -n "$(find "$top/crates.txt" "$top"/crates/*/src "$top"/crates/*/specs \
        -type f -newer "$library" -print -quit)" ]; then
    said=$(mktemp) start=$(mktemp)
    trap 'rm -f "$said" "$start"' EXIT
    mkdir -p "$built/rlib"
    say "proving and building exchange_c, the library: two minutes, or longer beside other work .."
    if ! follow archive; then
        say "$(tail -n 1 "$said"), so rt lib does it," \
            "and first the crates below it that ./exchange prove hasn't proved here .."
        : >"$said"
        follow make_all || { cat "$said" >&2 && exit 3; }
    fi
    touch -r "$start" "$library"
    say "exchange_c is proved and built, $SECONDS s after the start"
fi
