#!/usr/bin/env bash
# Tries the calls for programs in C: tools/c/run.sh [COUNT]
#
#   emulator   the program of examples/emulator, built with warnings and sanitizers, prints what it
#              is to print, also at the other end of `drive`, and of one that is refused, or ends
#              before its line feed comes; a signal ends it, and leaves no folder
#   try        each call with no room, too little, just enough and more, of accepted and refused
#              texts, and without memory
#   stack      each call of the largest texts on a thread with as much stack as docs/EMULATORS.md
#              says
#   texts      COUNT spoilt texts, 400 where it isn't said, byte for byte against the built
#              program, with what is told of refusals
#   states     fifty times as many streams and states of a switch, and of an end that waits to boot,
#              by the built program and by plain Python
#   defines    the numbers of exchange.h are those of the sources, of the module for Python and of
#              these tools; its calls and states are the sources'
#   C++        a program in C++ that includes exchange.h twice is built, and makes a call
#   names      what `nm` shows of the library and of the kit's file, given and needed, is what
#              names.txt says
#
# Libraries and programs that aren't built yet, or are older than their sources,
# are proved and built first.
set -euo pipefail
unset CDPATH
here=$(cd "$(dirname "${BASH_SOURCE[0]}")" && pwd)
top=$(cd "$here/../.." && pwd)
work=$(mktemp -d)
trap 'rm -rf "$work"' EXIT
export PYTHONDONTWRITEBYTECODE=1

"$top/tools/install/build.sh"
library=$top/crates/exchange_c/out/libexchange_c.a
kit=$(dirname "$(rt doc)")/c/liblibc_c.a
checks=(-std=c11 -Wall -Wextra -Werror -g -I"$top/include"
    -fsanitize=address,undefined -fno-sanitize-recover=all)

program=$top/crates/exchange/out/exchange
. "$top/tools/harness.sh"

# emulated STATUS COMMAND..: whether a command has this status, prints what was wanted, and leaves
# no folder of a `drive` that noted where it was
emulated() {
    local status=0
    "${@:2}" >"$work/printed" || status=$?
    cmp "$work/printed" "$work/wanted" && [ $status = "$1" ] &&
        { [ ! -e "$work/where" ] || [ ! -e "$(<"$work/where")" ]; }
}

# drive SCRIPT: makes a `drive`, which notes where it is
drive() {
    rm -f "$work/where"
    printf '#!/bin/sh\npwd >%s\n%s\n' "$work/where" "$1" >"$work/drive"
    chmod +x "$work/drive"
}

# ends STATUS LAST SCRIPT: whether the emulator ends with a status and says so, whose `drive` has
# this last line
ends() {
    drive "$3"
    printf '%s\ndrive has ended with status %d, so nothing is compared\n' "$2" "$1" >"$work/wanted"
    emulated "$1" "$work/emulator" "$work/drive"
}

# Whether it says that transfers went wrong where its `drive` sets nothing.
sees_nothing() {
    ! "$work/emulator" "$(type -P true)" >"$work/printed" &&
        [ "$(tail -n 1 "$work/printed")" = WRONG ]
}

# stops SIGNAL STATUS: whether a signal ends it with this status while its `drive` waits, and no
# folder is left
stops() {
    local status=0
    drive 'exec cat'
    "$work/emulator" "$work/drive" &
    until [ -s "$work/where" ] || ! kill -0 $!; do sleep 0.05; done
    kill -s "$1" $! || true
    wait $! || status=$?
    [ $status = "$2" ] && [ ! -e "$(<"$work/where")" ]
}

cc "${checks[@]}" -o "$work/emulator" "$top/examples/emulator/emulator.c" "$library" "$kit"
cp "$top/examples/emulator/printed.txt" "$work/wanted"
check emulator emulated 0 "$work/emulator"
{ echo "driven settings 4" && tail -n +2 "$top/examples/emulator/printed.txt"; } >"$work/wanted"
check driven emulated 0 "$work/emulator" "$program"
check "no memory" ends 5 'refused no memory' 'echo refused no memory; exit 5'
check "left" ends 1 'left setting 0' "exec '$program' \"\$@\" </dev/null"
check "a drive that sets nothing" sees_nothing
echo "there is no such program" >"$work/wanted"
check missing emulated 1 "$work/emulator" /none
check "a signal that ends it" stops TERM 143
check "a signal that interrupts it" stops INT 130
cc "${checks[@]}" -Wl,--wrap=malloc,--wrap=realloc -o "$work/try" "$here/try.c" "$library" "$kit"
check try python3 "$here/calls.py" "$work/try" --examples
cc -std=c11 -O2 -Wall -Wextra -Werror -I"$top/include" -Wl,--wrap=malloc,--wrap=realloc -pthread \
    -o "$work/small" "$here/try.c" "$library" "$kit"
check stack python3 "$here/calls.py" "$work/small" --stack
check texts python3 "$here/calls.py" "$work/try" "${1:-400}"
cc "${checks[@]}" -Wl,--wrap=malloc,--wrap=realloc -o "$work/states" "$here/states.c" "$library" \
    "$kit"
check states python3 "$here/states.py" "$work/states" $((50 * ${1:-400}))
check defines python3 "$here/defines.py"
{
    printf '#include "exchange.h"\n%.0s' once again
    echo 'int main() { exchange_c004 state = {};'
    echo 'return exchange_c004_source(&state, 0) != EXCHANGE_LOOSE; }'
} >"$work/twice.cc"
check "a program in C++" c++ -Wall -Wextra -Werror -I"$top/include" -o "$work/twice" \
    "$work/twice.cc" "$library" "$kit"
check "a call from C++" "$work/twice"
nm -g "$library" "$kit" | awk 'NF > 1 { print $(NF - 1), $NF }' | LC_ALL=C sort -u >"$work/names"
check names cmp "$work/names" "$here/names.txt"
finish
