#!/usr/bin/env bash
# Measures how many commands a second one session over memory answers, by `peek` lines, beside the
# calls a second of a seat, and how long a session takes that hands in one batch, by its lines. Each
# time is that of the quickest of a hundred sessions. The program session_speed.rattle is proved and
# built first (../copy.sh). With valgrind on the PATH it also counts the instructions of each, and
# the allocations of lines beside those of as many calls.
set -eu
here=$(cd "$(dirname "${BASH_SOURCE[0]}")" && pwd)
top=$here/../..
. "$here/../copy.sh"

enter_program session_speed client_session
rt run

# WORK: the instructions of each of 40,000 more
each() {
    local many few
    many=$(instructions out/session_speed "$1" 50000)
    few=$(instructions out/session_speed "$1" 10000)
    echo $(((many - few) / 40000))
}

if command -v valgrind >/dev/null; then
    line=$(each lines)
    call=$(each calls)
    echo "instructions: $line of a line, $call of a call," \
        "so $((line - call)) of all else that belongs to a line"
    for count in 1024 2048 4096; do
        batch=$(($(instructions out/session_speed batch $count) - \
            $(instructions out/session_speed text $count)))
        echo "instructions of a batch of $count lines: $batch, $((batch / count)) a line"
    done
    for count in 1000 50000; do
        for work in lines calls; do
            printf '%s %s: ' $count $work
            valgrind out/session_speed $work $count 2>&1 >/dev/null |
                sed -n 's/.*total heap usage: *//p'
        done
    done
fi
