#!/usr/bin/env bash
# Measures how many words a second one thread moves by push_word, with and without the bits of the
# links. The program wire_speed.rattle is proved and built first (../copy.sh). With valgrind on the
# PATH it also counts the allocations.
set -eu
here=$(cd "$(dirname "${BASH_SOURCE[0]}")" && pwd)
top=$here/../..
. "$here/../copy.sh"

enter_program wire_speed peek_poke
rt run
if command -v valgrind >/dev/null; then
    valgrind out/wire_speed 2>&1 >/dev/null | sed -n 's/.*total heap usage: *//p'
fi
