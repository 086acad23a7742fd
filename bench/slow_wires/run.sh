#!/usr/bin/env bash
# Measures what workers gain where wires take time: a run of 8 settings of 16 pairs, a block of 256
# words each, by one worker, two, four and sixteen, over wires that keep a processor busy 6
# microseconds a word and over wires that sleep 100 microseconds a word. The former want four
# processors that nothing else is at. The program slow_wires.rattle is proved and built first
# (../copy.sh). At last plain threads that are as busy show what the system gives
# (plain_threads.rs).
set -eu
here=$(cd "$(dirname "${BASH_SOURCE[0]}")" && pwd)
top=$here/../..
. "$here/../copy.sh"

enter_program slow_wires setting_runner
rt run
rustc --edition 2021 -O -o "$work/plain_threads" "$here/plain_threads.rs"
"$work/plain_threads"
