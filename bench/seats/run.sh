#!/usr/bin/env bash
# Measures how many calls a second the seats of one exchange make, one seat, two and four at once,
# and how many readings a second a seat takes while the runs of another go on. The program
# seats_speed.rattle is proved and built first (../copy.sh).
set -eu
here=$(cd "$(dirname "${BASH_SOURCE[0]}")" && pwd)
top=$here/../..
. "$here/../copy.sh"

enter_program seats_speed batch_book
rt run
