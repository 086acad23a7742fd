#!/usr/bin/env bash
# Measures how many calls a second a book answers, on an empty book and on one whose history has
# 60,000 entries: `Peek`, which looks at a word, and `Show`, which looks for a batch. Each figure is
# that of the quickest of twenty books. The program book_speed.rattle is proved and built first
# (../copy.sh).
set -eu
here=$(cd "$(dirname "${BASH_SOURCE[0]}")" && pwd)
top=$here/../..
. "$here/../copy.sh"

enter_program book_speed batch_book
rt run
