#!/usr/bin/env bash
# Real ends: `exchange drive` and `exchange c004`, over named pipes, ptys and files:
# tools/ends/run.sh [WORD..]
#
# All cases, or those whose names have one of the words. far.py is the other end of each way, and
# ends.py has the cases. A program that isn't built yet, or is older than its sources, is proved and
# built first. Another one is tried where EXCHANGE names it.
set -euo pipefail
unset CDPATH
here=$(cd "$(dirname "${BASH_SOURCE[0]}")" && pwd)
top=$(cd "$here/../.." && pwd)
work=$(mktemp -d)
trap 'rm -rf "$work"' EXIT
export PYTHONDONTWRITEBYTECODE=1
[ -n "${EXCHANGE-}" ] || "$top/exchange" prove
cc -O2 -shared -fPIC -o "$work/refuse.so" "$top/tools/hostile/refuse.c" -ldl
REFUSE_SO=$work/refuse.so python3 "$here/ends.py" "$@"
