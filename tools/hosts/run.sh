#!/usr/bin/env bash
# Live clients of `exchange host`, over named pipes: tools/hosts/run.sh [COUNT]
#
# hosts.py makes the pipes, and is each client. It also runs the walks of docs/GUIDE.md, in two
# shells, and examples/all-reduce.py. files.py looks at the order in which each command opens,
# locks, writes, syncs and renames its files, and lets that fail; bursts.py at that in which a host
# writes its record and its replies. moments.py kills hosts at random moments, COUNT times, 200
# where it isn't said, and looks at what their records have. flips.py spoils records, of their bits
# here each ninth, and asks `replay`, or a session that goes on with them. A program that isn't
# built yet, or is older than its sources, is proved and built first. Another one is tried where
# EXCHANGE names it.
set -euo pipefail
unset CDPATH
here=$(cd "$(dirname "${BASH_SOURCE[0]}")" && pwd)
top=$(cd "$here/../.." && pwd)
work=$(mktemp -d)
trap 'rm -rf "$work"' EXIT
export PYTHONDONTWRITEBYTECODE=1
[ -n "${EXCHANGE-}" ] || "$top/exchange" prove
cc -O2 -shared -fPIC -o "$work/refuse.so" "$top/tools/hostile/refuse.c" -ldl
cc -O2 -shared -fPIC -o "$work/calls.so" "$here/calls.c" -ldl
failed=
python3 "$here/hosts.py" || failed+=" hosts"
python3 "$here/turns.py" "$work/calls.so" || failed+=" turns"
LIBRARIES=$work/refuse.so:$work/calls.so python3 "$here/files.py" || failed+=" files"
python3 "$here/bursts.py" "$work/calls.so" || failed+=" bursts"
python3 "$here/flips.py" 3 9 || failed+=" flips"
python3 "$here/moments.py" "${1-200}" || failed+=" moments"
[ ! "$failed" ] || { echo "live clients: WRONG:$failed" && exit 1; }
