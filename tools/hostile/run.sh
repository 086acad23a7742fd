#!/usr/bin/env bash
# Hostile use of the built program: tools/hostile/run.sh [COUNT]
#
#   judges    what judges answers here is handed wrong ones
#   streams   files and streams that can't be read, and streams that can't be written
#   growths   each growth of memory refused in turn, of the command line and of the calls that it
#             doesn't make
#   texts     COUNT spoilt texts of each kind, 2500 where it isn't said, and 10000 before a
#             release, with those of rare answers, judged by a second implementation as well
#   clients   COUNT / 10 rounds of sixteen clients at once, whose record both implementations replay
#
# Programs that aren't built yet, or are older than their sources, are proved and built first.
set -euo pipefail
unset CDPATH
export LC_ALL=C
here=$(cd "$(dirname "${BASH_SOURCE[0]}")" && pwd)
top=$(cd "$here/../.." && pwd)
work=$(mktemp -d)
trap 'kill $(jobs -p) 2>/dev/null || true; rm -rf "$work"' EXIT
export PYTHONDONTWRITEBYTECODE=1

"$top/exchange" prove
calls=$top/crates/hostile_use/out/hostile_use
if [ ! -x "$calls" ] || [ -n "$(find "$top/crates.txt" "$top"/crates/*/src "$top"/crates/*/specs \
    -type f -newer "$calls" -print -quit)" ]; then
    echo "run.sh: proving and building hostile_use .." >&2
    touch "$work/began"
    (cd "$top/crates/hostile_use" && rt run) >"$work/log" 2>&1 || { cat "$work/log" >&2; exit 3; }
    touch -r "$work/began" "$calls"
fi
cc -O2 -shared -fPIC -o "$work/refuse.so" "$here/refuse.c" -ldl

failed=
python3 "$here/judges.py" || failed+=" judges"
# The streams are tried one after another, and often wait: so that is done beside the growths.
python3 "$here/streams.py" >"$work/streams" 2>&1 &
streams=$!
python3 "$here/growths.py" "$work/refuse.so" || failed+=" growths"
wait "$streams" || failed+=" streams"
cat "$work/streams"
python3 "$here/texts.py" "${1:-2500}" || failed+=" texts"
python3 "$here/clients.py" $((${1:-2500} / 10)) || failed+=" clients"
if [ -n "$failed" ]; then
    echo "hostile use: WRONG:$failed"
    exit 1
fi
echo "hostile use: all is well"
