#!/usr/bin/env bash
# Writes bench/README.md: runs the benches that count, and fills their figures into page.md by
# fill.py.
#
# Needs valgrind, rustc and python3. Build the program first: ./exchange prove
set -eu
export LC_ALL=C
here=$(cd "$(dirname "${BASH_SOURCE[0]}")" && pwd)
for tool in valgrind rustc python3; do
    if ! command -v $tool >/dev/null; then
        echo "all: $tool is missing, so nothing was counted" >&2
        exit 1
    fi
done
work=$(mktemp -d)
trap 'rm -rf "$work"' EXIT

for bench in planning/run directions/run run/apply run/growth run/overlap session/lines; do
    echo "$bench.sh .."
    if ! "$here/$bench.sh" >"$work/printed"; then
        cat "$work/printed"
        exit 1
    fi
    sed "s|^|${bench%/*} |" "$work/printed" >>"$work/figures"
done
"$here/fill.py" "$work/figures" <"$here/page.md" >"$work/README.md"
mv "$work/README.md" "$here/README.md"
