#!/usr/bin/env bash
# Takes away what install.sh put into a folder: tools/install/uninstall.sh [PREFIX]
#
# `./exchange uninstall` calls this. It goes by the list that install.sh left there, from its end to
# its beginning: first the files, and then the folders that were made for them, where nothing else
# is in them.
set -euo pipefail
unset CDPATH
source "$(dirname "$(readlink -f "${BASH_SOURCE[0]}")")/prefix.sh"

# Takes away a folder, where it is there and nothing is in it.
drop() {
    [ ! -d "$1" ] || rmdir --ignore-fail-on-non-empty "$1"
}

grep -qsxF "$list" "$prefix/$list" || fail 1 "nothing is installed in $prefix"
mapfile -t lines <"$prefix/$list"
for ((at = ${#lines[@]} - 1; at >= 0; at--)); do
    line=${lines[at]}
    case $line in
    /* | *..*) fail 1 "$prefix/$list isn't as it was written: $line" ;;
    ./) drop "$prefix" ;;
    */) drop "$prefix/$line" ;;
    */__init__.py)
        # Python leaves what it compiled beside a module.
        compiled=$prefix/${line%/*}/__pycache__
        rm -f "$prefix/$line" "$compiled"/__init__.*.pyc
        drop "$compiled"
        ;;
    *) rm -f "$prefix/$line" ;;
    esac
done
echo "exchange: what was installed in $prefix is taken away"
