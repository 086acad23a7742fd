#!/usr/bin/env bash
# Puts the program, and the library for programs in C and in Python, into a folder:
# tools/install/install.sh [PREFIX]
#
# `./exchange install` calls this. PREFIX is ~/.local where it isn't said. What isn't built is
# proved and built first. What an earlier install put there is replaced; where another file is in
# the way, nothing is put. uninstall.sh takes all away.
set -euo pipefail
unset CDPATH
umask 022
here=$(dirname "$(readlink -f "${BASH_SOURCE[0]}")")
source "$here/prefix.sh"

[[ $prefix != *[[:space:]\$\'\"\\\#]* ]] || fail 1 "pkg-config can't name this folder: $prefix"
[ -d "$(dirname "$prefix")" ] || fail 1 "there is no folder $(dirname "$prefix")"
for tool in rt cc ar python3; do
    command -v "$tool" >/dev/null || fail 1 "the command $tool isn't on the PATH"
done
work=$(mktemp -d)
trap 'rm -rf "$work"' EXIT

# The folder of the module for Python: where python3 looks below the prefix, or would look if the
# folder were there, and else where modules usually are.
python=$prefix/bin/python3
[ -x "$python" ] || python=python3
modules=$("$python" - "$prefix" <<'END_OF_PYTHON'
import os, site, sys

lib = os.path.join(os.path.realpath(sys.argv[1]), "lib")
paths = [*sys.path, site.getusersitepackages()]
looks = [os.path.realpath(it) for it in paths if it.endswith("-packages")]
fits = [os.path.relpath(it, lib) for it in looks if os.path.dirname(os.path.dirname(it)) == lib]
print([*fits, "python%d.%d/site-packages" % sys.version_info[:2]][0])
END_OF_PYTHON
)
"$here/gather.sh" "$work/all" "$modules" "$prefix/share/doc/exchange"

# What is in the way.
cd "$work/all"
mapfile -t files < <(find . ! -type d -printf '%P\n' | LC_ALL=C sort)
mapfile -t folders < <(
    { find . -type d -printf '%p/\n'; printf '%s/\n' ./share ./share/exchange; } | LC_ALL=C sort -u
)
faults=()
for file in "$list" "${files[@]}"; do
    if [ -e "$prefix/$file" ] || [ -L "$prefix/$file" ]; then
        grep -qsxF "$file" "$prefix/$list" || faults+=("$prefix/$file is there already")
    fi
done
for folder in "${folders[@]}"; do
    if [ -e "$prefix/${folder%/}" ]; then
        [ -d "$prefix/$folder" ] && [ -w "$prefix/$folder" ] ||
            faults+=("$prefix/$folder is no folder that can be written to")
    fi
done
[ ${#faults[@]} -eq 0 ] || fail 1 "${faults[@]}" "so nothing is installed"

# The list comes first, so that uninstall.sh takes away all that was put,
# also where this is interrupted.
[ ! -e "$prefix/$list" ] || "$here/uninstall.sh" "$prefix" >/dev/null
for folder in "${folders[@]}"; do
    [ -d "$prefix/$folder" ] || echo "$folder"
done >"$work/list"
printf '%s\n' "$list" "${files[@]}" >>"$work/list"
install -D -m 644 "$work/list" "$prefix/$list"
for file in "${files[@]}"; do
    mkdir -p "$prefix/$(dirname "$file")"
    cp -pP "$file" "$prefix/$file"
done

echo "exchange: installed in $prefix:"
printf '  %s\n' "${files[@]}" "$list"
[ "$(command -v exchange)" = "$prefix/bin/exchange" ] ||
    echo "For the shell:      export PATH=$prefix/bin:\$PATH"
[ "$(pkg-config --variable=prefix exchange 2>/dev/null)" -ef "$prefix" ] ||
    echo "For pkg-config:     export PKG_CONFIG_PATH=$prefix/lib/pkgconfig"
found=$(cd / && "$python" -B -c 'import exchange; print(exchange.__file__)' 2>/dev/null) || true
[ "$found" -ef "$prefix/lib/$modules/exchange/__init__.py" ] ||
    echo "For Python:         export PYTHONPATH=$prefix/lib/$modules"
