#!/usr/bin/env bash
# Gathers all that is installed, and that a release has, in a new folder:
# tools/install/gather.sh FOLDER MODULES PAGES
#
# MODULES is the folder below FOLDER/lib where the module for Python is, and PAGES what the manual
# calls the folder of the pages. What isn't built is proved and built first. Nothing that is put
# there names FOLDER: it may be moved.
set -euo pipefail
unset CDPATH
umask 022
here=$(dirname "$(readlink -f "${BASH_SOURCE[0]}")")
top=$(cd "$here/../.." && pwd)
all=$1 modules=$2 pages=$3
"$here/build.sh"
work=$(mktemp -d)
trap 'rm -rf "$work"' EXIT
mkdir "$work/library" "$work/allocator"

# Puts a file below the folder.
put() {
    install -D -m "$1" "$2" "$all/$3"
}

# The program, which says the version of all.
put 755 "$top/crates/exchange/out/exchange" bin/exchange
version=$("$all/bin/exchange" --version | cut -d' ' -f2)

# The library for C, with the file of the kit that it takes its memory by; and the same as a shared
# library, which gives out calls alone. Its name has the version's first number.
shared=libexchange.so.${version%%.*}
(cd "$work/library" && ar x "$top/crates/exchange_c/out/libexchange_c.a")
(cd "$work/allocator" && ar x "$(dirname "$(rt doc)")/c/liblibc_c.a")
ar qcsD "$work/libexchange.a" "$work"/library/* "$work"/allocator/*
echo '{ global: exchange_*; local: *; };' >"$work/names"
cc -shared -o "$work/$shared" -Wl,-soname,"$shared" -Wl,-z,defs -Wl,--version-script="$work/names" \
    -Wl,--whole-archive "$work/libexchange.a" -Wl,--no-whole-archive
put 644 "$work/libexchange.a" lib/libexchange.a
mkdir "$all/lib/exchange"
ln -s ../libexchange.a "$all/lib/exchange/libexchange.a"
put 755 "$work/$shared" "lib/$shared"
ln -s "$shared" "$all/lib/libexchange.so"
put 644 "$top/include/exchange.h" include/exchange.h
for file in __init__.py py.typed; do
    put 644 "$top/python/exchange/$file" "lib/$modules/exchange/$file"
done

# pkg-config names a folder with the static library alone, so that a program runs wherever the
# shared one isn't found. (CMake finds no library by `-l:libexchange.a`.)
cat >"$work/exchange.pc" <<END_OF_TEXT
prefix=\${pcfiledir}/../..

Name: exchange
Description: Plans block transfers between transputer modules, and moves the blocks
Version: $version
Cflags: -I\${prefix}/include
Libs: -L\${prefix}/lib/exchange -lexchange
END_OF_TEXT
put 644 "$work/exchange.pc" lib/pkgconfig/exchange.pc

# The pages and the files of their examples, as they are in a clone;
# and what is made of the helps, for `man` and for shells.
mkdir -p "$all/share/doc/exchange"
(cd "$top" && find README.md CHANGES.md CONTRIBUTING.md docs/*.md rows/help examples -type f |
    tar --mode=u=rwX,go=rX -T - -cf -) |
    tar -C "$all/share/doc/exchange" --no-same-owner -xpf -
"$here/pages.py" "$all/bin/exchange" "$pages" "$all/share"
