#!/usr/bin/env bash
# Makes a package for Debian: tools/install/debian.sh FOLDER COMMIT-TIME
#
# It is carawaybrick_VERSION_amd64.deb in FOLDER, whose path is printed. It puts into /usr what
# `./exchange install` puts into a folder, and belongs to root. No licence and no maintainer are
# chosen yet. From one build it is the same to the byte each time.
set -euo pipefail
unset CDPATH
umask 022
here=$(dirname "$(readlink -f "${BASH_SOURCE[0]}")")
export SOURCE_DATE_EPOCH=$2
work=$(mktemp -d)
trap 'rm -rf "$work"' EXIT
root=$work/root docs=usr/share/doc/carawaybrick
mkdir "$root"
"$here/gather.sh" "$root/usr" python3/dist-packages /usr/share/doc/carawaybrick
mv "$root/usr/share/doc/exchange" "$root/$docs"
version=$("$root/usr/bin/exchange" --version | cut -d' ' -f2)

# What a policy of Debian wants otherwise than an install has it.
strip --strip-unneeded "$root/usr/bin/exchange" "$root"/usr/lib/libexchange.so.*
strip --strip-debug "$root/usr/lib/libexchange.a"
chmod 644 "$root"/usr/lib/libexchange.so.*
gzip -9n "$root"/usr/share/man/man1/*.1
mkdir -p "$root/usr/share/zsh" "$root/DEBIAN"
mv "$root/usr/share/zsh/site-functions" "$root/usr/share/zsh/vendor-completions"
echo "No licence is chosen yet." >"$root/$docs/copyright"
changes=("carawaybrick ($version) unstable; urgency=medium" "  * CHANGES.md says what is new."
    " -- Nobody <nobody@localhost>  $(LC_ALL=C date -uRd "@$2")")
printf '%s\n\n' "${changes[@]}" | gzip -9n >"$root/$docs/changelog.gz"
mkdir -p "$root/usr/share/lintian/overrides"
cat >"$root/usr/share/lintian/overrides/carawaybrick" <<END_OF_TEXT
# One package has the program, the library and what C needs of it.
carawaybrick: link-to-shared-library-in-wrong-package *
carawaybrick: package-name-doesnt-match-sonames *
# The library for Python is found from the package's own place.
carawaybrick: pkg-config-unavailable-for-cross-compilation *
END_OF_TEXT
cat >"$root/DEBIAN/control" <<END_OF_TEXT
Package: carawaybrick
Version: $version
Architecture: amd64
Maintainer: Nobody <nobody@localhost>
Section: electronics
Priority: optional
Depends: libc6 (>= 2.34)
Suggests: python3
Installed-Size: $(du -sk --exclude=DEBIAN "$root" | cut -f1)
Description: plans of block transfers between transputer modules
 The modules' links meet in an INMOS IMS C004 link switch. The program exchange
 finds plans with the fewest settings of the switch, sets it, and emulates a
 rack. Its answers are proved. A library for C and a package for Python give the
 same answers.
END_OF_TEXT
echo 'activate-noawait ldconfig' >"$root/DEBIAN/triggers"
echo "libexchange ${version%%.*} carawaybrick (>= $version)" >"$root/DEBIAN/shlibs"
(cd "$root" && find usr -type f -printf '%p\0' | LC_ALL=C sort -z | xargs -0 md5sum) \
    >"$root/DEBIAN/md5sums"
find "$root" -exec touch -hd "@$2" {} +
[ ! "${OWNER-}" ] || [ "$EUID" != 0 ] || chown -R "$OWNER" "$root"
dpkg-deb --root-owner-group --build "$root" "$1/carawaybrick_${version}_amd64.deb" >&2
echo "$1/carawaybrick_${version}_amd64.deb"
