#!/usr/bin/env bash
# Makes a release: tools/release.sh FOLDER
#
# It is an archive in FOLDER, carawaybrick-VERSION-x86_64-linux.tar.gz, which may be unpacked
# anywhere; a package for Debian, where dpkg-deb is there; and a wheel for Python. The archive has
# what `./exchange install` puts into a folder, INSTALL, and in share/exchange the commit, the
# verdicts that `rt check` gives on the crates, and the sums of all other files. Nothing in them
# says where they were made, or when: from one build they are the same to the byte each time. What
# isn't built is proved and built first.
#
#     tools/release.sh --check
#
# makes two of each, with the verdict on the first crate alone, and uses one where it wasn't made.
# Of the archive: what INSTALL says, its sums, two pages, the emulator in C by pkg-config, and where
# CMake is there by that too, and the emulator in Python. Of the package: its sums, whose it is, and
# the same where it was unpacked; and where lintian is there, what that says. Of the wheel: a call
# in a virtual environment.
set -euo pipefail
shopt -s inherit_errexit
unset CDPATH
top=$(cd "$(dirname "$(readlink -f "${BASH_SOURCE[0]}")")/.." && pwd)
work=$(mktemp -d)
trap 'rm -rf "$work"' EXIT
modules=python3/site-packages

# Ends with the status, and says why.
fail() {
    echo "release: ${*:2}" >&2
    exit "$1"
}

# The line that the checker's verdict on each of these crates ends with.
verdicts() {
    local crate said
    for crate in "$@"; do
        said=$(cd "$top/crates/$crate" && rt check 2>&1 | grep '^logic=proved ') ||
            fail 3 "$crate isn't proved"
        echo "$crate: $said"
    done
}

# What stands at the top of an archive.
say_how() {
    cat <<END
Carawaybrick $1, for Linux on x86-64. It needs no kit, and may lie anywhere. In this folder:

    export PATH=\$PWD/bin:\$PATH
    export PKG_CONFIG_PATH=\$PWD/lib/pkgconfig PYTHONPATH=\$PWD/lib/$modules
    cd share/doc/exchange
    exchange plan examples/three-transfers.txt

The page to begin with is README.md there; \`man exchange\` has the commands. The examples on the
pages make files, so they want a copy of share/doc/exchange that can be written to.
In share/exchange are the commit, the checker's verdicts, and sums for \`sha256sum -c\`.
END
}

# Makes the archive, the package and the wheel in a folder that is there already, with the verdicts
# on these crates, and prints their paths.
make() {
    local all name made
    all=$(mktemp -d -p "$work")
    "$top/tools/install/gather.sh" "$all/new" "$modules" share/doc/exchange
    name=carawaybrick-$("$all/new/bin/exchange" --version | cut -d' ' -f2)-x86_64-linux
    mv "$all/new" "$all/$name"
    mkdir "$all/$name/share/exchange"
    say_how "$(cut -d- -f2 <<<"$name")" >"$all/$name/INSTALL"
    made=$(git -C "$top" log -1 --format=%ct)
    git -C "$top" rev-parse HEAD >"$all/$name/share/exchange/commit"
    verdicts "${@:2}" >"$all/$name/share/exchange/verdicts"
    (cd "$all/$name" && find . -type f -printf '%P\0' | LC_ALL=C sort -z |
        xargs -0 sha256sum >"$all/sums")
    mv "$all/sums" "$all/$name/share/exchange/sums"
    [ ! "${OWNER-}" ] || [ "$EUID" != 0 ] || chown -R "$OWNER" "$all/$name"
    LC_ALL=C tar -C "$all" --sort=name --format=gnu --owner=0 --group=0 --numeric-owner \
        --mode=u=rwX,go=rX --mtime="@$made" -cf - "$name" |
        gzip -9n >"$all/archive"
    mv "$all/archive" "$1/$name.tar.gz"
    echo "$1/$name.tar.gz"
    "$top/tools/install/wheel.py" "$1" "$all/$name/lib/$modules/exchange" \
        "$(realpath "$all/$name/lib/libexchange.so")"
    ! command -v dpkg-deb >/dev/null || "$top/tools/install/debian.sh" "$1" "$made"
}

# Builds a program in C by CMake, which finds the library by pkg-config, and runs it.
by_cmake() {
    rm -rf "$work/cmake" && mkdir "$work/cmake"
    cat >"$work/cmake/CMakeLists.txt" <<END
cmake_minimum_required(VERSION 3.10)
project(program C)
find_package(PkgConfig REQUIRED)
pkg_check_modules(EXCHANGE REQUIRED IMPORTED_TARGET exchange)
add_executable(program $(realpath "$1"))
target_link_libraries(program PkgConfig::EXCHANGE)
END
    cmake -S "$work/cmake" -B "$work/cmake/built" >&2 && cmake --build "$work/cmake/built" >&2 &&
        "$work/cmake/built/program"
}

# prints FILE COMMAND..: whether a command prints what is in a file
prints() {
    "${@:2}" | cmp - "$1"
}

# refuses WORDS COMMAND..: whether a command fails and says these words
refuses() {
    ! "${@:2}" 2>"$work/said" && grep -q "$1" "$work/said"
}

# Uses what is in this folder, where the pages are and the modules for Python: two pages, and the
# emulators in C and in Python.
use() {
    local -x PATH=$1/bin:$PATH PKG_CONFIG_PATH=$1/lib/pkgconfig PYTHONPATH=$1/lib/$3
    local -x PYTHONDONTWRITEBYTECODE=1
    cd "$1/share/doc/$2"
    check "the pages' examples" "$top/tools/texts/run.py" --installed "$PWD" README.md docs/GUIDE.md
    cc -o "$work/emulator" examples/emulator/emulator.c $(pkg-config --cflags --libs exchange)
    check "the emulator in C" prints examples/emulator/printed.txt "$work/emulator"
    if command -v cmake >/dev/null; then
        check "the emulator in C, by CMake" prints examples/emulator/printed.txt \
            by_cmake examples/emulator/emulator.c
    else
        echo "release: CMake is missing, so it wasn't tried"
    fi
    check "the emulator in Python" prints examples/emulator/printed-python.txt \
        python3 examples/emulator/emulator.py
    check "the patterns" examples/patterns/make.sh --check
}

# Uses a package that is unpacked into an empty root.
use_package() {
    mkdir "$work/root"
    dpkg-deb -c "$1" >"$work/files"
    check "who has the package's files, or who may read them" fails \
        grep -vE '^(-rw-r--r--|[-d]rwxr-xr-x|lrwxrwxrwx) root/root ' "$work/files"
    dpkg-deb -x "$1" "$work/root"
    dpkg-deb -e "$1" "$work/control"
    check "the package's sums" env -C "$work/root" md5sum --quiet -c "$work/control/md5sums"
    use "$work/root/usr" carawaybrick python3/dist-packages
    if command -v lintian >/dev/null; then
        lintian --allow-root "$1" >"$work/said" 2>&1 || true
        check "what lintian says as long as nobody maintains it" grep -q bogus-mail-host \
            "$work/said"
        sed -i -E '/bogus-mail-host|copyright-without-copyright-notice/d' "$work/said"
        check "what lintian says besides" fails grep '^[EW]:' "$work/said"
    else
        echo "release: lintian is missing, so the package isn't judged by it"
    fi
}

# Calls a wheel in a virtual environment.
use_wheel() {
    local python=$work/venv/bin/python3 package
    python3 -m venv "$work/venv"
    "$python" -m pip install -q --no-index --no-deps "$1"
    package=$(echo "$work"/venv/lib/python3*/site-packages)/exchange
    check "the wheel has types" [ -e "$package/py.typed" ]
    check "the wheel" prints "$top/examples/emulator/printed-python.txt" \
        env -C "$work" -u PYTHONPATH "$python" "$top/examples/emulator/emulator.py"
    "$python" -m pip uninstall -q -y carawaybrick
    check "the wheel leaves something" [ ! -e "$package" ]
    "$python" -m zipfile -e "$1" "$work/wheel"
    { echo GLIBC_2.17 && strings "$work"/wheel/exchange/*.so.* | grep '^GLIBC_2'; } |
        sort -V | tail -n 1 >"$work/newest"
    check "the system that the wheel wants" grep -qx GLIBC_2.17 "$work/newest"
}

# Whether each file of a folder has its sum, in their order, and no other file is there.
has_sums() {
    (cd "$1" && sha256sum --status -c share/exchange/sums && cut -d' ' -f3- share/exchange/sums |
        LC_ALL=C sort -c) 2>/dev/null &&
        [ "$(find "$1" -type f | wc -l)" -eq $(($(wc -l <"$1/share/exchange/sums") + 1)) ]
}

# Uses an archive that was unpacked into this folder.
use_archive() {
    cd "$1"/*
    local all=$PWD shown
    check "its sums" has_sums "$all"
    # It is handed wrong ones first.
    echo >>INSTALL
    check "a file that was changed" fails has_sums "$all"
    truncate -s -1 INSTALL
    touch new
    check "a file without a sum" fails has_sums "$all"
    rm new
    check "its verdicts" grep -qE '^[[:alnum:]_]+: logic=proved functions=[0-9]+ ' \
        share/exchange/verdicts
    check "its commit" [ "$(<share/exchange/commit)" = "$(git -C "$top" rev-parse HEAD)" ]
    check "files that say where it was made" fails grep -rlF -e "$top/crates" -e "$work" "$all"

    check "INSTALL is short" [ "$(wc -l <INSTALL)" -le 12 ]
    shown=$(sed -n 's/^    //p' INSTALL)$'\n''pkg-config --exists exchange
        python3 -Bc "import exchange"'
    bin/exchange plan share/doc/exchange/examples/three-transfers.txt >"$work/planned"
    check "what INSTALL says" prints "$work/planned" \
        env -i "PATH=/usr/bin:/bin" bash -ec "$shown"
    use "$all" exchange "$modules"
}

mapfile -t crates < <(
    sed -E '/^#/d; s/[ :].*//; /^exchange$/q' "$top/crates.txt" | grep -v '_tests$'
)
case ${1-} in
--check)
    . "$top/tools/harness.sh"
    # Files of another owner are root's in what is made.
    export OWNER=65534
    mkdir "$work/first" "$work/second" "$work/elsewhere"
    mapfile -t files < <(make "$work/first" "${crates[0]}")
    make "$work/second" "${crates[0]}" >/dev/null
    check "two releases of one build" diff -r "$work/first" "$work/second"
    archive=${files[0]}
    tar -tzf "$archive" | sed 's|/$||; y|/|\x01|' >"$work/files"
    check "the order of its files" env LC_ALL=C sort -c "$work/files"
    tar -tvzf "$archive" >"$work/files"
    check "who has these files, or who may read them" fails \
        grep -vE '^(-rw-r--r--|[-dl]rwxr-xr-x) 0/0 ' "$work/files"
    tar -C "$work/elsewhere" -xzf "$archive"
    use_archive "$work/elsewhere"
    use_wheel "${files[1]}"
    if [ ${#files[@]} -gt 2 ]; then
        use_package "${files[2]}"
    else
        echo "release: dpkg-deb is missing, so no package is made"
    fi
    # Of what isn't proved, or in no commit, none is made.
    printf '#!/bin/sh\necho logic=open\n' >"$work/rt"
    chmod +x "$work/rt"
    no_verdict() { ! (PATH=$work:$PATH && verdicts "${crates[0]}") 2>/dev/null; }
    check "a crate that isn't proved has a verdict" no_verdict
    git clone -q "$top" "$work/clone" && touch "$work/clone/changed"
    release=(env "PATH=$work:$PATH" "$work/clone/tools/release.sh")
    check "what is in no commit is released" refuses "made of a commit" \
        "${release[@]}" "$work/first"
    # Of what can't be built neither.
    rm "$work/clone/changed"
    printf '#!/bin/sh\n[ "$1" = check ] && echo logic=proved functions=1\n' >"$work/rt"
    check "what isn't built is released" refuses "" "${release[@]}" "$work/first"
    check "a folder that isn't there" refuses "no folder" "${release[@]}" "$work/none"
    # What is built has the verdict on each crate.
    (cd "$top" && tar -cf - crates/exchange/out/exchange crates/exchange_c/out/libexchange_c.a) |
        tar -C "$work/clone" -xmf -
    {
        printf '#!/bin/sh\ncase $1 in check) echo logic=proved functions=1 ;; '
        printf 'doc) echo "%s" ;; *) exit 1 ;; esac\n' "$(rt doc)"
    } >"$work/rt"
    archive=$("${release[@]}" "$work/first")
    archive=${archive%%$'\n'*}
    printf '%s\n' "${crates[@]}" >"$work/crates"
    check "the crates of its verdicts" prints "$work/crates" eval \
        'tar -xzOf "$archive" --wildcards "*/share/exchange/verdicts" | cut -d: -f1'
    finish
    ;;
'' | -*) fail 2 "the words are: FOLDER, or --check" ;;
*)
    [ -d "$1" ] || fail 1 "there is no folder $1"
    [ -z "$(git -C "$top" status --porcelain)" ] ||
        fail 1 "it is made of a commit, and here are changes that aren't in one"
    make "$1" "${crates[@]}"
    ;;
esac
