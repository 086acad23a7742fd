# For tools in bash, which source it: they compare by `check`, which counts, and end by `finish`.
tool=$(basename "$(dirname "$0")")/$(basename "$0") tried=0 wrong=0

# check WHAT COMMAND..: counts, and says so where the command doesn't end well
check() {
    tried=$((tried + 1))
    "${@:2}" || { wrong=$((wrong + 1)) && echo "$tool: WRONG: $1"; }
}

# fails COMMAND..: whether a command fails, as in `check WHAT fails COMMAND..`
fails() {
    ! "$@"
}

# Says how much was tried, and whether all is well.
finish() {
    echo "$tool: $tried tried, $wrong wrong"
    [ "$tried" != 0 ] && [ "$wrong" = 0 ]
}

# Something wrong is checked first.
check "it fails" false >/dev/null
check "it ends well" fails true >/dev/null
check "it ends well" true >/dev/null
check "it fails" fails false >/dev/null
[ "$tried $wrong" = "4 2" ] || { echo "$tool: WRONG: what is wrong isn't seen" && exit 1; }
tried=0 wrong=0
