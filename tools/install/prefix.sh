# What install.sh and uninstall.sh share: sourced with their words, it says which folder is meant.

# What was put there: the folders that were made, each with a slash at its end, then this list
# itself, then all other files.
list=share/exchange/installed

# Ends with the status, and says why.
fail() {
    local status=$1
    printf 'exchange: %s\n' "${@:2}" >&2
    exit "$status"
}

if [ $# -gt 1 ] || [[ ${1-} == -* ]] || [ -z "${1-.}" ]; then
    fail 2 "the words are: $(basename "$0" .sh) [PREFIX]"
fi
prefix=${1-${HOME:?}/.local}
[[ $prefix == /* ]] || prefix=$PWD/$prefix
if [ -d "$prefix" ]; then
    prefix=$(cd "$prefix" && pwd)
else
    prefix=${prefix%/}
fi
