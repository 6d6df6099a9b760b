# shellcheck shell=sh
# Read by every script here: where it stands, its help, its version, and how it fails.
root=$(cd "$(dirname "$0")/.." && pwd)
tool=bin/$(basename "$0")

fail() {
    printf '%s: %s\n' "$tool" "$1" >&2
    exit 2
}

# The comment at the top of a script is its help.
help() {
    sed -n '1d; /^#/!q; s/^# \{0,1\}//p' "$0"
}

version() {
    calls=$(sed -n 's/^const VERSION: u32 = \([0-9]*\);$/\1/p' "$root/crates/puffsatchel/src/lib.rt")
    printf 'Puffsatchel, version %s of the calls, proved with %s\n' "${calls:-unknown}" "$(cat "$root/toolchain.txt")"
}

# about WORD: answers --help and --version, and ends there
about() {
    case $1 in
    --help | --version)
        "${1#--}" || fail "cannot write to standard output"
        exit 0
        ;;
    esac
}

usage() {
    help | sed -n '/^usage: /,/^$/{/./p}' >&2
    echo "$tool --help says more" >&2
    exit 2
}

about "${1-}"
