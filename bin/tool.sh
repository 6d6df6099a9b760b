# shellcheck shell=sh
# Read by bin/list, bin/outline and bin/check: the options, the files, and how the program ended.
# A script that has more options than --comments names them in `switches`; those that were given are in `asked`.
. "$(dirname "$0")/script.sh"
. "$(dirname "$0")/built.sh"

# Whoever reads our output may stop early: that is exit 2 without a message.
trap 'exit 2' PIPE
# A closed descriptor would be taken by the next pipe.
(: 3>&1) 2>/dev/null || fail "standard output is closed"
stdin=open
(: 3<&0) 2>/dev/null || {
    stdin=closed
    exec </dev/null
}

# Where comments end: as in rune unless it is said.
comments=crate
asked=

while [ $# -gt 0 ]; do
    case $1 in
    --comments)
        case ${2-} in
        crate | first) comments=$2 ;;
        *) fail "--comments ${2-}: say crate (comments end as in rune) or first (the first */ ends a comment)" ;;
        esac
        shift 2
        ;;
    --)
        shift
        break
        ;;
    -?*)
        about "$1"
        case " ${switches-} " in
        *" $1 "*) asked="$asked $1" ;;
        *) fail "$1: no such option; $tool --help has them all" ;;
        esac
        shift
        ;;
    *) break ;;
    esac
done

# A file that can be read, or - for standard input.
readable() {
    if [ "$1" = - ]; then
        [ $stdin = open ] || fail "standard input is closed: name a file"
    elif [ -d "$1" ]; then
        fail "$1 is a folder: name a file"
    elif [ ! -e "$1" ]; then
        fail "$1: there is no such file"
    elif [ ! -r "$1" ]; then
        fail "$1: you have no right to read this file"
    fi
}

# Runs the program. The digit that it writes to descriptor 3 as its last act is its status; without one it did not come so far.
run() {
    { ended=$("$root/bin/run" "$program" "$@" 3>&1 >&4 4>&-); } 4>&1
    case $ended in
    0 | 1) return "$ended" ;;
    *) return 2 ;;
    esac
}

# run_on FILE: with the file, or - as it is, as standard input
run_on() {
    if [ "$1" = - ]; then
        run --comments "$comments"
    else
        run --comments "$comments" <"$1"
    fi
}
