# shellcheck shell=sh
# Read by the scripts that run a proved program, after bin/script.sh: `built NAME` proves and builds it where it is not up to date.
kept=$root/target/tool

# Whatever the programs are made of, as one number.
sources() {
    (
        cd "$root" || exit
        rt version </dev/null
        uname -m
        find crates.txt crates -name out -prune -o -type f -print0 | LC_ALL=C sort -z | xargs -0 sha256sum
    ) | sha256sum
}

# The program's own number belongs to it: somebody may have built it from other sources meanwhile.
up_to_date() {
    [ -x "$program" ] && [ "$(sources && sha256sum <"$program")" = "$(cat "$kept/$1.state" 2>/dev/null)" ]
}

prove() {
    took=$(cat "$kept/$1.took" 2>/dev/null) && took="last time that took $took s" || took="that takes some minutes"
    echo "$tool: the program $1 is proved and built now; $took. This happens once, and again after a change" >&2
    before=$(sources)
    # rt looks at the sources alone: it would not see another program in its place.
    if [ ! -x "$program" ] || [ "$before" = "$(head -n 1 "$kept/$1.state" 2>/dev/null)" ]; then
        rm -f "$program" "$program.stamp"
    fi
    began=$(date +%s)
    # It runs the program too, on nothing; a program ends with 0, whatever it says on descriptor 3.
    (cd "$root/crates/$1" && rt run </dev/null 3>/dev/null) >"$kept/$1.log" 2>&1 || {
        tail -n 20 "$kept/$1.log" >&2
        fail "the program $1 is not built: the last lines of $kept/$1.log are above"
    }
    took=$(($(date +%s) - began))
    [ -x "$program" ] || fail "rt run made no $program: remove $root/crates/$1/out and try again"
    if grep -q "^rt: nothing has changed" "$kept/$1.log"; then
        echo "$tool: $1 was up to date" >&2
    else
        echo "$tool: proved and built in $took s" >&2
        echo $took >"$kept/$1.took"
    fi
    # What was changed meanwhile may be in the program or not.
    [ "$(sources)" != "$before" ] || { echo "$before" && sha256sum <"$program"; } >"$kept/$1.state"
}

# Sets `program`. `rt run` alone would do: it proves only what has changed. But to find that nothing has takes it longer than a listing.
built() {
    command -v rt >/dev/null || fail "no rt on the path: unpack the Rattle kit and put the folder of its rt on the path"
    program=$root/crates/$1/out/$1
    up_to_date "$1" && return
    if ! mkdir -p "$kept" || [ ! -w "$kept" ]; then
        fail "cannot write to $kept, where the program $1 is to be built"
    fi
    # One caller proves, the others wait for it.
    {
        flock 9
        up_to_date "$1" || prove "$1"
    } 9>"$kept/lock"
}
