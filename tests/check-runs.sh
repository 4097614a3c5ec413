#!/bin/sh
# check-runs.sh [CRATE..]: runs programs as `rt ci` does: with the words of the crate's file `args` and the input of `stdin`, in a
# copy of its folder `data`, as nobody where root runs this. The output must be that of `stdout`, empty without that file, and the
# status that of `status`, else 0. By default it runs the programs that dist/ has. Each program counts once, but the player once for
# each line that it prints, the answer to one of its input. The last line has the totals. Exit status 1: a run differs, or a program
# is not built.
set -u

top=$(CDPATH='' cd -- "$(dirname "$0")/.." && pwd)
# shellcheck source=tests/built.sh
. "$top/tests/built.sh"
room=$(mktemp -d) || exit 1
trap 'rm -rf "$room"' EXIT
trap 'exit 1' HUP INT TERM
chmod 711 "$room"
passed=0 failed=0

# Makes the folder of a run, and sets `given`, its input.
lay_out() { # CRATE
    rm -rf "$room/data"
    if [ -d "$1/data" ]; then cp -R "$1/data" "$room/data"; else mkdir "$room/data"; fi
    given=/dev/null
    [ ! -f "$1/stdin" ] || given=$1/stdin
    if [ "$(id -u)" = 0 ]; then chown -R 65534:65534 "$room/data"; fi
}

# Runs a program for two minutes at most, with its output in `stdout`.
run() { # CRATE
    set -- "$1" "$program"
    if [ -f "$1/args" ]; then
        while IFS= read -r word || [ -n "$word" ]; do set -- "$@" "$word"; done <"$1/args"
    fi
    shift
    if [ "$(id -u)" = 0 ]; then set -- setpriv --reuid=65534 --regid=65534 --clear-groups --no-new-privs "$@"; fi
    (cd "$room/data" && exec env -i PATH="$PATH" HOME="$room/data" TMPDIR="$room/data" LANG=C.UTF-8 timeout -k 5 120 "$@") \
        <"$given" >"$room/stdout" 2>"$room/stderr"
}

# Counts the lines of the output that are as wanted, and shows the first that is not.
count_lines() { # WANTED
    awk -v found="$room/stdout" '
        { lines++; if ((getline line <found) > 0 && line == $0) alike++; else if (!first) { first = NR; wanted = $0; other = line } }
        END {
            while ((getline line <found) > 0) more++
            if (first) printf "FAILS the player, line %d of stdout is not\n    %s\nbut\n    %s\n", first, wanted, other
            print alike + 0, lines - alike + more
        }' "$1" >"$room/told"
    sed '$d' "$room/told"
    count=$(tail -n 1 "$room/told")
    passed=$((passed + ${count% *})) failed=$((failed + ${count#* }))
}

# Runs a crate's program and compares.
check() { # NAME
    crate=$top/crates/$1
    find_built "$1"
    cp "$program" "$room/$1"
    chmod 755 "$room/$1"
    program=$room/$1
    lay_out "$crate"
    run "$crate"
    status=$? wanted=0
    [ ! -f "$crate/status" ] || wanted=$(cat "$crate/status")
    expected=/dev/null
    [ ! -f "$crate/stdout" ] || expected=$crate/stdout
    if [ "$status" != "$wanted" ]; then
        failed=$((failed + 1))
        echo "FAILS $1: status $status, and not $wanted: $(tail -n 1 "$room/stderr")"
    elif [ "$1" = "$dist_player" ]; then
        count_lines "$expected"
    elif cmp "$room/stdout" "$expected"; then
        passed=$((passed + 1))
        echo "ok $1"
    else
        failed=$((failed + 1))
        echo "FAILS $1: the output is not that of crates/$1/stdout"
    fi
}

# shellcheck disable=SC2086 # split into words
[ $# -gt 0 ] || set -- $dist_programs
for name; do check "$name"; done
echo "$passed passed, $failed failed"
[ "$failed" = 0 ]
